//! Calls by the tray in the proved archive: against the plain monitor's calls made singly, and in pairs of trays that an observer must
//! not be able to tell apart.

use crate::archive::Archive;
use trial::{Rng, trays};

#[test]
fn trays_are_calls_made_singly_and_nothing_flows_down() {
    let mut rng = Rng::for_trial("trays_are_calls_made_singly_and_nothing_flows_down", 13);
    let mut met = trays::Met::default();
    trays::everything(&Archive, &mut rng, trial::setting("TRIAL_TRAYS", 3_000), &mut met);
    println!("{met:#?}");
    met.assert_complete();
}
