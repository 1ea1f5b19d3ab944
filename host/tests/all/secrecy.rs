//! Nothing flows down in the proved archive: pairs of runs that an observer must not be able to tell apart.

use crate::archive::Archive;
use trial::{Rng, secrecy, tables};

#[test]
fn nothing_flows_down() {
    let mut rng = Rng::for_trial("nothing_flows_down", 12);
    let mut met = secrecy::Met::default();
    for _ in 0..trial::setting("TRIAL_RUNS", 4_000) {
        let limits = tables::limits(&mut rng);
        secrecy::pair_of_runs(&Archive, &mut rng, limits, 40, &mut met);
    }
    println!("{met:#?}");
    met.assert_complete();
}

/// Where the premise of regrades is broken, an observer is told: it is needed.
#[test]
fn the_premise_of_regrades_is_needed() {
    let mut rng = Rng::for_trial("the_premise_of_regrades_is_needed", 18);
    let mut told = secrecy::Told::default();
    for _ in 0..3 * trial::setting("TRIAL_RUNS", 4_000) {
        secrecy::broken_premise(&Archive, &mut rng, tables::MIDDLE, &mut told);
    }
    println!("{told:#?}");
    told.assert_complete();
}
