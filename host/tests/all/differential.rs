//! The proved archive against the plain monitor, on calls that are drawn at random: a million by default, or TRIAL_CALLS.

use crate::archive::Archive;
use std::time::Instant;
use trial::Rng;
use trial::differ::Differ;

#[test]
fn archive_and_plain_agree() {
    let calls = trial::setting("TRIAL_CALLS", 1_000_000);
    let started = Instant::now();
    let mut differ = Differ::new(&Archive, Rng::for_trial("archive_and_plain_agree", 11));
    differ.everything(calls);
    println!("{} calls in {:.1} s\n{}", differ.calls, started.elapsed().as_secs_f64(), differ.tally);
    assert!(differ.calls >= calls);
    differ.tally.assert_complete();
}
