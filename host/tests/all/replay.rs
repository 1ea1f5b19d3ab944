//! The proved replay program against the plain replay. MONITOR_REPLAY names the program; without it, the one that the proofs leave
//! in target/bin, or, where the machine is not x86-64, the one in target/native that runs it.

use crate::archive::Archive;
use std::path::{Path, PathBuf};
use trial::listings::Program;
use trial::{Rng, findings};

/// The program, with a folder of the test's own.
fn program(test: &str) -> Program<'static> {
    let program = findings::program("MONITOR_REPLAY", Path::new(env!("CARGO_MANIFEST_DIR")), "replay");
    let folder = PathBuf::from(env!("CARGO_TARGET_TMPDIR")).join(test);
    std::fs::create_dir_all(&folder).expect("the folder can be made");
    Program { program, folder, names: &Archive }
}

#[test]
fn listings_agree() {
    let mut rng = Rng::for_trial("listings_agree", 13);
    let ends = program("listings_agree").listings_agree(&mut rng, trial::setting("TRIAL_SCRIPTS", 1_500));
    println!("{ends}");
    ends.assert_complete();
}

#[test]
fn pieces_make_no_difference() {
    let mut rng = Rng::for_trial("pieces_make_no_difference", 14);
    program("pieces_make_no_difference").pieces_make_no_difference(&mut rng, 40);
}
