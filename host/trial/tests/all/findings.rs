//! The trials of programs, on programs that are not what they should be: they fail, and neither pass nor wait for ever.

use std::path::PathBuf;
use trial::Rng;
use trial::findings::{Checker, there};

#[test]
#[should_panic(expected = "no program at /no-such-folder/logcheck")]
fn a_program_that_is_missing() {
    there(PathBuf::from("/no-such-folder/logcheck"));
}

#[test]
#[should_panic(expected = "no program at /")]
fn a_folder_for_a_program() {
    there(PathBuf::from("/"));
}

/// It ends with 0 and has opened neither its input nor its listing.
#[test]
#[should_panic(expected = "in pieces of")]
fn a_program_that_reads_nothing() {
    let checker = Checker { program: PathBuf::from("/bin/true"), folder: PathBuf::from(env!("CARGO_TARGET_TMPDIR")) };
    checker.pieces_make_no_difference(&mut Rng::for_trial("a_program_that_reads_nothing", 8), 1);
}
