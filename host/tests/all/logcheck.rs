//! The proved logcheck program against the plain replay, and the statuses that tools/logcheck and tools/replay end with. MONITOR_LOGCHECK
//! names the program; without it, the one that the proofs leave in target/bin, or, where the machine is not x86-64, the one in
//! target/native that runs it. A stand-in has no such program, and its replay does not say what failed: where MONITOR_STAND_IN says that one
//! is tested, these tests are passed over.

use std::fs::{self, File};
use std::path::{Path, PathBuf};
use std::process::{Command, Stdio};
use trial::Rng;
use trial::findings::{Checker, passed_over, program};

fn here() -> PathBuf {
    PathBuf::from(env!("CARGO_MANIFEST_DIR"))
}

/// A folder of the test's own.
fn folder(test: &str) -> PathBuf {
    let folder = PathBuf::from(env!("CARGO_TARGET_TMPDIR")).join(test);
    fs::create_dir_all(&folder).expect("the folder can be made");
    folder
}

fn checker(test: &str) -> Checker {
    Checker { program: program("MONITOR_LOGCHECK", &here(), "logcheck"), folder: folder(test) }
}

#[test]
fn findings_agree() {
    if passed_over("findings_agree") {
        return;
    }
    let mut rng = Rng::for_trial("findings_agree", 15);
    let met = checker("findings_agree").findings_agree(&mut rng, trial::setting("TRIAL_SCRIPTS", 600));
    println!("{met}");
    met.assert_complete();
}

#[test]
fn pieces_of_both_make_no_difference() {
    if passed_over("pieces_of_both_make_no_difference") {
        return;
    }
    let mut rng = Rng::for_trial("pieces_of_both_make_no_difference", 16);
    checker("pieces_of_both_make_no_difference").pieces_make_no_difference(&mut rng, 60);
}

/// tools/logcheck over a program, on an input and a listing: its status, and what it says on standard output and standard error.
fn status(program: &Path, input: &str, recorded: Stdio) -> (Option<i32>, String, String) {
    let mut command = Command::new(here().join("../tools/logcheck"));
    command.env("MONITOR_LOGCHECK", program);
    let output = command.arg(input).stdin(recorded).output().expect("the script runs");
    let text = |bytes: Vec<u8>| String::from_utf8(bytes).expect("it is plain text");
    (output.status.code(), text(output.stdout), text(output.stderr))
}

#[test]
fn logcheck_ends_with_a_status() {
    if passed_over("logcheck_ends_with_a_status") {
        return;
    }
    let program = program("MONITOR_LOGCHECK", &here(), "logcheck");
    let status = |input: &str, recorded: Stdio| status(&program, input, recorded);
    let example = here().join("../crates/replay");
    let input = example.join("stdin").display().to_string();
    let listing = || File::open(example.join("stdout")).expect("it is there").into();
    assert_eq!(status(&input, listing()), (Some(0), "all lines agree, to line 8\n".into(), String::new()));
    assert_eq!(status(&input, Stdio::null()), (Some(1), "lines are missing from line 0 on\n".into(), String::new()));
    let directory = here().display().to_string();
    for (unreadable, why) in [("no-such-file", "No such file or directory"), (&directory, "Is a directory")] {
        let (code, said, error) = status(unreadable, listing());
        assert_eq!((code, said), (Some(2), String::new()));
        assert_eq!(error, format!("{unreadable}: {why}\n"));
    }
    let (code, said, error) = status(&input, File::open(here()).expect("it is there").into());
    assert_eq!((code, said.as_str(), error.as_str()), (Some(2), "", "standard input: Is a directory\n"));
}

#[test]
fn replay_ends_with_a_status() {
    if passed_over("replay_ends_with_a_status") {
        return;
    }
    let program = program("MONITOR_REPLAY", &here(), "replay");
    let example = here().join("../crates/replay");
    let run = |input: Stdio, output: Stdio| {
        let mut command = Command::new(here().join("../tools/replay"));
        command.env("MONITOR_REPLAY", &program);
        let output = command.stdin(input).stdout(output).stderr(Stdio::piped()).output().expect("the script runs");
        (output.status.code(), output.stdout, String::from_utf8(output.stderr).expect("it is plain text"))
    };
    let input = || File::open(example.join("stdin")).expect("it is there").into();
    let due = fs::read(example.join("stdout")).expect("it is there");
    assert_eq!(run(input(), Stdio::piped()), (Some(0), due, String::new()));
    let full = File::options().write(true).open("/dev/full").expect("there is such a device");
    assert_eq!(run(input(), full.into()), (Some(1), vec![], "write: No space left on device\n".into()));
    let directory = File::open(here()).expect("it is there").into();
    assert_eq!(run(directory, Stdio::piped()), (Some(1), vec![], "read: Is a directory\n".into()));
}
