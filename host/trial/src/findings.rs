//! The program that checks a recorded listing, against the plain replay: what it says of a listing as it is due, and of one with bytes
//! or lines flipped, cut, doubled, dropped, moved or added.

use crate::counts::Counts;
use crate::rng::Rng;
use crate::{scripts, tables, write_anew};
use std::fs::File;
use std::io::{self, Write};
use std::os::fd::AsRawFd;
use std::path::{Path, PathBuf};
use std::process::{self, Command, Output, Stdio};
use std::thread;

/// The most that is shown of a line.
const WIDTH: usize = 1200;

/// A checking program under trial.
pub struct Checker {
    pub program: PathBuf,
    /// Where inputs may be written; no other trial writes there at the same time.
    pub folder: PathBuf,
}

/// The lines of a text, each with its newline; the last may have none.
fn lines(text: &[u8]) -> Vec<&[u8]> {
    text.split_inclusive(|&byte| byte == b'\n').collect()
}

/// A line as it is shown: cut, without its newline, and what is no plain letter a question mark.
fn shown(line: &[u8]) -> String {
    let line = line.strip_suffix(b"\n").unwrap_or(line);
    line.iter().take(WIDTH).map(|&byte| if (32..127).contains(&byte) { byte as char } else { '?' }).collect()
}

/// What is to be said of a recorded listing, by its lines.
pub fn expected(due: &[u8], recorded: &[u8]) -> String {
    let (due, recorded) = (lines(due), lines(recorded));
    let last = due.len() - 1;
    for (n, line) in due.iter().enumerate() {
        match recorded.get(n) {
            None => return format!("lines are missing from line {n} on\n"),
            Some(other) if other != line => {
                return format!(
                    "line {n} is not what the rules give\nrecorded: {}\ndue:      {}\n",
                    shown(other),
                    shown(line)
                );
            }
            Some(_) => {}
        }
    }
    if recorded.len() > due.len() {
        return format!("there is more than is due after line {last}\n");
    }
    format!("all lines agree, to line {last}\n")
}

/// What must have been found of listings at least once.
pub const FINDINGS: &[&str] = &[
    "all lines agree",
    "all lines agree, to a due 'bad script'",
    "a due 'bad configuration' alone agrees",
    "the heading is wrong",
    "a call's line is wrong",
    "the last line recorded is cut within",
    "the last line recorded lacks its newline alone",
    "a due 'bad script' is wrong",
    "a due 'bad configuration' is wrong",
    "lines are missing, from the first on",
    "lines are missing, from a later one on",
    "a due 'bad script' is missing",
    "there is more after a call's line or the heading",
    "there is more after a due 'bad script'",
    "there is more after a due 'bad configuration'",
];

/// Notes what is to be found of a listing.
fn note(found: &mut Counts, due: &[u8], recorded: &[u8]) {
    let (due, recorded) = (lines(due), lines(recorded));
    let agreed = due.iter().zip(&recorded).take_while(|(due, other)| due == other).count();
    let last = due[due.len() - 1];
    let (script, configuration) = (last == b"bad script\n", last == b"bad configuration\n");
    let plain = !script && !configuration;
    let ended = agreed == due.len();
    let as_due = ended && recorded.len() == agreed;
    found.met("all lines agree", as_due && plain);
    found.met("all lines agree, to a due 'bad script'", as_due && script);
    found.met("a due 'bad configuration' alone agrees", as_due && configuration);
    let more = ended && recorded.len() > agreed;
    found.met("there is more after a call's line or the heading", more && plain);
    found.met("there is more after a due 'bad script'", more && script);
    found.met("there is more after a due 'bad configuration'", more && configuration);
    let missing = !ended && recorded.len() == agreed;
    found.met("lines are missing, from the first on", missing && agreed == 0);
    found.met("lines are missing, from a later one on", missing && agreed > 0);
    let at_last = agreed + 1 == due.len();
    found.met("a due 'bad script' is missing", missing && at_last && script);
    if ended || missing {
        return;
    }
    let (line, other) = (due[agreed], recorded[agreed]);
    let cut = agreed + 1 == recorded.len() && line.starts_with(other);
    found.met("the heading is wrong", agreed == 0 && !configuration);
    found.met("a call's line is wrong", agreed > 0 && !(at_last && script));
    found.met("the last line recorded is cut within", cut && other.len() + 1 < line.len());
    found.met("the last line recorded lacks its newline alone", cut && other.len() + 1 == line.len());
    found.met("a due 'bad script' is wrong", at_last && script);
    found.met("a due 'bad configuration' is wrong", configuration);
}

/// A listing with something wrong, mostly; and what was done to it.
pub fn damaged(rng: &mut Rng, due: &[u8]) -> (&'static str, Vec<u8>) {
    let mut text = due.to_vec();
    let at = rng.below(text.len());
    let parts = lines(due);
    let n = rng.below(parts.len());
    let joined = |some: &[&[u8]]| some.concat();
    match rng.below(18) {
        0..3 => ("as it is due", text),
        3 => {
            text[at] ^= 1 << rng.below(8);
            ("a bit flipped", text)
        }
        4 => {
            text[at] = rng.word() as u8;
            ("a byte put for another", text)
        }
        5 => {
            text.truncate(at);
            ("cut anywhere", text)
        }
        6 => ("cut at a line's end", joined(&parts[..n])),
        7 => {
            text.pop();
            ("the last newline lost", text)
        }
        8 => {
            text.remove(at);
            ("a byte dropped", text)
        }
        9 => {
            text.insert(at, due[at]);
            ("a byte doubled", text)
        }
        10 => ("a line dropped", joined(&[&parts[..n], &parts[n + 1..]].concat())),
        11 => ("a line doubled", joined(&[&parts[..=n], &parts[n..]].concat())),
        12 => {
            text.push(rng.pick(b"\n 0x\0\xff"));
            ("a byte over", text)
        }
        13 => {
            text.extend(parts[n]);
            ("a line over", text)
        }
        14 => {
            let mut turned = parts.clone();
            turned.swap(n, parts.len() - 1);
            ("two lines changed about", joined(&turned))
        }
        15 | 16 => ("the last line lost", joined(&parts[..parts.len() - 1])),
        _ => {
            text.splice(at..at, vec![rng.word() as u8; 2000]);
            ("a long line", text)
        }
    }
}

impl Checker {
    /// What is said where both stand in files.
    pub fn says(&self, input: &[u8], recorded: &[u8]) -> String {
        let (one, other) = (self.folder.join("input"), self.folder.join("recorded"));
        write_anew(&one, input);
        write_anew(&other, recorded);
        let recorded = File::open(&other).expect("the listing is there");
        ended(Command::new(&self.program).arg(one).stdin(recorded).output().expect("the program runs"))
    }

    /// What is said where both come through pipes, in small pieces. The program opens the input's by a name that this process has for
    /// it, which is kept until the program ends: whoever writes into it never waits for a program that is no more.
    fn says_in_pieces(&self, input: Vec<u8>, recorded: Vec<u8>, pieces: [usize; 2]) -> String {
        let (kept, script) = io::pipe().expect("there is a pipe");
        let name = format!("/proc/{}/fd/{}", process::id(), kept.as_raw_fd());
        let mut command = Command::new(&self.program);
        command.arg(name).stdin(Stdio::piped()).stdout(Stdio::piped()).stderr(Stdio::piped());
        let mut child = command.spawn().expect("the program runs");
        let listing = child.stdin.take().expect("there is a pipe");
        let one = thread::spawn(move || send(script, input, pieces[0]));
        let other = thread::spawn(move || send(listing, recorded, pieces[1]));
        let output = child.wait_with_output().expect("the program ends");
        drop(kept);
        one.join().expect("the writer ends");
        other.join().expect("the writer ends");
        ended(output)
    }

    /// Scripts good and bad, their listings damaged; what was found.
    pub fn findings_agree(&self, rng: &mut Rng, rounds: u64) -> Counts {
        let mut met = Counts::of(FINDINGS);
        for round in 0..rounds {
            let limits = tables::limits(rng);
            let calls = if round % 20 == 0 { 2_000 } else { rng.below(30) };
            let mut script = if round % 10 == 9 {
                scripts::bad_configuration(rng, limits)
            } else {
                scripts::valid(rng, limits, calls)
            };
            if rng.chance(1, 2) {
                scripts::damage(rng, &mut script);
            }
            let due = plain::replay(&script.bytes);
            let (done, recorded) = damaged(rng, &due);
            let expected = expected(&due, &recorded);
            let found = self.says(&script.bytes, &recorded);
            if found != expected {
                let folder = self.folder.display();
                panic!(
                    "{done}: {found:?}, and it should be {expected:?}\nThe input and the listing are kept in {folder}."
                );
            }
            note(&mut met, &due, &recorded);
        }
        met
    }

    /// However the two are cut on their way in, the finding is the same.
    pub fn pieces_make_no_difference(&self, rng: &mut Rng, rounds: u64) {
        for _ in 0..rounds {
            let script = scripts::valid(rng, tables::SMALL, 60);
            let due = plain::replay(&script.bytes);
            let (done, recorded) = damaged(rng, &due);
            let expected = expected(&due, &recorded);
            let pieces = [rng.pick(&[1, 2, 7, 64, 511]), rng.pick(&[1, 3, 16, 100, 4096])];
            let found = self.says_in_pieces(script.bytes, recorded, pieces);
            assert!(found == expected, "{done}, in pieces of {pieces:?}: {found:?}, and it should be {expected:?}");
        }
    }
}

fn send(mut to: impl Write, bytes: Vec<u8>, piece: usize) {
    for part in bytes.chunks(piece) {
        if to.write_all(part).is_err() {
            return; // it has found something, and reads no more
        }
    }
}

fn ended(output: Output) -> String {
    assert!(output.status.success() && output.stderr.is_empty(), "logcheck ended badly: {output:?}");
    String::from_utf8(output.stdout).expect("it is plain text")
}

/// A program: the one that a variable names, or the one that the proofs leave in target/bin, or, where the machine is not x86-64, the one in
/// target/native that runs it.
pub fn program(variable: &str, here: &Path, name: &str) -> PathBuf {
    let made = if cfg!(target_arch = "x86_64") { "../target/bin" } else { "../target/native" };
    there(std::env::var_os(variable).map_or_else(|| here.join(made).join(name), PathBuf::from))
}

/// A program that must be there: no test passes for want of it.
pub fn there(program: PathBuf) -> PathBuf {
    assert!(program.is_file(), "no program at {}: run `tools/build` first", program.display());
    program
}

/// Whether a stand-in is tested, so that a test of what only the proofs leave is passed over. MONITOR_STAND_IN says so; it names a file, to
/// which the test's name is added: test.sh counts them.
pub fn passed_over(test: &str) -> bool {
    let Some(list) = std::env::var_os("MONITOR_STAND_IN") else { return false };
    let mut list = File::options().append(true).create(true).open(list).expect("the list can be written");
    list.write_all(format!("{test}\n").as_bytes()).expect("the list can be written");
    true
}
