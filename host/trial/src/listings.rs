//! A replay program against the plain replay.

use crate::counts::Counts;
use crate::rng::Rng;
use crate::{Monitor, scripts, tables, write_anew};
use std::fs::{self, File};
use std::io::Write;
use std::path::PathBuf;
use std::process::{Command, Output, Stdio};
use std::thread;

/// A replay program under trial.
pub struct Program<'a> {
    pub program: PathBuf,
    /// Where inputs may be written; no other trial writes there at the same time.
    pub folder: PathBuf,
    /// For the names in a report.
    pub names: &'a dyn Monitor,
}

impl Program<'_> {
    /// The listing of an input that stands in a file.
    fn listing(&self, input: &[u8]) -> Vec<u8> {
        let path = self.folder.join("replay-input");
        write_anew(&path, input);
        let input = File::open(&path).expect("the input is there");
        ended(Command::new(&self.program).stdin(input).output().expect("the program runs"))
    }

    /// The listing of an input that comes through a pipe, in small pieces.
    fn listing_in_pieces(&self, input: Vec<u8>, piece: usize) -> Vec<u8> {
        let mut command = Command::new(&self.program);
        command.stdin(Stdio::piped()).stdout(Stdio::piped()).stderr(Stdio::piped());
        let mut child = command.spawn().expect("the program runs");
        let mut pipe = child.stdin.take().expect("there is a pipe");
        let writer = thread::spawn(move || {
            for part in input.chunks(piece) {
                if pipe.write_all(part).is_err() {
                    return; // it stopped reading at a fault
                }
            }
        });
        let output = child.wait_with_output().expect("the program ends");
        writer.join().expect("the writer ends");
        ended(output)
    }

    fn agrees(&self, input: &[u8], expected: &[u8]) {
        if self.listing(input) != expected {
            self.report(input);
        }
    }

    /// Shrinks an input whose listings differ, and tells it as a script.
    fn report(&self, input: &[u8]) -> ! {
        let input = scripts::shrunk(input, |input| self.listing(input) != plain::replay(input));
        let kept = self.folder.join("replay-input-that-differs");
        fs::write(&kept, &input).expect("the input can be written");
        let lines = |text: Vec<u8>| String::from_utf8_lossy(&text).lines().map(str::to_string).collect::<Vec<String>>();
        let (listed, due) = (lines(self.listing(&input)), lines(plain::replay(&input)));
        let at = listed.iter().zip(&due).take_while(|(listed, due)| listed == due).count();
        panic!(
            "listings differ at line {at}: {:?}, plain {:?}\nThe input is kept in {}; as a script (tools/script.py makes its bytes):\n\n{}",
            listed.get(at),
            due.get(at),
            kept.display(),
            scripts::text(&input, self.names),
        );
    }

    /// Scripts good and bad; how they ended.
    pub fn listings_agree(&self, rng: &mut Rng, rounds: u64) -> Counts {
        let mut ends = Counts::of(scripts::ENDS);
        for round in 0..rounds {
            let limits = tables::replay_limits(rng);
            let calls = match round % 50 {
                0 => 5_000,
                10 => 0,
                1..15 => 300,
                _ => rng.below(30),
            };
            let mut script = match round % 5 {
                3 | 4 => scripts::bad_configuration(rng, limits),
                _ => scripts::valid(rng, limits, calls),
            };
            if rng.chance(1, 2) {
                scripts::damage(rng, &mut script);
            }
            let expected = plain::replay(&script.bytes);
            self.agrees(&script.bytes, &expected);
            let end = scripts::end(&script.bytes);
            assert_eq!(end.starts_with("configuration"), expected == b"bad configuration\n", "{end}");
            assert_eq!(end.starts_with("call"), expected.ends_with(b"bad script\n"), "{end}");
            ends.met(end, true);
        }
        ends
    }

    /// However the input is cut on its way in, the listing is the same.
    pub fn pieces_make_no_difference(&self, rng: &mut Rng, rounds: u64) {
        for round in 0..rounds {
            let mut script = scripts::valid(rng, tables::SMALL, 60);
            if round % 2 == 1 {
                scripts::damage(rng, &mut script);
            }
            let expected = plain::replay(&script.bytes);
            let piece = rng.pick(&[1, 2, 7, 64, 511, 4096]);
            self.agrees(&script.bytes, &expected);
            assert!(self.listing_in_pieces(script.bytes, piece) == expected, "in pieces of {piece}");
        }
    }
}

fn ended(output: Output) -> Vec<u8> {
    assert!(output.status.success() && output.stderr.is_empty(), "replay ended badly: {output:?}");
    output.stdout
}
