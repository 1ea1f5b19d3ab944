//! A monitor against the plain one: every answer, every word of the table, every byte of store and buffer.

use crate::calls::{self, Call, REGRADE};
use crate::damage;
use crate::largest;
use crate::rng::Rng;
use crate::shrink;
use crate::tables::{self, World};
use crate::tally::{CODES, Tally};
use crate::{Monitor, Plain};
use plain::table::*;
use plain::{Kind, Request, Shape};
use std::collections::BTreeMap;

/// Lengths that are what some call asks for, or none, but for 65,536 bytes.
const LONG_BUFFERS: [usize; 5] = [65_536, 65_536 + 4, 65_536 + 12, 65_536 + 16, 65_536 + BLOCK_BYTES];

pub struct Differ<'a> {
    pub monitor: &'a dyn Monitor,
    pub rng: Rng,
    pub tally: Tally,
    pub calls: u64,
}

impl<'a> Differ<'a> {
    pub fn new(monitor: &'a dyn Monitor, rng: Rng) -> Self {
        Differ { monitor, rng, tally: Tally::default(), calls: 0 }
    }

    /// All trials, with so many calls or some more. Runs come first: half of them start at set-up, and a difference there makes the
    /// best report.
    pub fn everything(&mut self, calls: u64) {
        self.setups(2_000);
        self.long_runs(calls / 4, 1_000);
        self.damaged(30);
        self.every_length();
        self.single_calls(calls / 2);
        self.long_runs(calls / 4, 20_000);
        self.largest();
    }

    /// Single calls, each on a random well-formed table as it was drawn; a table serves for some hundred of them.
    pub fn single_calls(&mut self, at_least: u64) {
        let end = self.calls + at_least;
        while self.calls < end {
            let limits = tables::limits(&mut self.rng);
            let start = tables::well_formed(&mut self.rng, limits);
            let shape = start.shape();
            let (mut ours, mut theirs) = (start.clone(), start.clone());
            let calls = if start.deserted(&shape) { 10 } else { 300 };
            for _ in 0..calls {
                let call = calls::any(&mut self.rng, &start, &shape);
                let error = self.step(&start, &shape, &mut ours, &mut theirs, &call);
                if error == 0 {
                    for world in [&mut ours, &mut theirs] {
                        world.table.copy_from_slice(&start.table);
                        world.store.copy_from_slice(&start.store);
                    }
                }
            }
        }
    }

    /// Runs of calls on one table, which starts as set-up leaves it or as a random well-formed one, and is used until no process
    /// is left.
    pub fn long_runs(&mut self, at_least: u64, calls_each: u64) {
        let end = self.calls + at_least;
        for run in 0.. {
            if self.calls >= end {
                return;
            }
            let limits = tables::limits(&mut self.rng);
            let start = match run % 2 {
                0 => tables::fresh(&mut self.rng, limits),
                _ => tables::well_formed(&mut self.rng, limits),
            };
            let drawn = |rng: &mut Rng, world: &World, shape: &Shape| Some(calls::any(rng, world, shape));
            self.run(&start, calls_each, drawn);
        }
    }

    /// The largest store, to its last block.
    pub fn largest(&mut self) {
        let start = largest::hall(&mut self.rng);
        let mut written = largest::calls(&mut self.rng).into_iter();
        self.run(&start, u64::MAX, |_, _, _| written.next());
    }

    /// A run of so many calls at most, each drawn on the table as it stands, until there are no more or no process is left.
    fn run(&mut self, start: &World, most: u64, mut next: impl FnMut(&mut Rng, &World, &Shape) -> Option<Call>) {
        let shape = start.shape();
        let (mut before, mut ours, mut theirs) = (start.clone(), start.clone(), start.clone());
        let mut made = Vec::new();
        for _ in 0..most {
            let Some(call) = next(&mut self.rng, &before, &shape) else { return };
            made.push(call);
            let call = made.last().expect("there is one");
            let answer = same_call(self.monitor, &mut ours, &mut theirs, call);
            let error = match answer {
                Ok(agreed) => self.note(&before, &shape, call, agreed),
                Err(_) => self.report(start, &made),
            };
            if error == 0 {
                before.table.copy_from_slice(&ours.table);
                if matches!(call.request.code, 14 | REGRADE) {
                    before.store.copy_from_slice(&ours.store);
                }
                if call.request.code == 2 && before.deserted(&shape) {
                    return;
                }
            }
        }
    }

    /// A call by itself, on two copies of a table.
    fn step(&mut self, before: &World, shape: &Shape, ours: &mut World, theirs: &mut World, call: &Call) -> u32 {
        match same_call(self.monitor, ours, theirs, call) {
            Ok(agreed) => self.note(before, shape, call, agreed),
            Err(_) => self.report(before, std::slice::from_ref(call)),
        }
    }

    fn note(&mut self, before: &World, shape: &Shape, call: &Call, Agreed { answer, view }: Agreed) -> u32 {
        self.tally.note(before, shape, call, answer);
        self.tally.viewed(before, shape, call, view);
        self.calls += 1;
        answer[0]
    }

    fn report(&self, start: &World, calls: &[Call]) -> ! {
        panic!("{}", shrink::found(self.monitor, start, calls).report(self.monitor));
    }

    /// Damaged tables: the check, a call and set-up on each. Every named damage is done so many times, and random ones as often.
    pub fn damaged(&mut self, times_each: usize) {
        let named = damage::named();
        let mut wanted: BTreeMap<usize, usize> = (0..named.len()).map(|which| (which, times_each)).collect();
        while !wanted.is_empty() {
            let limits = tables::limits(&mut self.rng);
            let start = tables::well_formed(&mut self.rng, limits);
            let shape = start.shape();
            let mut done = Vec::new();
            for (&which, times) in &mut wanted {
                let mut world = start.clone();
                if (named[which].apply)(&mut self.rng, &mut world, &shape).is_some() {
                    assert_ne!(
                        Plain.check(&world.table, world.store.len()),
                        0,
                        "still well formed: {}",
                        named[which].name
                    );
                    *times -= 1;
                    done.push((named[which].name.as_str(), world));
                }
                let mut world = start.clone();
                damage::random(&mut self.rng, &mut world, &shape);
                done.push(("at random", world));
            }
            wanted.retain(|_, times| *times > 0);
            for (name, world) in done {
                self.damaged_world(name, &start, &shape, world);
            }
        }
    }

    fn damaged_world(&mut self, name: &str, start: &World, shape: &Shape, world: World) {
        let verdict = Plain.check(&world.table, world.store.len());
        let ours = self.monitor.check(&world.table, world.store.len());
        assert_eq!(ours, verdict, "the check of a table damaged thus: {name}\n{}", difference(shape, start, &world));
        let call = calls::any(&mut self.rng, start, shape);
        let (mut one, mut other) = (world.clone(), world.clone());
        let Agreed { answer, view } = match same_call(self.monitor, &mut one, &mut other, &call) {
            Ok(agreed) => agreed,
            Err(_) if verdict == 0 => self.report(&world, &[call]), // it is still well formed
            Err(difference) => panic!("on a table damaged thus: {name}\n{difference}"),
        };
        self.calls += 1;
        if verdict != 0 {
            assert_eq!((answer, view), ([1, 0, 0], 1), "a table damaged thus: {name}");
            assert!(one == world, "a bad table was changed: {name}");
            self.tally.bad_table();
        }
        same_setup(self.monitor, world);
    }

    /// Every code, and some beside, with every length of buffer up to 513, and with some that are much longer.
    pub fn every_length(&mut self) {
        let start = loop {
            let start = tables::well_formed(&mut self.rng, tables::MIDDLE);
            if !start.deserted(&start.shape()) {
                break start;
            }
        };
        let shape = start.shape();
        let long = LONG_BUFFERS.iter().flat_map(|&length| [length; 4]); // now and then the caller is not live
        for code in 0..=CODES as u32 + 2 {
            for length in (0..=BLOCK_BYTES + 1).chain(long.clone()) {
                let caller = calls::caller(&mut self.rng, &start, &shape, |_| true).expect("there is a process slot");
                let mut call = calls::with_code(&mut self.rng, &start, &shape, caller, code);
                call.buffer.resize(length, 0xa5);
                let (mut ours, mut theirs) = (start.clone(), start.clone());
                self.step(&start, &shape, &mut ours, &mut theirs, &call);
            }
        }
    }

    /// Set-up on good and on damaged configurations, over whatever stood in the records.
    pub fn setups(&mut self, times: usize) {
        for _ in 0..times {
            let limits = tables::limits(&mut self.rng);
            let mut world = World::configured(&tables::configuration(&mut self.rng, limits));
            let shape = world.shape();
            for word in &mut world.table[shape.at(Kind::Process, 0)..] {
                *word = self.rng.word();
            }
            self.rng.bytes(&mut world.store);
            if self.rng.chance(1, 2) {
                damage::random(&mut self.rng, &mut world, &shape);
            }
            same_setup(self.monitor, world);
        }
    }
}

fn same_setup(monitor: &dyn Monitor, world: World) {
    let right = world.store.len();
    // Other lengths of the store too, some of which are right only modulo 2^32.
    for store_bytes in [right, right + 512, right + (1 << 32), usize::MAX, 0] {
        let (mut ours, mut expected) = (world.table.clone(), world.table.clone());
        let number = Plain.setup(&mut expected, store_bytes);
        assert_eq!(monitor.setup(&mut ours, store_bytes), number, "set-up of {:?}", &ours[..ours.len().min(40)]);
        assert!(ours == expected, "set-up left another table");
        let verdict = Plain.check(&ours, store_bytes);
        assert_eq!(monitor.check(&ours, store_bytes), verdict, "the check of what set-up left");
    }
}

/// What both monitors answered.
pub struct Agreed {
    pub answer: [u32; 3],
    /// The number of the view.
    pub view: u32,
}

/// Makes one call with the monitor on one world and with the plain monitor on the other, and compares all that is left: the answer
/// of both, or in what they differ. Before it, the same process has a view by the call's first two arguments.
pub fn same_call(monitor: &dyn Monitor, ours: &mut World, theirs: &mut World, call: &Call) -> Result<Agreed, String> {
    let view = same_view(monitor, ours, theirs, &call.request)?;
    let (mut our_buffer, mut their_buffer) = (call.buffer.clone(), call.buffer.clone());
    let answer = monitor.call(&mut ours.table, &mut ours.store, &call.request, &mut our_buffer);
    let expected = Plain.call(&mut theirs.table, &mut theirs.store, &call.request, &mut their_buffer);
    if answer == expected && *ours == *theirs && our_buffer == their_buffer {
        return Ok(Agreed { answer, view });
    }
    let shape = Shape::read(&theirs.table, theirs.store.len());
    let place = shape.map_or(String::new(), |shape| difference(&shape, ours, theirs));
    Err(format!(
        "{:?} with a buffer of {}\nanswer {answer:?}, plain {expected:?}\n{place}\nbuffers equal: {}",
        call.request,
        call.buffer.len(),
        our_buffer == their_buffer,
    ))
}

/// A view by the monitor on one world, against a read by the plain monitor on the other: number, place and bytes. Its number.
fn same_view(monitor: &dyn Monitor, ours: &World, theirs: &mut World, request: &Request) -> Result<u32, String> {
    let &Request { caller, a, b, .. } = request;
    let (error, from, count) = monitor.view(&ours.table, &ours.store, caller, a, b);
    let mut block = [0; BLOCK_BYTES];
    let read = Request { caller, code: 13, a, b, c: 0 };
    let [due, ..] = Plain.call(&mut theirs.table, &mut theirs.store, &read, &mut block);
    let (due_from, bytes): (usize, &[u8]) = match due {
        0 => (theirs.block_at(&theirs.shape(), caller, a, b), &block),
        _ => (0, &[]),
    };
    let part = from.checked_add(count).and_then(|end| ours.store.get(from..end));
    if (error, from) == (due, due_from) && part == Some(bytes) {
        return Ok(error);
    }
    Err(format!(
        "a view by process {caller}, descriptor {a}, block {b}\nnumber {error}, a read {due}; {count} bytes from {from}, to be {} from {due_from}; bytes equal: {}",
        bytes.len(),
        part == Some(bytes)
    ))
}

/// The first words and bytes in which two worlds differ, in words.
pub fn difference(shape: &Shape, ours: &World, theirs: &World) -> String {
    let mut lines = Vec::new();
    if ours.table.len() != theirs.table.len() || ours.store.len() != theirs.store.len() {
        lines.push("lengths differ".to_string());
    }
    let words = ours.table.iter().zip(&theirs.table).enumerate().filter(|(_, (x, y))| x != y);
    for (at, (x, y)) in words.take(8) {
        lines.push(format!("{}: {x}, plain {y}", word_name(shape, at)));
    }
    if let Some(at) = ours.store.iter().zip(&theirs.store).position(|(x, y)| x != y) {
        lines.push(format!(
            "store from byte {at} on, block {} of file {}",
            at / 512 % shape.blocks,
            at / 512 / shape.blocks
        ));
    }
    if lines.is_empty() { "table and store equal".to_string() } else { lines.join("\n") }
}

/// A word's place in the table, to be read in a report.
fn word_name(shape: &Shape, at: usize) -> String {
    if at < HEADER_WORDS {
        return format!("header word {at}");
    }
    for kind in Kind::ALL {
        for index in 0..shape.count(kind) {
            let record = shape.record(kind, index);
            if record.contains(&at) {
                let cell = shape.cell(kind, index);
                return format!("{kind:?} {index} of cell {cell}, word {}", at - record.start);
            }
        }
    }
    let subtypes = HEADER_WORDS + CELL_WORDS * shape.cells;
    match at.checked_sub(subtypes) {
        Some(word) => format!("subtype {}, word {}", word / SUBTYPE_WORDS, word % SUBTYPE_WORDS),
        None => format!("cell word {}", at - HEADER_WORDS),
    }
}
