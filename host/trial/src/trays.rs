//! Calls by the tray: against the calls made singly by the plain monitor, every answer, word and byte; and in pairs of runs that an
//! observer must not be able to tell apart.

use crate::Monitor;
use crate::calls::{self, Call, REGRADE};
use crate::damage;
use crate::differ::difference;
use crate::largest;
use crate::rng::Rng;
use crate::secrecy::{
    Seen, choose, contents, guards, regrade, regrades, same_of, seen_by, share_blocks, some_cell, sources, view,
};
use crate::tables::{self, Limits, World, is_subtype};
use crate::tally::CODES;
use plain::table::BLOCK_BYTES;
use plain::{Kind, MOST_RECORDS, Record, Request, Shape};
use std::collections::{BTreeMap, BTreeSet};

/// What the trials have met. All of it must be met, or they say little.
#[derive(Debug, Default)]
pub struct Met {
    pub trays: u64,
    pub done: u64,
    pub refused: u64,
    /// Parts that end where the bytes end, and that do not lie inside: by one byte, by far, by a sum past 2^32.
    pub at_the_end: u64,
    pub empty_at_the_end: u64,
    pub one_past: u64,
    pub outside: u64,
    pub wrapping: u64,
    /// Parts outside of a record whose caller or code is bad.
    pub outside_and_bad: u64,
    /// Records that read what an earlier one of the tray wrote into the bytes.
    pub overlapping: u64,
    /// Parts inside that are longer than any call asks for: of calls that ignore them, and of calls that do not.
    pub long_done: u64,
    pub long_refused: u64,
    /// Those of them whose length is what the call asks for but for 65,536 bytes, by the call.
    pub long_by_65536: BTreeMap<u32, u64>,
    /// Parts of calls that were done and read or wrote them, past byte 4,096 and past byte 65,536.
    pub past_4096: u64,
    pub past_65536: u64,
    /// Full trays in which each record has read or written a block of its own.
    pub full_night: u64,
    /// Reads and writes of files' last blocks in the largest store.
    pub end_of_the_store: u64,
    pub none: u64,
    pub full: u64,
    pub too_long: u64,
    pub bad_table: u64,
    /// Pairs of trays, and the records in them.
    pub pairs: u64,
    pub visible_done: u64,
    pub visible_refused: u64,
    pub visible_outside: u64,
    pub hidden_done: u64,
    /// Regrades in pairs of trays: into cells that are seen, by hidden guards, in both; the same, refused, in one tray alone; by visible
    /// guards.
    pub paired_regrades: u64,
    pub refused_alone: u64,
    pub visible_regrades: u64,
    /// Subtypes opened, files created with one, and calls refused for want of one or for the wrong one.
    pub subtypes: u64,
    pub subtyped: u64,
    pub mismatched: u64,
}

impl Met {
    pub fn assert_complete(&self) {
        let all = [
            self.trays,
            self.done,
            self.refused,
            self.at_the_end,
            self.empty_at_the_end,
            self.one_past,
            self.outside,
            self.wrapping,
            self.outside_and_bad,
            self.overlapping,
            self.long_done,
            self.long_refused,
            self.past_4096,
            self.past_65536,
            self.full_night,
            self.end_of_the_store,
            self.none,
            self.full,
            self.too_long,
            self.bad_table,
            self.pairs,
            self.visible_done,
            self.visible_refused,
            self.visible_outside,
            self.hidden_done,
            self.paired_regrades,
            self.refused_alone,
            self.visible_regrades,
            self.subtypes,
            self.subtyped,
            self.mismatched,
        ];
        let asking = (1..=CODES as u32).filter(|&code| calls::asked(code).is_some());
        let each = self.long_by_65536.keys().copied().eq(asking);
        assert!(each && all.iter().all(|&count| count > 0), "never met: {self:#?}");
    }
}

/// All trials, with so many trays and so many pairs of them.
pub fn everything(monitor: &dyn Monitor, rng: &mut Rng, trays: u64, met: &mut Met) {
    let mut damages = (0..damage::named().len()).collect();
    for count in [0, 1, MOST_RECORDS - 1, MOST_RECORDS, MOST_RECORDS + 1, 2 * MOST_RECORDS] {
        of_length(monitor, rng, count, &mut damages, met);
    }
    while !damages.is_empty() {
        let count = rng.below(4);
        of_length(monitor, rng, count, &mut damages, met);
    }
    full_night(monitor, rng, met);
    at_the_end_of_the_store(monitor, rng, met);
    for _ in 0..trays {
        let limits = tables::limits(rng);
        as_singly(monitor, rng, limits, met);
        let limits = tables::limits(rng);
        pair_of_trays(monitor, rng, limits, met);
    }
}

/// A tray, the table and the bytes that it is run on.
#[derive(Clone)]
pub(crate) struct Hall {
    pub(crate) world: World,
    pub(crate) bytes: Vec<u8>,
    pub(crate) records: Vec<Record>,
}

impl Hall {
    fn run(&mut self, monitor: &dyn Monitor) -> u32 {
        monitor.tray(&mut self.world.table, &mut self.world.store, &mut self.records, &mut self.bytes)
    }

    /// The same with a working slice.
    pub(crate) fn run_quick(&mut self, monitor: &dyn Monitor, work: &mut [u32]) -> u32 {
        let World { table, store } = &mut self.world;
        monitor.quick_tray(table, store, &mut self.records, &mut self.bytes, work)
    }

    /// The record's call by itself, made by the plain monitor on its part of the bytes.
    pub(crate) fn single(&mut self, shape: &Shape, record: &mut Record) {
        let &mut Record { caller, code, a, b, c, offset, length, .. } = record;
        let request = Request { caller, code, a, b, c };
        let World { table, store } = &mut self.world;
        let answer = match inside(record, self.bytes.len()) {
            true => {
                let part = &mut self.bytes[offset as usize..][..length as usize];
                let answer = plain::call(table, store, &request, part);
                [answer.error as u32, answer.first, answer.second]
            }
            false => [outside(&self.world, shape, &request), 0, 0],
        };
        [record.error, record.first, record.second] = answer;
    }
}

/// By the sum of two numbers of any size.
pub(crate) fn inside(record: &Record, bytes: usize) -> bool {
    u128::from(record.offset) + u128::from(record.length) <= bytes as u128
}

/// The refusal where the part lies outside: 2 and 3 come first.
fn outside(world: &World, shape: &Shape, request: &Request) -> u32 {
    let caller = request.caller as usize;
    if caller >= shape.count(Kind::Process) || !world.live(shape, Kind::Process, caller) {
        return 2;
    }
    let answer = plain::call(&mut world.table.clone(), &mut world.store.clone(), request, &mut []);
    if answer.error == plain::Error::XbdKcl { 3 } else { 5 }
}

pub(crate) fn record(rng: &mut Rng, call: &Call, offset: u32, length: u32) -> Record {
    let Request { caller, code, a, b, c } = call.request;
    // In the room for the answer stands anything.
    let (error, first, second) = (rng.word(), rng.word(), rng.word());
    Record { caller, code, a, b, c, offset, length, error, first, second }
}

/// Where a part of that length is placed in so many bytes: inside, at the end, beside it, or quite elsewhere.
pub(crate) fn place(rng: &mut Rng, length: u32, bytes: u32) -> (u32, u32) {
    let last = bytes.saturating_sub(length);
    match rng.below(24) {
        0 => (last, length),
        1 => (last + 1, length),
        2 => (bytes, 0),
        3 => (bytes + 1, 0),
        4 => (rng.pick(&[u32::MAX, 0x8000_0000, bytes.wrapping_mul(2)]), length),
        5 => (length.wrapping_neg(), length),
        6 => (u32::MAX, rng.pick(&[1, 2, 16, u32::MAX])),
        _ => (rng.below(last as usize + 1) as u32, length),
    }
}

/// The length of a part that is longer than any call asks for; or than this one asks for, by 65,536.
pub(crate) fn long_part(rng: &mut Rng, code: u32) -> usize {
    match rng.chance(1, 2) {
        true => rng.pick(&[513, 600, 2_048, 4_097]),
        false => 65_536 + calls::asked(code).unwrap_or(0),
    }
}

/// A tray whose records are drawn on the table as it stands when they are run, against the calls made singly.
fn as_singly(monitor: &dyn Monitor, rng: &mut Rng, limits: Limits, met: &mut Met) {
    let world = match rng.chance(1, 4) {
        true => tables::fresh(rng, limits),
        false => tables::well_formed(rng, limits),
    };
    let shape = world.shape();
    let length = match rng.chance(1, 16) {
        true => 70_000,
        false => rng.pick(&[0usize, 1, 12, 16, 40, 512, 600, 2_048, 8_192]),
    };
    let mut bytes = vec![0; length];
    rng.bytes(&mut bytes);
    let mut start = Hall { world, bytes, records: Vec::new() };
    let mut singly = start.clone();
    let mut written: Vec<bool> = vec![false; length];
    for _ in 0..rng.below(40) {
        let call = calls::any(rng, &singly.world, &shape);
        let long = rng.chance(1, if length > 65_536 { 2 } else { 8 });
        let part = if long { long_part(rng, call.request.code) } else { call.buffer.len() };
        let (offset, size) = place(rng, part as u32, length as u32);
        let mut record = record(rng, &call, offset, size);
        start.records.push(record);
        let before = singly.bytes.clone();
        singly.single(&shape, &mut record);
        singly.records.push(record);
        note(met, &record, length, &written);
        for (at, byte) in before.iter().enumerate() {
            written[at] |= *byte != singly.bytes[at];
        }
    }
    met.trays += 1;
    let mut ours = start.clone();
    assert_eq!(ours.run(monitor), 0, "the answer of a tray of {} records", start.records.len());
    same(&shape, &start, &ours, &singly);
}

fn note(met: &mut Met, record: &Record, bytes: usize, written: &[bool]) {
    let end = u64::from(record.offset) + u64::from(record.length);
    match record.error {
        0 => met.done += 1,
        _ => met.refused += 1,
    }
    met.subtypes += u64::from(record.error == 0 && record.code == 8 && is_subtype(record.a));
    met.subtyped += u64::from(record.error == 0 && record.code == 7 && record.c != 0);
    met.mismatched += u64::from(matches!(record.error, 35 | 36));
    if inside(record, bytes) {
        let part = record.offset as usize..end as usize;
        met.overlapping +=
            u64::from(record.error == 0 && matches!(record.code, 14 | 15) && written[part].contains(&true));
        note_long(met, record, end);
        met.at_the_end += u64::from(end == bytes as u64 && record.length > 0);
        met.empty_at_the_end += u64::from(end == bytes as u64 && record.length == 0);
    } else {
        met.outside += 1;
        met.one_past += u64::from(end == bytes as u64 + 1);
        met.wrapping += u64::from(end > u64::from(u32::MAX) && end as u32 as usize <= bytes);
        met.outside_and_bad += u64::from(matches!(record.error, 2 | 3));
    }
}

/// A part that lies inside and ends there.
fn note_long(met: &mut Met, record: &Record, end: u64) {
    let asked = calls::asked(record.code).map(|length| length as u32);
    let long = record.length as usize > BLOCK_BYTES + 1;
    met.long_done += u64::from(long && record.error == 0);
    met.long_refused += u64::from(long && record.error == 5);
    if record.error == 5 && asked.is_some_and(|asked| record.length == asked + 65_536) {
        *met.long_by_65536.entry(record.code).or_default() += 1;
    }
    met.past_4096 += u64::from(asked.is_some() && record.error == 0 && end > 4_096);
    met.past_65536 += u64::from(asked.is_some() && record.error == 0 && end > 65_536);
}

pub(crate) fn same(shape: &Shape, start: &Hall, ours: &Hall, theirs: &Hall) {
    for (at, (one, other)) in ours.records.iter().zip(&theirs.records).enumerate() {
        assert_eq!(one, other, "record {at} of the tray {:#?}", start.records);
    }
    assert_eq!(ours.bytes, theirs.bytes, "the bytes after the tray {:#?}", start.records);
    if ours.world != theirs.world {
        panic!("after the tray {:#?}:\n{}", start.records, difference(shape, &ours.world, &theirs.world));
    }
}

/// A tray of so many records, on a good table and on every bad one that can be made of it. Too long it is refused with 4, then a bad table
/// with 1, and then nothing is changed. The damages that a tray has been refused for are struck off.
fn of_length(monitor: &dyn Monitor, rng: &mut Rng, count: usize, damages: &mut BTreeSet<usize>, met: &mut Met) {
    let world = tables::well_formed(rng, tables::MIDDLE);
    let shape = world.shape();
    let mut start = Hall { world, bytes: vec![0; 1_024], records: Vec::new() };
    rng.bytes(&mut start.bytes);
    for _ in 0..count {
        let call = calls::any(rng, &start.world, &shape);
        let (offset, size) = place(rng, call.buffer.len() as u32, 1_024);
        let record = record(rng, &call, offset, size);
        start.records.push(record);
    }
    let long = count > MOST_RECORDS;
    match long {
        true => refused(monitor, &shape, &start, 4, "a good table"),
        false => drop(run_as_singly(monitor, &shape, &start)),
    }
    met.trays += 1;
    met.none += u64::from(count == 0);
    met.full += u64::from(count == MOST_RECORDS);
    met.too_long += u64::from(long);
    for (which, damage) in damage::named().iter().enumerate() {
        let mut bad = start.clone();
        if (damage.apply)(rng, &mut bad.world, &shape).is_none() {
            continue;
        }
        refused(monitor, &shape, &bad, if long { 4 } else { 1 }, &damage.name);
        met.trays += 1;
        if !long {
            met.bad_table += 1;
            damages.remove(&which);
        }
    }
}

/// A tray that is refused as a whole, and so changes nothing.
fn refused(monitor: &dyn Monitor, shape: &Shape, start: &Hall, due: u32, table: &str) {
    let mut ours = start.clone();
    let count = start.records.len();
    assert_eq!(ours.run(monitor), due, "the answer of a tray of {count} records on a table: {table}");
    same(shape, start, &ours, start);
}

/// A tray whose records stand, against the calls made singly.
fn run_as_singly(monitor: &dyn Monitor, shape: &Shape, start: &Hall) -> Hall {
    let mut ours = start.clone();
    assert_eq!(ours.run(monitor), 0, "the answer of a tray of {} records", start.records.len());
    let mut theirs = start.clone();
    let mut records = std::mem::take(&mut theirs.records);
    for record in &mut records {
        theirs.single(shape, record);
    }
    theirs.records = records;
    same(shape, start, &ours, &theirs);
    ours
}

/// As many calls as a tray takes, each with a block of its own, written or read: 524,288 bytes in all.
pub(crate) fn night_of_blocks(rng: &mut Rng) -> (World, Vec<Call>) {
    const BLOCKS: usize = 64;
    let one_file = [1, 1, 0, 1, BLOCKS as u32, 0, 0, 0, 0, 0, 0, 1, 0, 1, 0, 0];
    let mut world = World::configured(&one_file);
    plain::setup(&mut world.table, world.store.len());
    let create = Request { caller: 0, code: 7, a: 0o600, b: 3, c: 0 };
    let created = plain::call(&mut world.table, &mut world.store, &create, &mut []);
    assert_eq!(created.error, plain::Error::XOK, "the file of a full night");
    let mut calls = Vec::new();
    for at in 0..MOST_RECORDS {
        let (code, block) = match at % 2 {
            0 => (14, at / 2 % BLOCKS),
            _ => (13, rng.below(at.div_ceil(2).min(BLOCKS))), // one that has been written
        };
        let request = Request { caller: 0, code, a: created.second, b: block as u32, c: 0 };
        let mut buffer = vec![0; BLOCK_BYTES];
        rng.bytes(&mut buffer);
        calls.push(Call { request, buffer });
    }
    (world, calls)
}

fn full_night(monitor: &dyn Monitor, rng: &mut Rng, met: &mut Met) {
    let (world, calls) = night_of_blocks(rng);
    let night = run_as_singly(monitor, &world.shape(), &laid_out(rng, world, &calls));
    met.trays += 1;
    met.full_night += u64::from(night.records.iter().all(|record| record.error == 0));
}

/// The calls that come to the end of the largest store, by the tray.
fn at_the_end_of_the_store(monitor: &dyn Monitor, rng: &mut Rng, met: &mut Met) {
    let world = largest::hall(rng);
    let shape = world.shape();
    let calls = largest::calls(rng);
    let ours = run_as_singly(monitor, &shape, &laid_out(rng, world, &calls));
    let last = |record: &&Record| matches!(record.code, 13 | 14) && record.b + 1 == shape.blocks as u32;
    met.trays += 1;
    met.end_of_the_store += ours.records.iter().filter(last).filter(|record| record.error == 0).count() as u64;
}

/// A tray of calls, each with a part of its own: their buffers, one behind the other.
pub(crate) fn laid_out(rng: &mut Rng, world: World, calls: &[Call]) -> Hall {
    let mut hall = Hall { world, bytes: Vec::new(), records: Vec::new() };
    for call in calls {
        hall.records.push(record(rng, call, hall.bytes.len() as u32, call.buffer.len() as u32));
        hall.bytes.extend(&call.buffer);
    }
    hall
}

/// The bytes are cut into stretches: the parts of records that remain lie in the even ones, those of records that are struck out in the
/// odd ones.
const STRETCH: u32 = 520;

/// Behind the stretches stand four bytes more, the same in both trays: owner and group of the regrades that both have.
const SEAL: u32 = 4;

fn apart(rng: &mut Rng, length: u32, stretches: u32, hidden: bool) -> (u32, u32) {
    if rng.chance(1, 24) {
        return (stretches * STRETCH + SEAL + rng.between(1, 9), length); // past the end
    }
    let stretch = 2 * rng.below(stretches as usize / 2) as u32 + u32::from(hidden);
    (stretch * STRETCH + rng.below((STRETCH - length) as usize + 1) as u32, length)
}

/// One run of a pair: the hall as its tray finds it, and as the records drawn so far would leave it.
struct Run {
    start: Hall,
    along: Hall,
}

impl Run {
    /// One record more, drawn for the table as it stands.
    fn push(&mut self, shape: &Shape, record: Record) -> u32 {
        self.start.records.push(record);
        let mut made = record;
        self.along.single(shape, &mut made);
        made.error
    }

    /// What a record would be answered.
    fn due(&self, shape: &Shape, record: Record) -> u32 {
        let mut made = record;
        self.along.clone().single(shape, &mut made);
        made.error
    }

    /// Some records of processes of cells that are not seen. A regrade that would be seen is left out: it needs a partner.
    fn hidden(&mut self, rng: &mut Rng, shape: &Shape, seen: &Seen, stretches: u32, met: &mut Met) {
        for _ in 0..rng.below(4) {
            let world = &self.along.world;
            let desk = shape.guard.is_some_and(|guard| !seen[guard]) && rng.chance(1, 8);
            let call = match calls::at_the_desk(rng, world, shape).filter(|_| desk) {
                Some(caller) => calls::with_code(rng, world, shape, caller, REGRADE),
                None => {
                    let caller = calls::caller(rng, world, shape, |cell| !seen[cell]).expect("a cell is hidden");
                    calls::by(rng, world, shape, caller)
                }
            };
            let (offset, length) = apart(rng, (call.buffer.len() as u32).min(STRETCH), stretches, true);
            let record = record(rng, &call, offset, length);
            if regrades(&call.request, shape, seen, true) {
                if self.due(shape, record) == 0 {
                    continue;
                }
                met.refused_alone += u64::from(guards(&self.along.world, shape, record.caller));
            }
            met.hidden_done += u64::from(self.push(shape, record) == 0);
        }
    }
}

/// A regrade into a cell that is seen, by the hidden guard of each tray, with the same blocks; if there are two sources for it.
fn paired_regrade(rng: &mut Rng, runs: &mut [Run; 2], shape: &Shape, seen: &Seen, seal: u32, met: &mut Met) {
    let [one, other] = &*runs;
    let cell = some_cell(rng, shape, seen, true).expect("the observer's own is seen");
    let Some(source) = choose(rng, sources(&one.along.world, shape).into_iter()) else { return };
    let blocks = contents(&one.along.world, shape, source.file).0;
    let twins = sources(&other.along.world, shape).into_iter();
    let Some(twin) = choose(rng, twins.filter(|twin| contents(&other.along.world, shape, twin.file).0 == blocks))
    else {
        return;
    };
    let call = regrade(rng, source, cell);
    let twin = same_of(&call, twin);
    let [one, other] = runs;
    let error = one.push(shape, record(rng, &call, seal, SEAL));
    assert_eq!(error, other.push(shape, record(rng, &twin, seal, SEAL)), "regrades of the same: {call:?} and {twin:?}");
    met.paired_regrades += u64::from(error == 0);
}

/// Two trays under 02's premises: the tables agree on what flows to the observers, the bytes on the parts of the remaining records, and
/// these lie apart from the others'. Regrades keep to the premise of the trials of calls (secrecy).
fn pair_of_trays(monitor: &dyn Monitor, rng: &mut Rng, limits: Limits, met: &mut Met) {
    let world = match rng.chance(1, 4) {
        true => tables::fresh(rng, limits),
        false => tables::well_formed(rng, limits),
    };
    let shape = world.shape();
    let observers = [rng.below(shape.cells), rng.below(shape.cells)];
    let seen = seen_by(&shape, &observers[..rng.below(2) + 1]);
    if seen[..shape.cells].iter().all(|&cell| cell) {
        return;
    }
    met.pairs += 1;
    let stretches = 2 * rng.between(1, 3);
    let seal = stretches * STRETCH;
    let mut bytes = vec![0; (seal + SEAL) as usize];
    rng.bytes(&mut bytes);
    let mut other = Hall { world: world.clone(), bytes: bytes.clone(), records: Vec::new() };
    let one = Hall { world, bytes, records: Vec::new() };
    tables::fill(rng, &mut other.world, &shape, |cell| !seen[cell]);
    share_blocks(rng, &one.world, &mut other.world, &shape, &seen);
    for stretch in other.bytes.chunks_mut(STRETCH as usize).skip(1).step_by(2) {
        rng.bytes(stretch);
    }
    let mut runs = [one, other].map(|start| Run { along: start.clone(), start });
    let mut remaining = Vec::new();
    let desk_seen = shape.guard.map(|guard| seen[guard]);
    for _ in 0..rng.below(30) {
        for run in &mut runs {
            run.hidden(rng, &shape, &seen, stretches, met);
        }
        if desk_seen == Some(false) && rng.chance(1, 4) {
            paired_regrade(rng, &mut runs, &shape, &seen, seal, met);
        }
        let drawn_from = rng.below(2);
        let world = &runs[drawn_from].along.world;
        let caller = match rng.chance(1, 64) {
            true => None,
            false => calls::caller(rng, world, &shape, |cell| seen[cell]),
        };
        let caller = caller.unwrap_or_else(|| calls::no_caller(rng, &shape));
        let desk = desk_seen == Some(true) && rng.chance(1, 16);
        let mut call = match calls::at_the_desk(rng, world, &shape).filter(|_| desk) {
            Some(caller) => calls::with_code(rng, world, &shape, caller, REGRADE),
            None => calls::by(rng, world, &shape, caller),
        };
        let (offset, length) = apart(rng, (call.buffer.len() as u32).min(STRETCH), stretches, false);
        if desk_seen == Some(true) && regrades(&call.request, &shape, &seen, false) {
            // It asks about a cell that is seen.
            call.request.b = some_cell(rng, &shape, &seen, true).expect("the guard's own is seen") as u32;
        }
        let mut places = [0, 0];
        for (run, place) in runs.iter_mut().zip(&mut places) {
            // What stands in the room for the answer may differ.
            let record = record(rng, &call, offset, length);
            *place = run.start.records.len();
            let error = run.push(&shape, record);
            match error {
                0 => met.visible_done += 1,
                _ => met.visible_refused += 1,
            }
            met.visible_regrades += u64::from(error == 0 && record.code == REGRADE);
            met.visible_outside += u64::from(!inside(&record, run.start.bytes.len()));
        }
        remaining.push(places);
    }
    let [one, other] = runs.map(|run| {
        let mut hall = run.start;
        assert_eq!(hall.run(monitor), 0, "the answer of a tray of a pair");
        hall
    });
    for [first, second] in remaining {
        let (first, second) = (one.records[first], other.records[second]);
        assert_eq!(first, second, "a record that remains, in the trays {:#?} and {:#?}", one.records, other.records);
    }
    let parts = |hall: &Hall| hall.bytes.chunks(STRETCH as usize).step_by(2).map(<[u8]>::to_vec).collect::<Vec<_>>();
    assert!(parts(&one) == parts(&other), "the parts of the remaining records differ after {:#?}", one.records);
    if view(&one.world, &shape, &seen) != view(&other.world, &shape, &seen) {
        panic!("what is seen differs after a pair of trays:\n{}", difference(&shape, &one.world, &other.world));
    }
}
