//! Quick trays: against the calls made singly by the plain monitor, every answer, word and byte, and the working slice against a fresh one
//! after each tray; and every way in which a slice can be another than the table's.

use crate::Monitor;
use crate::calls::{self, Call};
use crate::counts::Counts;
use crate::damage;
use crate::largest;
use crate::rng::Rng;
use crate::tables::{self, World, is_subtype};
use crate::tally::CODES;
use crate::trays::{Hall, inside, laid_out, long_part, night_of_blocks, place, record, same};
use plain::table::*;
use plain::{Kind, MOST_RECORDS, Record, Request, Seid, Shape};
use std::collections::BTreeSet;

/// A slice no longer than this is damaged at every word; a longer one at some.
const SMALL: usize = 120;

pub struct Quick<'a> {
    monitor: &'a dyn Monitor,
    rng: Rng,
    pub met: Counts,
    /// How often each code was run with success.
    pub done: [u64; CODES + 1],
}

/// What must have been met at the end.
const SITUATIONS: &[&str] = &[
    // Filling.
    "filled: a slice of the table's length, whatever stood in it",
    "filled: one word less is refused with 5",
    "filled: one word more is refused with 5",
    "filled: no words are refused with 5",
    "filled: a bad table is refused with 1",
    "filled: a bad table is refused with 1, before the length",
    "filled: as many slots as there can be",
    // Trays that are refused.
    "refused with 4: the slice is the table's",
    "refused with 4: before a slice that is not the table's",
    "refused with 4: before a bad table",
    "refused with 1: a bad table, with the good one's slice",
    "refused with 1: a bad table, with any slice",
    "refused with 1: a count of processes",
    "refused with 1: a count of segments",
    "refused with 1: a count of files",
    "refused with 1: a key of a process",
    "refused with 1: a key of a segment",
    "refused with 1: a key of a file",
    "refused with 1: a zero past the keys of processes",
    "refused with 1: a zero past the keys of segments",
    "refused with 1: a zero past the keys of files",
    "refused with 1: a mask",
    "refused with 1: one word more",
    "refused with 1: one word less",
    "refused with 1: no words",
    "refused with 1: two keys in the other order",
    "refused with 1: the last key is not listed",
    "refused with 1: a slot is listed that is live or worn out",
    "refused with 1: two masks at each other's places",
    "refused with 1: another table's slice of the same length",
    "refused with 1: the slice as it was before a tray",
    "refused with 1: the slice as it was before single calls",
    // Trays that are run.
    "run: no record",
    "run: as many records as a tray takes",
    "run: with the slice that an earlier tray left",
    "run: with a slice that single calls did not change",
    "run: with a slice that was filled again",
    "run: a tray that changes no word of the slice",
    "run: a part that does not lie inside the bytes",
    "run: a part that is 65,536 bytes too long",
    "run: a part past byte 65,536",
    "run: the last block of the largest store",
    // Slots.
    "slots: a process slot freed and taken again in one tray",
    "slots: a segment slot freed and taken again in one tray",
    "slots: a file slot freed and taken again in one tray",
    "slots: a process slot taken and freed in one tray",
    "slots: a segment slot taken and freed in one tray",
    "slots: a file slot taken and freed in one tray",
    "slots: a process slot worn out",
    "slots: a segment slot worn out",
    "slots: a file slot worn out",
    "slots: one is taken for the last time",
    "slots: the one taken is not the first that is free",
    "slots: the last of all taken",
    "slots: the last of all freed",
    "slots: none is left but worn ones",
    // Releases and regrades.
    "release: of a process that held a file last",
    "release: of a process that held a segment last",
    "release: of a process that held files and segments last",
    "release: of a process that holds files which stay",
    "release: of a process that holds subtypes",
    "release: of a process that holds files of other cells",
    "release: of the caller",
    "release: of a segment that nobody else holds",
    "regrade: into another cell",
    "regrade: into the guard's cell",
    // Opens and closes.
    "open: of a file, refused with 19",
    "open: of a file, refused with 19 for a descriptor of the caller",
    "open: of a file, refused with 19 for a last descriptor",
    "open: of a file, refused with 19 for the last process of the cell alone",
    "open: of a file that is open in its cell and does not clash",
    "open: of a file that the caller has open too",
    "open: of a file that nobody of its cell has open",
    "open: of another cell's file",
    "open: at the last descriptor",
    "open: of a subtype",
    "open: of a subtype, refused with 19",
    "create: with a subtype",
    "close: of a file that is freed",
    "close: of a file that stays by its links",
    "close: of a file that others have open",
    "close: of a file that the caller has open twice",
    "close: of another cell's file",
    "close: of a file that is gone",
    "close: of a subtype",
    "unlink: of a file that is freed",
    "unlink: of a file that stays",
];

/// What a word of a working slice says.
#[derive(Clone, Copy, PartialEq, Eq)]
enum Part {
    Count(Kind),
    Key(Kind),
    Zero(Kind),
    Mask,
}

impl Part {
    /// What a tray is refused for, where that word is another.
    fn damaged(self) -> &'static str {
        match self {
            Part::Count(Kind::Process) => "refused with 1: a count of processes",
            Part::Count(Kind::Segment) => "refused with 1: a count of segments",
            Part::Count(Kind::File) => "refused with 1: a count of files",
            Part::Key(Kind::Process) => "refused with 1: a key of a process",
            Part::Key(Kind::Segment) => "refused with 1: a key of a segment",
            Part::Key(Kind::File) => "refused with 1: a key of a file",
            Part::Zero(Kind::Process) => "refused with 1: a zero past the keys of processes",
            Part::Zero(Kind::Segment) => "refused with 1: a zero past the keys of segments",
            Part::Zero(Kind::File) => "refused with 1: a zero past the keys of files",
            Part::Mask => "refused with 1: a mask",
        }
    }

    /// What each word of a right slice says.
    fn all(shape: &Shape, work: &[u32]) -> Vec<Part> {
        let mut parts = Vec::with_capacity(work.len());
        for kind in Kind::ALL {
            for cell in 0..shape.cells {
                let free = work[parts.len()] as usize;
                parts.push(Part::Count(kind));
                parts.extend(vec![Part::Key(kind); free]);
                parts.extend(vec![Part::Zero(kind); shape.run(kind, cell).len() - free]);
            }
        }
        parts.resize(work.len(), Part::Mask);
        parts
    }
}

/// The working slice of a world, by the plain monitor.
fn fresh(world: &World) -> Vec<u32> {
    let mut work = vec![0; plain::work_length(&world.table, world.store.len())];
    assert_eq!(plain::work(&world.table, world.store.len(), &mut work), plain::Error::XOK, "the table is good");
    work
}

impl<'a> Quick<'a> {
    pub fn new(monitor: &'a dyn Monitor, rng: Rng) -> Self {
        Quick { monitor, rng, met: Counts::of(SITUATIONS), done: [0; CODES + 1] }
    }

    pub fn assert_complete(&self) {
        self.met.assert_complete();
        let never: Vec<usize> = (1..=CODES).filter(|&code| self.done[code] == 0).collect();
        assert!(never.is_empty(), "never run with success: {never:?}");
    }

    /// All trials, on so many halls.
    pub fn everything(&mut self, halls: u64) {
        for _ in 0..halls {
            let limits = tables::limits(&mut self.rng);
            let world = match self.rng.chance(1, 8) {
                true => tables::fresh(&mut self.rng, limits),
                false => tables::well_formed(&mut self.rng, limits),
            };
            let work = self.filled(&world);
            self.another_slice(&world, &work);
            self.bad_table(&world, &work);
            self.nights(world, work);
        }
        for count in [0, 1, MOST_RECORDS - 1, MOST_RECORDS, MOST_RECORDS + 1, 2 * MOST_RECORDS] {
            self.of_length(count);
        }
        self.crowded();
        self.blocks();
    }

    // Filling.

    /// The length that is told, and what becomes of slices of this and of other lengths.
    fn filled(&mut self, world: &World) -> Vec<u32> {
        let due = fresh(world);
        let length = self.monitor.work_length(&world.table, world.store.len());
        assert_eq!(length, due.len(), "another length was told");
        for (name, lent, error) in [
            ("filled: one word less is refused with 5", length - 1, 5),
            ("filled: one word more is refused with 5", length + 1, 5),
            ("filled: no words are refused with 5", 0, 5),
            ("filled: a slice of the table's length, whatever stood in it", length, 0),
        ] {
            let before = self.noise(lent);
            let mut work = before.clone();
            assert_eq!(self.monitor.work(&world.table, world.store.len(), &mut work), error, "{name}");
            assert!(work == if error == 0 { due.clone() } else { before }, "{name}: another slice");
            self.met.met(name, true);
        }
        self.met.met("filled: as many slots as there can be", tables::full(&world.shape()));
        due
    }

    fn noise(&mut self, words: usize) -> Vec<u32> {
        (0..words).map(|_| self.rng.word()).collect()
    }

    /// A table with a damage has no slice: it is refused before the length.
    fn bad_table(&mut self, world: &World, work: &[u32]) {
        let mut bad = world.clone();
        let damages = damage::named();
        let damage = &damages[self.rng.below(damages.len())];
        if (damage.apply)(&mut self.rng, &mut bad, &world.shape()).is_none() {
            return;
        }
        assert_eq!(self.monitor.work_length(&bad.table, bad.store.len()), 0, "the length of a bad table");
        for (name, lent) in [
            ("filled: a bad table is refused with 1", work.len()),
            ("filled: a bad table is refused with 1, before the length", self.rng.below(work.len())),
        ] {
            let before = self.noise(lent);
            let mut after = before.clone();
            assert_eq!(self.monitor.work(&bad.table, bad.store.len(), &mut after), 1, "{name}: {}", damage.name);
            assert!(after == before, "{name}: it was written");
            self.met.met(name, true);
        }
        let start = self.few_records(bad, &world.shape());
        self.refused("refused with 1: a bad table, with the good one's slice", &world.shape(), &start, work, 1);
        let any = self.noise(work.len());
        self.refused("refused with 1: a bad table, with any slice", &world.shape(), &start, &any, 1);
    }

    // Slices that are not the table's.

    /// A tray of some records that could be run, with all that it is lent but the slice.
    fn few_records(&mut self, world: World, shape: &Shape) -> Hall {
        let mut hall = Hall { bytes: vec![7; 600], world, records: Vec::new() };
        for _ in 0..self.rng.below(3) {
            let caller = self.rng.below(shape.count(Kind::Process)) as u32;
            let request = Request { caller, code: self.rng.pick(&[1, 3, 7]), a: 512, b: 1, c: 0 };
            hall.records.push(record(&mut self.rng, &Call { request, buffer: Vec::new() }, 0, 0));
        }
        hall
    }

    /// A tray that is refused as a whole, and so changes nothing.
    fn refused(&mut self, name: &'static str, shape: &Shape, start: &Hall, work: &[u32], due: u32) {
        let (mut ours, mut after) = (start.clone(), work.to_vec());
        assert_eq!(ours.run_quick(self.monitor, &mut after), due, "{name}");
        assert!(after == work, "{name}: the slice was changed");
        same(shape, start, &ours, start);
        self.met.met(name, true);
    }

    /// Every word of a small slice is changed, or some of a large one; and what else can be wrong with it.
    fn another_slice(&mut self, world: &World, work: &[u32]) {
        let shape = world.shape();
        let start = self.few_records(world.clone(), &shape);
        let parts = Part::all(&shape, work);
        for at in self.places(&parts) {
            let mut other = work.to_vec();
            other[at] = match self.rng.below(4) {
                0 => other[at].wrapping_add(1),
                1 => other[at].wrapping_sub(1),
                2 => other[at] ^ 1 << self.rng.below(32),
                _ => other[at].wrapping_add(self.rng.word() | 1),
            };
            self.refused(parts[at].damaged(), &shape, &start, &other, 1);
        }
        self.another_length(&shape, &start, work);
        self.another_list(&shape, &start, work, &parts);
        let swapped = (0..work.len() - 1).find(|&at| parts[at] == Part::Mask && work[at] != work[at + 1]);
        if let Some(at) = swapped {
            let mut other = work.to_vec();
            other.swap(at, at + 1);
            self.refused("refused with 1: two masks at each other's places", &shape, &start, &other, 1);
        }
        let mut elsewhere = world.clone();
        tables::fill(&mut self.rng, &mut elsewhere, &shape, |_| true);
        let other = fresh(&elsewhere);
        assert_eq!(other.len(), work.len(), "the length goes by the configuration");
        if other != work {
            self.refused("refused with 1: another table's slice of the same length", &shape, &start, &other, 1);
        }
    }

    /// The words that are changed: the first and the last, and as many of the lists as of all, since most words are masks.
    fn places(&mut self, parts: &[Part]) -> Vec<usize> {
        if parts.len() <= SMALL {
            return (0..parts.len()).collect();
        }
        let lists = parts.iter().take_while(|&&part| part != Part::Mask).count();
        let mut places = vec![0, parts.len() - 1];
        for _ in 0..20 {
            places.extend([self.rng.below(lists), self.rng.below(parts.len())]);
        }
        places
    }

    fn another_length(&mut self, shape: &Shape, start: &Hall, work: &[u32]) {
        let mut more = work.to_vec();
        more.push(if self.rng.chance(1, 2) { 0 } else { self.rng.word() });
        self.refused("refused with 1: one word more", shape, start, &more, 1);
        self.refused("refused with 1: one word less", shape, start, &work[..work.len() - 1], 1);
        self.refused("refused with 1: no words", shape, start, &[], 1);
    }

    /// A list of a cell that looks well: but for its order, with a slot less, with a slot more.
    fn another_list(&mut self, shape: &Shape, start: &Hall, work: &[u32], parts: &[Part]) {
        let counts: Vec<usize> = (0..work.len()).filter(|&at| matches!(parts[at], Part::Count(_))).collect();
        let at = self.rng.pick(&counts);
        let count = work[at] as usize;
        if count >= 2 {
            let mut other = work.to_vec();
            let key = at + 1 + self.rng.below(count - 1);
            other.swap(key, key + 1);
            self.refused("refused with 1: two keys in the other order", shape, start, &other, 1);
        }
        if count >= 1 {
            let mut other = work.to_vec();
            (other[at], other[at + count]) = (work[at] - 1, 0);
            self.refused("refused with 1: the last key is not listed", shape, start, &other, 1);
        }
        if matches!(parts.get(at + count + 1), Some(Part::Zero(_))) {
            let Part::Count(kind) = parts[at] else { return };
            let cell = counts.iter().position(|&other| other == at).expect("it is one of them") % shape.cells;
            let free = |key: u32| work[at + 1..=at + count].contains(&key);
            let key = |index: usize| start.world.table[shape.at(kind, index) + SERIAL] * 256 + index as u32;
            let slot = shape.run(kind, cell).map(key).find(|&key| !free(key));
            let mut other = work.to_vec();
            other[at] += 1;
            other[at + count + 1] = slot.expect("not all of the cell's slots are listed");
            other[at + 1..=at + count + 1].sort_by(|one, other| other.cmp(one));
            self.refused("refused with 1: a slot is listed that is live or worn out", shape, start, &other, 1);
        }
    }

    /// A tray of so many records: too long it is refused with 4, whatever the table and the slice.
    fn of_length(&mut self, count: usize) {
        let world = tables::well_formed(&mut self.rng, tables::MIDDLE);
        let shape = world.shape();
        let mut work = fresh(&world);
        let night = self.drawn(&shape, world, count);
        if count <= MOST_RECORDS {
            self.run(&shape, night, &mut work);
            self.met.met("run: as many records as a tray takes", count == MOST_RECORDS);
            return;
        }
        let mut start = night.start;
        self.refused("refused with 4: the slice is the table's", &shape, &start, &work, 4);
        work.pop();
        self.refused("refused with 4: before a slice that is not the table's", &shape, &start, &work, 4);
        start.world.table[0] = 0;
        self.refused("refused with 4: before a bad table", &shape, &start, &work, 4);
    }

    // Trays that are run.

    /// Some trays one after the other, with the slice that the one before left; and single calls, which leave it behind.
    fn nights(&mut self, mut world: World, mut work: Vec<u32>) {
        let shape = world.shape();
        for night in 0..3 {
            let before = work.clone();
            let count = self.rng.below(40);
            let drawn = self.drawn(&shape, world, count);
            world = self.run(&shape, drawn, &mut work);
            self.met.met("run: with the slice that an earlier tray left", night > 0);
            self.met.met("run: a tray that changes no word of the slice", work == before);
            if work != before {
                let start = self.few_records(world.clone(), &shape);
                self.refused("refused with 1: the slice as it was before a tray", &shape, &start, &before, 1);
            }
        }
        for _ in 0..2 {
            let mut call = self.call(&world, &shape);
            self.monitor.call(&mut world.table, &mut world.store, &call.request, &mut call.buffer);
        }
        let changed = fresh(&world) != work;
        if changed {
            let start = self.few_records(world.clone(), &shape);
            self.refused("refused with 1: the slice as it was before single calls", &shape, &start, &work, 1);
            assert_eq!(self.monitor.work(&world.table, world.store.len(), &mut work), 0, "filled again");
        }
        let drawn = self.drawn(&shape, world, 4);
        self.run(&shape, drawn, &mut work);
        self.met.met("run: with a slice that single calls did not change", !changed);
        self.met.met("run: with a slice that was filled again", changed);
    }

    /// One cell with as many slots as there can be: all are taken, each process opens its neighbour's file, the last one as many as it
    /// can, all is given back, and half of the processes leave.
    fn crowded(&mut self) {
        const SLOTS: u32 = MAX_SLOTS as u32;
        const LAST: u32 = SLOTS - 1;
        let file = |index: u32| Kind::File.seid((index % SLOTS) as usize, 1);
        let spawn = (0..LAST).map(|_| (0, 1, [0, 0, 0o666], 0));
        let make = (0..SLOTS).flat_map(|process| [(process, 7, [0o666, 1, 0], 0), (process, 3, [512, 0o666, 1], 0)]);
        let open = (0..SLOTS).map(|process| (process, 8, [file(process + 1), 1, 0], 0));
        let more = (3..ENTRIES).map(|_| (LAST, 8, [file(0), 1, 0], 0));
        let clash = [(LAST, 8, [file(100), 11, 0], 0), (0, 8, [file(100), 2, 0], 19)];
        let close = (0..SLOTS).flat_map(|process| [(process, 9, [0, 0, 0], 0), (process, 5, [0, 0, 0], 0)]);
        let leave = (0..SLOTS / 2).map(|half| (2 * half + 1, 2, [0, 0, 0], 0));
        let trays: [Vec<Due>; 4] =
            [spawn.collect(), make.collect(), open.chain(more).chain(clash).collect(), close.chain(leave).collect()];

        let mut world = World::configured(&[1, SLOTS, SLOTS, SLOTS, 1, 0, 0, 0, 0, 0, 0, SLOTS, SLOTS, SLOTS, 0, 0]);
        plain::setup(&mut world.table, world.store.len());
        let shape = world.shape();
        let mut work = self.filled(&world);
        for calls in trays {
            let mut night = Night::new(world, Vec::new());
            for (caller, code, [a, b, c], due) in calls {
                let call = Call { request: Request { caller, code, a, b, c }, buffer: Vec::new() };
                let record = record(&mut self.rng, &call, 0, 0);
                let error = self.one_more(&shape, &mut night, record);
                assert_eq!(error, due, "{call:?} in the crowded cell");
            }
            world = self.run(&shape, night, &mut work);
        }
        let night = self.drawn(&shape, world, MOST_RECORDS);
        self.run(&shape, night, &mut work);
    }

    /// A tray of records that are drawn on the table as it stands when they are run.
    fn drawn(&mut self, shape: &Shape, world: World, count: usize) -> Night {
        let length = if self.rng.chance(1, 16) { 70_000 } else { self.rng.pick(&[0, 16, 512, 600, 2_048]) };
        let mut bytes = vec![0; length];
        self.rng.bytes(&mut bytes);
        let mut night = Night::new(world, bytes);
        for _ in 0..count {
            let call = self.call(&night.along.world, shape);
            let long = self.rng.chance(1, 16);
            let length = if long { long_part(&mut self.rng, call.request.code) } else { call.buffer.len() } as u32;
            let beside = self.rng.chance(1, 16);
            let part = if beside { place(&mut self.rng, length, night.start.bytes.len() as u32) } else { (0, length) };
            let record = record(&mut self.rng, &call, part.0, part.1);
            self.one_more(shape, &mut night, record);
        }
        night
    }

    /// The largest trays of blocks, and the end of the largest store.
    fn blocks(&mut self) {
        let largest = (largest::hall(&mut self.rng), largest::calls(&mut self.rng));
        for (world, calls) in [night_of_blocks(&mut self.rng), largest] {
            let (shape, mut work) = (world.shape(), fresh(&world));
            let Hall { world, bytes, records } = laid_out(&mut self.rng, world, &calls);
            let mut night = Night::new(world, bytes);
            for record in records {
                let error = self.one_more(&shape, &mut night, record);
                let last = record.a == 0 && largest::is_last(shape.count(Kind::File) - 1, record.b);
                let moved = error == 0 && matches!(record.code, 13 | 14);
                self.met.met("run: the last block of the largest store", moved && last);
                self.met.met("run: a part past byte 65,536", moved && record.offset >= 65_536);
            }
            self.run(&shape, night, &mut work);
        }
    }

    /// A call of any kind, or as often one that takes or frees slots, or opens or closes something.
    fn call(&mut self, world: &World, shape: &Shape) -> Call {
        let rng = &mut self.rng;
        if rng.chance(1, 2) {
            return calls::any(rng, world, shape);
        }
        let caller = calls::caller(rng, world, shape, |_| true).expect("there is a process slot");
        let code = rng.pick(&[1, 1, 2, 3, 3, 5, 5, 7, 7, 8, 8, 9, 9, 11, 11]);
        calls::with_code(rng, world, shape, caller, code)
    }

    /// One record more: it is put into the tray, and made singly by the plain monitor. Its error.
    fn one_more(&mut self, shape: &Shape, night: &mut Night, mut record: Record) -> u32 {
        let Night { start, along, slots } = night;
        start.records.push(record);
        let lies_inside = inside(&record, start.bytes.len());
        let before = World { table: along.world.table.clone(), store: Vec::new() };
        along.single(shape, &mut record);
        along.records.push(record);
        self.note(shape, &record, &before, &along.world, slots);
        let too_long = calls::asked(record.code).is_some_and(|asked| record.length as usize == asked + 65_536);
        self.met.met("run: a part that does not lie inside the bytes", record.error == 5 && !lies_inside);
        self.met.met("run: a part that is 65,536 bytes too long", record.error == 5 && lies_inside && too_long);
        record.error
    }

    /// A quick tray with a right slice, against the calls made singly: the slice is right again. The world that is left.
    fn run(&mut self, shape: &Shape, night: Night, work: &mut [u32]) -> World {
        let Night { start, along, .. } = night;
        let mut ours = start.clone();
        let answer = ours.run_quick(self.monitor, work);
        assert_eq!(answer, 0, "the answer of a quick tray of {} records", start.records.len());
        same(shape, &start, &ours, &along);
        let right = fresh(&along.world);
        if let Some(at) = (0..right.len()).find(|&at| work[at] != right[at]) {
            let [left, fresh] = [work[at], right[at]];
            panic!("word {at} of the slice is {left}, and not {fresh}, after the tray {:#?}", start.records);
        }
        self.met.met("run: no record", start.records.is_empty());
        along.world
    }

    // What was met.

    /// A call that was made on a table, and what it left.
    fn note(&mut self, shape: &Shape, record: &Record, before: &World, after: &World, slots: &mut Slots) {
        if record.error == 0 {
            self.done[record.code as usize] += 1;
        }
        let moved = Moved::of(shape, before, after);
        for &(kind, index) in &moved.freed {
            let worn = after.table[shape.at(kind, index) + SERIAL] == MAX_SERIAL;
            let name = match kind {
                Kind::Process => "slots: a process slot worn out",
                Kind::Segment => "slots: a segment slot worn out",
                Kind::File => "slots: a file slot worn out",
            };
            self.met.met(name, worn);
            let name = match kind {
                Kind::Process => "slots: a process slot taken and freed in one tray",
                Kind::Segment => "slots: a segment slot taken and freed in one tray",
                Kind::File => "slots: a file slot taken and freed in one tray",
            };
            self.met.met(name, slots.taken.contains(&(kind as usize, index)));
            self.met.met("slots: the last of all freed", index == MAX_SLOTS - 1);
            slots.freed.insert((kind as usize, index));
        }
        for &(kind, index) in &moved.taken {
            let name = match kind {
                Kind::Process => "slots: a process slot freed and taken again in one tray",
                Kind::Segment => "slots: a segment slot freed and taken again in one tray",
                Kind::File => "slots: a file slot freed and taken again in one tray",
            };
            self.met.met(name, slots.freed.contains(&(kind as usize, index)));
            let serial = |index: usize| before.table[shape.at(kind, index) + SERIAL];
            let free = |index: &usize| !before.live(shape, kind, *index) && serial(*index) < MAX_SERIAL;
            let first = shape.run(kind, shape.cell(kind, index)).find(free);
            self.met.met("slots: the one taken is not the first that is free", first != Some(index));
            self.met.met("slots: one is taken for the last time", serial(index) == MAX_SERIAL - 1);
            self.met.met("slots: the last of all taken", index == MAX_SLOTS - 1);
            slots.taken.insert((kind as usize, index));
        }
        let caller = record.caller as usize;
        if caller < shape.count(Kind::Process) {
            self.note_call(shape, record, before, caller, &moved);
        }
    }

    fn note_call(&mut self, shape: &Shape, record: &Record, before: &World, caller: usize, moved: &Moved) {
        let cell = shape.cell(Kind::Process, caller);
        let done = record.error == 0;
        let frees = |kind: Kind| moved.freed.iter().any(|&(freed, _)| freed == kind);
        let made = match record.code {
            1 => Some(Kind::Process),
            3 => Some(Kind::Segment),
            7 => Some(Kind::File),
            _ => None,
        };
        if let Some(kind) = made {
            let worn = |index: usize| {
                !before.live(shape, kind, index) && before.table[shape.at(kind, index) + SERIAL] == MAX_SERIAL
            };
            let none = matches!(record.error, 26 | 27) && shape.run(kind, cell).any(worn);
            self.met.met("slots: none is left but worn ones", none);
            self.met.met("create: with a subtype", done && record.code == 7 && record.c != 0);
        }
        match record.code {
            2 if done => self.note_release(shape, record, before, caller, moved),
            5 => self.met.met("release: of a segment that nobody else holds", frees(Kind::Segment)),
            8 => self.note_open(shape, record, before, caller),
            9 if done => self.note_close(shape, record, before, caller, moved),
            11 if done => {
                self.met.met("unlink: of a file that is freed", frees(Kind::File));
                self.met.met("unlink: of a file that stays", !frees(Kind::File));
            }
            calls::REGRADE if done => {
                self.met.met("regrade: into another cell", record.b as usize != cell);
                self.met.met("regrade: into the guard's cell", record.b as usize == cell);
            }
            _ => {}
        }
    }

    fn note_release(&mut self, shape: &Shape, record: &Record, before: &World, caller: usize, moved: &Moved) {
        let cell = shape.cell(Kind::Process, caller);
        let process = if record.a == 0 { caller } else { Seid::of(record.a).index };
        let frees = |kind: Kind| moved.freed.iter().any(|&(freed, _)| freed == kind);
        let held = (0..ENTRIES).map(|place| before.entry(shape, process, DESCRIPTORS, place).0);
        let files: Vec<u32> = held.filter(|&seid| seid != 0 && !is_subtype(seid)).collect();
        let own = |seid: &u32| shape.cell(Kind::File, Seid::of(*seid).index) == cell;
        let stays = |seid: &u32| own(seid) && !moved.freed.contains(&(Kind::File, Seid::of(*seid).index));
        for (name, met) in [
            ("release: of a process that held a file last", frees(Kind::File)),
            ("release: of a process that held a segment last", frees(Kind::Segment)),
            ("release: of a process that held files and segments last", frees(Kind::File) && frees(Kind::Segment)),
            ("release: of a process that holds files which stay", files.iter().any(stays)),
            ("release: of a process that holds subtypes", !before.held_subtypes(shape, process).is_empty()),
            ("release: of a process that holds files of other cells", !files.iter().all(own)),
            ("release: of the caller", process == caller),
        ] {
            self.met.met(name, met);
        }
    }

    fn note_open(&mut self, shape: &Shape, record: &Record, before: &World, caller: usize) {
        let (done, busy) = (record.error == 0, record.error == 19);
        if is_subtype(record.a) {
            self.met.met("open: of a subtype", done);
            self.met.met("open: of a subtype, refused with 19", busy);
            return;
        }
        self.met.met("open: of a file, refused with 19", busy);
        if busy {
            let processes = shape.run(Kind::Process, shape.cell(Kind::Process, caller));
            let last = processes.end - 1;
            let clashes = |&(process, place): &(usize, usize)| {
                let (seid, modes) = before.entry(shape, process, DESCRIPTORS, place);
                seid == record.a && plain::clash(modes, record.b)
            };
            let entries = processes.flat_map(|process| (0..ENTRIES).map(move |place| (process, place)));
            let clashing: Vec<(usize, usize)> = entries.filter(clashes).collect();
            let own = clashing.iter().any(|&(process, _)| process == caller);
            let alone = caller != last && clashing.iter().all(|&(process, _)| process == last);
            let last_place = clashing.iter().all(|&(_, place)| place == ENTRIES - 1);
            self.met.met("open: of a file, refused with 19 for a descriptor of the caller", own);
            self.met.met("open: of a file, refused with 19 for a last descriptor", last_place);
            self.met.met("open: of a file, refused with 19 for the last process of the cell alone", alone);
        }
        if done {
            let file = Seid::of(record.a).index;
            let own = shape.cell(Kind::File, file) == shape.cell(Kind::Process, caller);
            let opens = before.table[shape.at(Kind::File, file) + HOLDS];
            let twice = holds(before, shape, caller, record.a) > 0;
            self.met.met("open: of a file that is open in its cell and does not clash", own && opens > 0);
            self.met.met("open: of a file that the caller has open too", own && twice);
            self.met.met("open: of a file that nobody of its cell has open", own && opens == 0);
            self.met.met("open: of another cell's file", !own);
            self.met.met("open: at the last descriptor", own && record.first as usize == ENTRIES - 1);
        }
    }

    fn note_close(&mut self, shape: &Shape, record: &Record, before: &World, caller: usize, moved: &Moved) {
        let (seid, _) = before.entry(shape, caller, DESCRIPTORS, record.a as usize);
        self.met.met("close: of a subtype", is_subtype(seid));
        if is_subtype(seid) {
            return;
        }
        let file = Seid::of(seid).index;
        let own = shape.cell(Kind::File, file) == shape.cell(Kind::Process, caller);
        let stale = before.stale(shape, Kind::File, seid);
        let kept = &before.table[shape.record(Kind::File, file)];
        let twice = holds(before, shape, caller, seid) > 1;
        self.met.met("close: of a file that is freed", moved.freed.contains(&(Kind::File, file)));
        self.met.met("close: of a file that stays by its links", own && kept[LINKS] > 0 && kept[HOLDS] == 1);
        self.met.met("close: of a file that others have open", own && kept[HOLDS] > 1 && !twice);
        self.met.met("close: of a file that the caller has open twice", own && twice);
        self.met.met("close: of another cell's file", !own && !stale);
        self.met.met("close: of a file that is gone", !own && stale);
    }
}

/// At how many descriptors a process holds a seid.
fn holds(world: &World, shape: &Shape, process: usize, seid: u32) -> usize {
    (0..ENTRIES).filter(|&place| world.entry(shape, process, DESCRIPTORS, place).0 == seid).count()
}

/// A call by its caller, code and arguments, and its error.
type Due = (u32, u32, [u32; 3], u32);

/// A tray as it is run, the same with its calls made singly, and the slots that they moved.
struct Night {
    start: Hall,
    along: Hall,
    slots: Slots,
}

impl Night {
    fn new(world: World, bytes: Vec<u8>) -> Night {
        let start = Hall { world, bytes, records: Vec::new() };
        Night { along: start.clone(), start, slots: Slots::default() }
    }
}

/// The slots that a tray has freed and taken so far, by kind and index.
#[derive(Default)]
struct Slots {
    freed: BTreeSet<(usize, usize)>,
    taken: BTreeSet<(usize, usize)>,
}

/// The slots that a call has freed and taken.
struct Moved {
    freed: Vec<(Kind, usize)>,
    taken: Vec<(Kind, usize)>,
}

impl Moved {
    fn of(shape: &Shape, before: &World, after: &World) -> Moved {
        let mut moved = Moved { freed: Vec::new(), taken: Vec::new() };
        for kind in Kind::ALL {
            for index in 0..shape.count(kind) {
                match (before.live(shape, kind, index), after.live(shape, kind, index)) {
                    (true, false) => moved.freed.push((kind, index)),
                    (false, true) => moved.taken.push((kind, index)),
                    _ => {}
                }
            }
        }
        moved
    }
}
