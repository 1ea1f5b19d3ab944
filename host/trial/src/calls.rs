//! Random calls: mostly of a kind that may succeed on the table at hand, often just beside it, now and then quite wild.

use crate::rng::Rng;
use crate::tables::{VALID_MODES, World, bits, identity, is_subtype, subtypes};
use plain::table::*;
use plain::{Kind, Request, Seid, Shape, subtype_seid};

#[derive(Clone, Debug, PartialEq, Eq)]
pub struct Call {
    pub request: Request,
    pub buffer: Vec<u8>,
}

/// A process of the cells allowed, mostly a live one. None if there is no such cell.
pub fn caller(rng: &mut Rng, world: &World, shape: &Shape, allowed: impl Fn(usize) -> bool) -> Option<u32> {
    let slots: Vec<usize> =
        (0..shape.count(Kind::Process)).filter(|&p| allowed(shape.cell(Kind::Process, p))).collect();
    if slots.is_empty() {
        return None;
    }
    let last = slots[slots.len() - 1];
    let mut slot = if rng.chance(1, 32) { last } else { rng.pick(&slots) };
    if !rng.chance(1, 32) {
        for _ in 0..8 {
            if world.live(shape, Kind::Process, slot) {
                break;
            }
            slot = rng.pick(&slots);
        }
    }
    Some(slot as u32)
}

/// A caller number beyond the table: it is in no cell.
pub fn no_caller(rng: &mut Rng, shape: &Shape) -> u32 {
    let count = shape.count(Kind::Process) as u32;
    rng.pick(&[0, 1, 64, 65, 255, 256, 257, 65536, u32::MAX]).max(count)
}

/// The call of the regrading desk.
pub const REGRADE: u32 = 21;

/// A process of the guard cell, mostly a live one, and one that has something to read. None if there is no guard.
pub fn at_the_desk(rng: &mut Rng, world: &World, shape: &Shape) -> Option<u32> {
    let guard = shape.guard?;
    for _ in 0..4 {
        let process = caller(rng, world, shape, |cell| cell == guard)?;
        if !readable(world, shape, process as usize).is_empty() {
            return Some(process);
        }
    }
    caller(rng, world, shape, |cell| cell == guard)
}

/// The descriptors of a process by which it may read a file today.
pub fn readable(world: &World, shape: &Shape, process: usize) -> Vec<usize> {
    let own = &world.table[shape.record(Kind::Process, process)];
    let reads = |&place: &usize| {
        let (seid, modes) = world.entry(shape, process, DESCRIPTORS, place);
        if seid == 0 || is_subtype(seid) || modes & 1 == 0 || world.stale(shape, Kind::File, seid) {
            return false;
        }
        let file = &world.table[shape.record(Kind::File, Seid::of(seid).index)];
        let same = |word: usize| file[word] == own[word];
        plain::granted(file[BITS], same(OWNER), same(GROUP)) & READ != 0
    };
    (0..ENTRIES).filter(reads).collect()
}

/// A call by any process.
pub fn any(rng: &mut Rng, world: &World, shape: &Shape) -> Call {
    if rng.chance(1, 8)
        && let Some(call) = at_the_top(rng, world, shape)
    {
        return call;
    }
    if rng.chance(1, 20)
        && let Some(caller) = at_the_desk(rng, world, shape)
    {
        return with_code(rng, world, shape, caller, REGRADE);
    }
    if !shape.subtypes().is_empty() && rng.chance(1, 20) {
        let caller = who_holds_a_subtype(rng, world, shape, |_| true).expect("there is a process slot");
        let code = rng.pick(&[7, 8, 8, 8]);
        return with_code(rng, world, shape, caller, code);
    }
    let caller = match rng.chance(1, 200) {
        true => no_caller(rng, shape),
        false => caller(rng, world, shape, |_| true).expect("there is a process slot"),
    };
    by(rng, world, shape, caller)
}

/// A process of the cells allowed, mostly one that holds a subtype. None if there is no such cell.
pub fn who_holds_a_subtype(
    rng: &mut Rng,
    world: &World,
    shape: &Shape,
    allowed: impl Fn(usize) -> bool,
) -> Option<u32> {
    for _ in 0..4 {
        let process = caller(rng, world, shape, &allowed)?;
        if !world.held_subtypes(shape, process as usize).is_empty() {
            return Some(process);
        }
    }
    caller(rng, world, shape, allowed)
}

/// A call that makes or uses the last slot of a kind that has as many as there can be, by a process of its cell.
fn at_the_top(rng: &mut Rng, world: &World, shape: &Shape) -> Option<Call> {
    let full: Vec<Kind> = Kind::ALL.into_iter().filter(|&kind| shape.count(kind) == MAX_SLOTS).collect();
    if full.is_empty() {
        return None;
    }
    let kind = rng.pick(&full);
    let last = world.seid(shape, kind, MAX_SLOTS - 1);
    let cell = shape.cell(kind, MAX_SLOTS - 1);
    let caller = caller(rng, world, shape, |other| other == cell)?;
    let own = |word: usize| world.table[shape.at(Kind::Process, caller as usize) + word];
    if kind == Kind::Process && rng.chance(1, 4) {
        return Some(by(rng, world, shape, MAX_SLOTS as u32 - 1));
    }
    if kind == Kind::File
        && rng.chance(1, 2)
        && let Some(caller) = at_the_desk(rng, world, shape)
    {
        let mut call = with_code(rng, world, shape, caller, REGRADE);
        call.request.b = cell as u32;
        return Some(call);
    }
    let (code, [a, b, c], length) = match (kind, rng.chance(1, 2)) {
        (Kind::Process, true) => (1, [own(OWNER), own(GROUP), FIRST_BITS], 0),
        (Kind::Process, false) => (15, [last, 0, 0], 12),
        (Kind::Segment, true) => (3, [512, 0o666, 1], 0),
        (Kind::Segment, false) => (4, [last, 256, 0], 0),
        (Kind::File, true) => (7, [0o666, 3, 0], 0),
        (Kind::File, false) => (8, [last, 1, 0], 0),
    };
    Some(Call { request: Request { caller, code, a, b, c }, buffer: vec![7; length] })
}

/// The length of buffer that a call asks for, if it asks for one.
pub fn asked(code: u32) -> Option<usize> {
    match code {
        13 | 14 => Some(BLOCK_BYTES),
        15 => Some(12),
        16 | 17 => Some(16),
        REGRADE => Some(4),
        _ => None,
    }
}

/// A call by the caller given.
pub fn by(rng: &mut Rng, world: &World, shape: &Shape, caller: u32) -> Call {
    let code = code(rng);
    with_code(rng, world, shape, caller, code)
}

/// Codes that use things up come less often than those that make them.
fn code(rng: &mut Rng) -> u32 {
    match rng.below(100) {
        0 => rng.pick(&[0, 22, 23, 32, 255, 256 + 1, 65536 + 7, u32::MAX]),
        1 => 2,
        2..=5 => 1,
        6..=13 => 8,
        14..=20 => 15,
        21..=27 => 4,
        28..=34 => 19,
        _ => rng.pick(&[1, 3, 3, 4, 5, 6, 7, 7, 8, 9, 10, 11, 12, 13, 13, 14, 14, 15, 16, 17, 18, 20, REGRADE]),
    }
}

pub fn with_code(rng: &mut Rng, world: &World, shape: &Shape, caller: u32, code: u32) -> Call {
    let mut draw = Draw { rng, world, shape, process: caller as usize % shape.count(Kind::Process) };
    let [a, b, c] = draw.arguments(code);
    let buffer = draw.buffer(code);
    Call { request: Request { caller, code, a, b, c }, buffer }
}

struct Draw<'a> {
    rng: &'a mut Rng,
    world: &'a World,
    shape: &'a Shape,
    /// The caller's slot; for a caller beyond the table, some slot.
    process: usize,
}

impl Draw<'_> {
    fn arguments(&mut self, code: u32) -> [u32; 3] {
        let (a, b, c) = match code {
            1 => (Some(self.own_identity(OWNER)), Some(self.own_identity(GROUP)), Some(self.bits())),
            2 => (Some(self.other_process()), None, None),
            3 => (Some(self.segment_size()), Some(self.bits()), Some(self.rng.pick(&[0, 1, 1, 1, 1, 1, 2]))),
            4 => (Some(self.seid_or_held(Kind::Segment)), Some(self.access()), None),
            5 | 18 => (Some(self.place(DESIGNATORS)), None, None),
            6 => (Some(self.place(DESIGNATORS)), Some(self.access()), None),
            7 => (Some(self.bits()), Some(self.modes()), Some(self.subtype_for_a_file())),
            8 => self.open(),
            9 => (Some(self.place(DESCRIPTORS)), None, None),
            10 | 11 => (Some(self.seid_or_held(Kind::File)), None, None),
            12 => {
                let object = match self.rng.below(5) {
                    0 | 1 => self.seid_or_held(Kind::File),
                    2 | 3 => self.seid_or_held(Kind::Segment),
                    _ => self.seid(Kind::Process),
                };
                (Some(object), Some(self.bits()), None)
            }
            13 | 14 => (Some(self.descriptor_to_use()), Some(self.block()), None),
            15 => (Some(self.receiver()), None, None),
            17 => {
                let kind = self.rng.pick(&Kind::ALL);
                (Some(self.seid(kind)), None, None)
            }
            19 => self.remap(),
            20 => (Some(self.page()), None, None),
            REGRADE => (Some(self.source()), Some(self.cell()), Some(self.bits())),
            _ => (None, None, None),
        };
        // An unused argument may be anything.
        [a, b, c].map(|argument| argument.unwrap_or_else(|| self.unused()))
    }

    fn unused(&mut self) -> u32 {
        if self.rng.chance(1, 2) { 0 } else { self.rng.word() }
    }

    fn own_word(&self, word: usize) -> u32 {
        self.world.table[self.shape.at(Kind::Process, self.process) + word]
    }

    fn own_identity(&mut self, word: usize) -> u32 {
        match self.rng.below(16) {
            0 => self.rng.pick(&[65535, 65536, 65537, u32::MAX]),
            1..=4 => identity(self.rng),
            _ => self.own_word(word),
        }
    }

    fn segment_size(&mut self) -> u32 {
        match self.rng.below(8) {
            0 => self.rng.pick(&[0, 1, 511, 513, 65023, 65025, 65536, 66048, u32::MAX - 511]),
            1 => self.rng.word(),
            2 => self.rng.pick(&[512, 65024]),
            _ => 512 * self.rng.between(1, 127),
        }
    }

    fn bits(&mut self) -> u32 {
        match self.rng.below(16) {
            0 => self.rng.pick(&[511, 512, 513, 1023, u32::MAX]),
            _ => bits(self.rng),
        }
    }

    fn access(&mut self) -> u32 {
        match self.rng.below(12) {
            0 => self.rng.pick(&[0, 1, 2, 3, 64, 127, 129, 383, 385, 512, 640, u32::MAX]),
            1..=2 => 0,
            _ => self.rng.pick(&[128, 256, 256, 384]),
        }
    }

    fn modes(&mut self) -> u32 {
        match self.rng.below(8) {
            0 => self.rng.between(0, 20),
            1 => self.rng.pick(&[16 + 1, 256 + 1, u32::MAX, 9, 11]),
            2..=4 => 1,
            _ => self.rng.pick(&VALID_MODES),
        }
    }

    fn block(&mut self) -> u32 {
        let blocks = self.shape.blocks as u32;
        match self.rng.below(8) {
            0 => self.rng.pick(&[blocks, blocks + 1, 64, 65, 1 << 23, u32::MAX]),
            1 => blocks - 1,
            2..=4 => 0,
            _ => self.rng.below(self.shape.blocks) as u32,
        }
    }

    /// A place among the caller's entries, mostly one that is used.
    fn place(&mut self, entries: usize) -> u32 {
        match self.rng.below(16) {
            0 => self.rng.pick(&[16, 17, 255, 256, u32::MAX]),
            1..=3 => self.rng.below(ENTRIES) as u32,
            _ => {
                let used = self.used(entries);
                if used.is_empty() { self.rng.below(ENTRIES) as u32 } else { self.rng.pick(&used) as u32 }
            }
        }
    }

    /// A place among the caller's descriptors, for a call that wants a file there: a subtype less often.
    fn descriptor_to_use(&mut self) -> u32 {
        let place = self.place(DESCRIPTORS);
        let held = self.world.held_subtypes(self.shape, self.process);
        let subtype = held.iter().any(|&(at, _, _)| at as u32 == place);
        if subtype && self.rng.chance(7, 8) { self.place(DESCRIPTORS) } else { place }
    }

    fn used(&self, entries: usize) -> Vec<usize> {
        (0..ENTRIES).filter(|&place| self.world.entry(self.shape, self.process, entries, place).0 != 0).collect()
    }

    /// What is opened, in which modes, and by which subtype.
    fn open(&mut self) -> (Option<u32>, Option<u32>, Option<u32>) {
        let any = !self.shape.subtypes().is_empty();
        if any && self.rng.chance(1, 5) {
            let (subtype, modes) = match self.rng.chance(1, 6).then(|| self.quiet_subtype()).flatten() {
                Some(subtype) => (subtype, self.rng.pick(&[15, 15, 11, 3])),
                None => (self.subtype(), self.modes()),
            };
            return (Some(subtype), Some(modes), None);
        }
        let (file, modes) = match self.rng.chance(1, 6).then(|| self.quiet_file()).flatten() {
            Some(file) => (file, self.rng.pick(&[15, 15, 11, 3])),
            None if any && self.rng.chance(1, 2) => self.subtyped_file(),
            None => (self.seid_or_held(Kind::File), self.modes()),
        };
        let by = match self.subtype_of(file) {
            None if any && self.rng.chance(1, 4) => Some(self.descriptor_of(None)),
            None => None,
            due => Some(self.descriptor_of(due)),
        };
        (Some(file), Some(modes), by)
    }

    /// A subtype's seid, mostly one that the caller's level lets it open; or something beside it.
    fn subtype(&mut self) -> u32 {
        let cell = self.shape.cell(Kind::Process, self.process);
        let count = self.shape.subtypes().len();
        let near = subtypes(self.shape, |from| self.shape.flow[from][cell]);
        let seid = match near.is_empty() || self.rng.chance(1, 4) {
            true => subtype_seid(self.rng.below(count)),
            false => self.rng.pick(&near),
        };
        match self.rng.below(20) {
            0 => subtype_seid(self.rng.pick(&[count, count + 1, 255])),
            1 => seid & !65535,
            2 => seid & !65535 | self.rng.pick(&[2, 3, 65535]),
            _ => seid,
        }
    }

    /// The subtype of the file that a seid names, if it has one.
    fn subtype_of(&self, word: u32) -> Option<u32> {
        let seid = Seid::of(word);
        let fits = seid.fits(Kind::File, self.shape.count(Kind::File));
        let word = fits.then(|| self.world.table[self.shape.at(Kind::File, seid.index) + SUBTYPE])?;
        (word != 0).then_some(word)
    }

    /// A subtyped file and modes. Mostly it is one that the caller may read by level, and by its bits, and whose subtype it holds, as far
    /// as there are some.
    fn subtyped_file(&mut self) -> (u32, u32) {
        let cell = self.shape.cell(Kind::Process, self.process);
        let held = self.world.held_subtypes(self.shape, self.process);
        let files = (0..self.shape.count(Kind::File)).map(|file| self.world.seid(self.shape, Kind::File, file));
        let all: Vec<u32> = files.filter(|&file| self.subtype_of(file).is_some()).collect();
        let from = |file: u32| self.shape.cell(Kind::File, Seid::of(file).index);
        let reads = |file: u32| {
            let record = &self.world.table[self.shape.record(Kind::File, Seid::of(file).index)];
            self.shape.flow[from(file)][cell] && self.granted(record) & READ != 0
        };
        let read: Vec<u32> = all.iter().copied().filter(|&file| reads(file)).collect();
        let holds = |file: u32| held.iter().any(|&(_, seid, _)| self.subtype_of(file) == Some(seid));
        let open: Vec<u32> = read.iter().copied().filter(|&file| holds(file)).collect();
        let skipped = self.rng.pick(&[0, 0, 0, 0, 0, 1, 1, 2]);
        let file = match [open, read, all].iter().skip(skipped).find(|files| !files.is_empty()) {
            Some(files) => self.rng.pick(files),
            None => return (self.seid_or_held(Kind::File), self.modes()),
        };
        (file, if from(file) == cell { self.rng.pick(&VALID_MODES) } else { self.modes() })
    }

    /// A subtype of the caller's cell that nobody of it has open; one that a higher process has, if there is one.
    fn quiet_subtype(&mut self) -> Option<u32> {
        let cell = self.shape.cell(Kind::Process, self.process);
        let opened = |process: usize, subtype: u32| {
            self.world.held_subtypes(self.shape, process).iter().any(|&(_, seid, _)| seid == subtype)
        };
        let mut quiet = subtypes(self.shape, |from| from == cell);
        quiet.retain(|&seid| !self.shape.run(Kind::Process, cell).any(|process| opened(process, seid)));
        let processes = 0..self.shape.count(Kind::Process);
        let read = |seid: u32| processes.clone().any(|process| opened(process, seid));
        let read: Vec<u32> = quiet.iter().copied().filter(|&seid| read(seid)).collect();
        [read, quiet].iter().find(|subtypes| !subtypes.is_empty()).map(|subtypes| self.rng.pick(subtypes))
    }

    /// What the bits of a segment's or file's record grant to the caller.
    fn granted(&self, record: &[u32]) -> u32 {
        let same = |word: usize| record[word] == self.own_word(word);
        plain::granted(record[BITS], same(OWNER), same(GROUP))
    }

    /// A descriptor and 1: mostly one that holds the subtype asked for, or any where none is; else one that does not, or none.
    fn descriptor_of(&mut self, subtype: Option<u32>) -> u32 {
        let held = self.world.held_subtypes(self.shape, self.process);
        let right: Vec<_> =
            held.iter().copied().filter(|&(_, seid, _)| subtype.is_none_or(|due| seid == due)).collect();
        match self.rng.below(16) {
            0 => 0,
            1 => self.rng.pick(&[17, 18, 256, 65536 + 1, u32::MAX]),
            2 | 3 => 1 + self.rng.below(ENTRIES) as u32,
            4 | 5 if !held.is_empty() => 1 + self.rng.pick(&held).0 as u32,
            _ if !right.is_empty() => 1 + self.rng.pick(&right).0 as u32,
            _ => 0,
        }
    }

    /// What create takes as c: mostly none. Where there are no subtypes it is drawn as an unused argument is, so that the calls of the
    /// benchmark, whose tables have none, stay what they were before there were any.
    fn subtype_for_a_file(&mut self) -> u32 {
        if self.shape.subtypes().is_empty() {
            let wild = self.unused();
            return if wild.is_multiple_of(256) { wild >> 8 } else { 0 };
        }
        if self.rng.chance(3, 8) { self.descriptor_of(None) } else { 0 }
    }

    /// An incoming designator, a first page, an outgoing designator.
    fn remap(&mut self) -> (Option<u32>, Option<u32>, Option<u32>) {
        let none = ENTRIES as u32;
        let incoming = match self.rng.below(8) {
            0 => none,
            _ => self.place(DESIGNATORS),
        };
        let outgoing = match self.rng.below(8) {
            0..=2 => none,
            3 => incoming,
            4 => self.place(DESIGNATORS),
            _ => self.mapped().unwrap_or(none),
        };
        let moved = if self.rng.chance(1, 8) { outgoing } else { incoming };
        (Some(moved), Some(self.first_page()), Some(outgoing))
    }

    /// A designator that the caller has mapped.
    fn mapped(&mut self) -> Option<u32> {
        let mapped: Vec<u32> = (0..PAGES).map(|page| self.own_word(MAP + page)).filter(|&word| word != 0).collect();
        if mapped.is_empty() { None } else { Some(self.rng.pick(&mapped) - 1) }
    }

    /// Where a run of pages may begin: at an empty page mostly.
    fn first_page(&mut self) -> u32 {
        match self.rng.below(8) {
            0 => self.rng.pick(&[7, 8, 9, 255, u32::MAX - 7, u32::MAX]),
            1 | 2 => self.rng.below(PAGES) as u32,
            _ => (0..PAGES).find(|&page| self.own_word(MAP + page) == 0).unwrap_or(0) as u32,
        }
    }

    /// A page, mostly a used one.
    fn page(&mut self) -> u32 {
        let used: Vec<usize> = (0..PAGES).filter(|&page| self.own_word(MAP + page) != 0).collect();
        match self.rng.below(8) {
            0 => self.rng.pick(&[8, 9, 255, 256, u32::MAX]),
            1 | 2 => self.rng.below(PAGES) as u32,
            _ if used.is_empty() => self.rng.below(PAGES) as u32,
            _ => self.rng.pick(&used) as u32,
        }
    }

    /// A descriptor, mostly one by which the caller may read.
    fn source(&mut self) -> u32 {
        let readable = readable(self.world, self.shape, self.process);
        if readable.is_empty() || self.rng.chance(1, 4) {
            return self.descriptor_to_use();
        }
        self.rng.pick(&readable) as u32
    }

    fn cell(&mut self) -> u32 {
        let cells = self.shape.cells as u32;
        match self.rng.below(16) {
            0 => self.rng.pick(&[cells, cells + 1, 16, 17, 256, u32::MAX]),
            1 => cells - 1,
            _ => self.rng.below(self.shape.cells) as u32,
        }
    }

    /// A seid; or one that the caller holds, or the present use of a slot of which it holds an older one.
    fn seid_or_held(&mut self, kind: Kind) -> u32 {
        let entries = if kind == Kind::File { DESCRIPTORS } else { DESIGNATORS };
        let used = self.used(entries);
        if used.is_empty() || self.rng.chance(2, 3) {
            return self.seid(kind);
        }
        let held: Vec<u32> =
            used.iter().map(|&place| self.world.entry(self.shape, self.process, entries, place).0).collect();
        let stale = held.iter().copied().filter(|&seid| self.world.stale(self.shape, kind, seid));
        let stale: Vec<u32> = stale.collect();
        match stale.is_empty() || self.rng.chance(1, 2) {
            true => self.rng.pick(&held),
            false => self.world.seid(self.shape, kind, Seid::of(self.rng.pick(&stale)).index),
        }
    }

    /// A slot's seid as it stands, mostly in the caller's cell; or something beside it.
    fn seid(&mut self, kind: Kind) -> u32 {
        let count = self.shape.count(kind);
        let run = self.shape.run(kind, self.shape.cell(Kind::Process, self.process));
        if count == 0 {
            return self.rng.pick(&[0, kind.seid(0, 1), self.process as u32, u32::MAX]);
        }
        let mut index = 0;
        for _ in 0..3 {
            let near = !run.is_empty() && self.rng.chance(5, 8);
            index = match self.rng.chance(1, 32) {
                true => count - 1,
                false if near => run.start + self.rng.below(run.len()),
                false => self.rng.below(count),
            };
            if self.world.live(self.shape, kind, index) {
                break;
            }
        }
        let seid = self.world.seid(self.shape, kind, index);
        match self.rng.below(40) {
            0 => 0,
            1 => self.rng.word(),
            2 => kind.seid(self.rng.pick(&[count, count + 1, 255]).min(255), 1),
            3 => seid & !65535,
            4 => seid & 0x00ff_ffff | self.rng.pick(&[0, 4, 5, 129, 6, 128, 130, 255]) << 24,
            5 => seid | 65535,
            6 => seid & !65535 | (seid & 65535).saturating_sub(1).max(1),
            7 => seid & !65535 | ((seid & 65535) + 1).min(65535),
            8 => self.world.seid(self.shape, Kind::Process, self.process),
            9 if !self.shape.subtypes().is_empty() => subtype_seid(self.rng.below(self.shape.subtypes().len())),
            _ => seid,
        }
    }

    /// A file of the caller's cell that nobody of it has open and that the caller may write, by its bits and by a subtype that it
    /// holds; one that a higher process reads, if there is one.
    fn quiet_file(&mut self) -> Option<u32> {
        let files = self.shape.run(Kind::File, self.shape.cell(Kind::Process, self.process));
        let held = self.world.held_subtypes(self.shape, self.process);
        let writes = |subtype: u32| held.iter().any(|&(_, seid, modes)| seid == subtype && modes & 2 != 0);
        let quiet = files.filter(|&file| {
            let record = &self.world.table[self.shape.record(Kind::File, file)];
            let granted = self.granted(record) == READ | WRITE && (record[SUBTYPE] == 0 || writes(record[SUBTYPE]));
            record[LIVE] == 1 && record[HOLDS] == 0 && granted
        });
        let quiet: Vec<u32> = quiet.map(|file| self.world.seid(self.shape, Kind::File, file)).collect();
        let read = |seid: u32| {
            (0..self.shape.count(Kind::Process)).any(|process| {
                (0..ENTRIES).any(|place| self.world.entry(self.shape, process, DESCRIPTORS, place).0 == seid)
            })
        };
        let read: Vec<u32> = quiet.iter().copied().filter(|&seid| read(seid)).collect();
        [read, quiet].iter().find(|files| !files.is_empty()).map(|files| self.rng.pick(files))
    }

    /// A process to release: oneself less often, or no caller would be left.
    fn other_process(&mut self) -> u32 {
        let own = self.world.seid(self.shape, Kind::Process, self.process);
        let first = self.seid(Kind::Process);
        if (first == 0 || first == own) && self.rng.chance(3, 4) { self.seid(Kind::Process) } else { first }
    }

    /// Posts go up as often as they stay in the cell.
    fn receiver(&mut self) -> u32 {
        let cell = self.shape.cell(Kind::Process, self.process);
        let above: Vec<usize> = (0..self.shape.count(Kind::Process))
            .filter(|&p| {
                let other = self.shape.cell(Kind::Process, p);
                other != cell && self.shape.flow[cell][other]
            })
            .collect();
        if above.is_empty() || self.rng.chance(1, 2) {
            return self.seid(Kind::Process);
        }
        let index = self.rng.pick(&above);
        let seid = self.world.seid(self.shape, Kind::Process, index);
        match self.rng.below(6) {
            0 => seid & !65535 | self.rng.between(1, 65535),
            _ => seid,
        }
    }

    /// The length that the call asks for, if it names one, or another; with bytes in it.
    fn buffer(&mut self, code: u32) -> Vec<u8> {
        let length = match asked(code) {
            Some(length) if self.rng.chance(15, 16) => length,
            None if self.rng.chance(3, 4) => 0,
            _ if self.rng.chance(1, 2) => self.rng.pick(&[0, 1, 3, 4, 5, 11, 12, 13, 15, 16, 17, 511, 512, 513]),
            _ => self.rng.below(514),
        };
        let mut buffer = vec![0; length];
        self.rng.bytes(&mut buffer);
        buffer
    }
}
