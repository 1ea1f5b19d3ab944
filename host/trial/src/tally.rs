//! What a trial has met: each code's successes, each refusal of its list, and some situations that are easily missed. A trial that
//! never met one of them fails, so that a pass says something.

use crate::absences::Absences;
use crate::calls::{Call, REGRADE};
use crate::counts::Counts;
use crate::largest::{is_last, is_last_and_whole};
use crate::subtypes::Subtypes;
use crate::tables::{World, is_subtype};
use plain::table::*;
use plain::{Kind, Seid, Shape};
use std::fmt;

pub const CODES: usize = 21;
pub const ERRORS: usize = 37;

/// The refusals in each call's own list. A 12 of call 14 is a subtype's: write is held only in the own cell, and there no file is stale.
pub const REFUSALS: [&[u32]; CODES + 1] = [
    &[],
    &[4, 15, 27],
    &[2, 13, 14],
    &[4, 6, 25, 26],
    &[4, 11, 13, 17, 16, 18, 25],
    &[8, 9],
    &[4, 8, 9, 11, 13, 16],
    &[4, 7, 35, 36, 25, 26],
    &[7, 12, 13, 16, 35, 36, 19, 25],
    &[10],
    &[12, 13, 14, 24],
    &[12, 13, 14, 24],
    &[4, 2, 11, 12, 13, 14, 33],
    &[5, 10, 20, 12, 16, 22, 23],
    &[5, 10, 21, 12, 16, 22],
    &[5, 2, 13, 16, 28],
    &[5, 29],
    &[5, 12, 13, 2, 11],
    &[8, 9, 11],
    &[8, 9, 11, 30, 31, 32],
    &[4, 9, 11],
    &[34, 5, 4, 10, 20, 12, 16, 26],
];

/// The refusals of a view: those of all calls but the code's, and those of a read but the buffer's.
pub const VIEW_REFUSALS: &[u32] = &[1, 2, 10, 20, 12, 16, 22, 23];

pub const SITUATIONS: &[&str] = &[
    "spawn passes over a free slot of serial 65535",
    "spawn passes over a lower slot that is worn more",
    "spawn takes the lowest of slots worn equally",
    "spawn reaches serial 65535",
    "spawn of another owner by owner 0",
    "build passes over a free slot of serial 65535",
    "build passes over a lower slot that is worn more",
    "build takes the lowest of slots worn equally",
    "build reaches serial 65535",
    "create passes over a free slot of serial 65535",
    "create passes over a lower slot that is worn more",
    "create takes the lowest of slots worn equally",
    "create reaches serial 65535",
    "spawn refused though a slot is free, worn out",
    "build refused though a slot is free, worn out",
    "create refused though a slot is free, worn out",
    "regrade refused though a slot is free, worn out",
    "build with write-only access",
    "release of oneself by seid 0",
    "release of oneself by the real seid",
    "release frees a file",
    "release frees a segment",
    "release leaves a file open elsewhere",
    "release of a process with stale entries",
    "release of a process with messages",
    "rendezvous in a lower cell",
    "rendezvous beside a stale designator of the same slot",
    "release of a segment: stale",
    "release of a segment: freed",
    "release of a segment: still referred to",
    "release of a segment: another cell's, live",
    "set access beyond the stored access",
    "open from a higher cell beside an exclusive open",
    "exclusive open beside a reader in a higher cell",
    "open beside an open of the own cell that does not clash",
    "open refused by the caller's own descriptor",
    "open refused by another process's descriptor alone",
    "close of a stale descriptor",
    "close frees the file",
    "close leaves a linked file",
    "close of another cell's live file",
    "unlink frees the file",
    "unlink leaves an open file",
    "set bits of the caller by seid 0",
    "set bits of another process",
    "set bits of a file",
    "set bits of a segment that is not sharable",
    "set bits refused of a sharable segment that nobody else holds",
    "set bits refused of a sharable segment though they would not change",
    "read of a file of the own cell",
    "read of a lower cell's file",
    "read refused to the owner though all may read",
    "write fills a hole",
    "write extends by one block",
    "write over a block",
    "post up: delivered",
    "post up: dropped, bits forbid",
    "post up: dropped, queue full",
    "post up: dropped, not live",
    "post up: dropped, other serial",
    "post to oneself by seid 0",
    "post to another owner's process of the cell",
    "post refused to oneself by one's own bits",
    "post refused to the owner though all may write",
    "post refused by bits where the queue is full too",
    "post refused to owner 0 by another's bits",
    "receive of the only message",
    "receive of the first of two to seven",
    "receive of the first of eight",
    "receive from a process of the own cell",
    "receive from a lower cell",
    "status of the caller by seid 0",
    "status of a process",
    "status of a segment",
    "status of a file",
    "status of something in a lower cell",
    "access limited by today's bits",
    "remap: neither",
    "remap: one comes in",
    "remap: one comes in from another cell",
    "remap: one comes in over all eight pages",
    "remap: one goes out",
    "remap: a stale one goes out",
    "remap: one takes the place of another",
    "remap: one moves over its own pages",
    "remap: one moves to other pages",
    "remap refused: a run past page 7",
    "remap refused: a run past page 7 as a sum that wraps",
    "remap refused: a used page",
    "release of a segment: its pages are emptied",
    "release of a process with a map",
    "access of a page limited by today's bits",
    "regrade down",
    "regrade up",
    "regrade beside",
    "regrade into the guard's own cell",
    "regrade into the file's own cell, which is not the guard's",
    "regrade into a third cell",
    "regrade of an empty file",
    "regrade over what an older file left, of more blocks",
    "regrade without an empty descriptor",
    "regrade where the guard's own cell is full",
    "regrade passes over a free slot of serial 65535",
    "regrade passes over a lower slot that is worn more",
    "regrade takes the lowest of slots worn equally",
    "regrade reaches serial 65535",
    "regrade refused where there is no guard",
    "regrade refused to another cell, its buffer wrong too",
    "regrade refused of a full cell where the guard's own is not",
    "a call by process 255",
    "spawn takes slot 255",
    "build takes slot 255",
    "create takes slot 255",
    "regrade takes slot 255",
    "open of file 255",
    "a post to process 255",
    "a creating call in a cell with all 256 slots of the kind",
    "block 63 of file 255: read",
    "block 63 of file 255: viewed",
    "block 63 of file 255: written over",
    "block 63 of file 255: written after a hole of 63 blocks",
    "block 63 of file 255: copied out by a regrade",
    "block 63 of file 255: copied in by a regrade",
];

pub struct Tally {
    /// By code and error: successes, and refusals from the call's own list.
    own: [[u64; ERRORS]; CODES + 1],
    /// Views, by error.
    views: [u64; ERRORS],
    bad_table: u64,
    bad_caller: u64,
    bad_code: u64,
    absences: Absences,
    subtypes: Subtypes,
    situations: Counts,
}

impl Default for Tally {
    fn default() -> Tally {
        Tally {
            own: [[0; ERRORS]; CODES + 1],
            views: [0; ERRORS],
            bad_table: 0,
            bad_caller: 0,
            bad_code: 0,
            absences: Absences::default(),
            subtypes: Subtypes::default(),
            situations: Counts::of(SITUATIONS),
        }
    }
}

impl Tally {
    /// Notes a call and a view on a table that was not well formed.
    pub fn bad_table(&mut self) {
        self.bad_table += 1;
        self.views[1] += 1;
    }

    /// Notes a call on a well-formed table. Panics on an error that the call's list does not have.
    pub fn note(&mut self, before: &World, shape: &Shape, call: &Call, [error, first, second]: [u32; 3]) {
        let request = &call.request;
        let (caller, code) = (request.caller as usize, request.code as usize);
        if caller >= shape.count(Kind::Process) || !before.live(shape, Kind::Process, caller) {
            assert_eq!(error, 2, "a caller that is not there: {call:?}");
            self.bad_caller += 1;
        } else if !(1..=CODES).contains(&code) {
            assert_eq!(error, 3, "a code that is not there: {call:?}");
            self.bad_code += 1;
        } else {
            assert!(
                error == 0 || REFUSALS[code].contains(&error),
                "{error} is not in the list of call {code}: {call:?}"
            );
            self.own[code][error as usize] += 1;
            self.absences.note(before, shape, request, error);
            self.subtypes.note(before, shape, call, error);
            let mut scene = Scene { tally: self, before, shape, call, caller };
            match error {
                0 => scene.success(first, second),
                _ => scene.refusal(error),
            }
        }
        assert!(error == 0 || (first, second) == (0, 0), "a refusal with results: {call:?}");
    }

    /// Notes a view on a well-formed table, by a call's process and first two arguments.
    pub fn viewed(&mut self, before: &World, shape: &Shape, call: &Call, error: u32) {
        assert!(error == 0 || VIEW_REFUSALS.contains(&error), "{error} is not in the list of views");
        self.views[error as usize] += 1;
        if error != 2 {
            self.subtypes.viewed(before, shape, &call.request, error);
        }
        if error == 0 {
            let caller = call.request.caller as usize;
            let scene = Scene { tally: self, before, shape, call, caller };
            let last = is_last(scene.opened(), call.request.b);
            self.met("block 63 of file 255: viewed", last);
        }
    }

    fn met(&mut self, situation: &'static str, true_here: bool) {
        self.situations.met(situation, true_here);
    }

    /// What has not been met.
    pub fn missing(&self) -> Vec<String> {
        let mut missing = Vec::new();
        for (code, errors) in self.own.iter().enumerate().skip(1) {
            for error in [0].iter().chain(REFUSALS[code]) {
                if errors[*error as usize] == 0 {
                    missing.push(format!("call {code} with error {error}"));
                }
            }
        }
        let unseen = [0].iter().chain(VIEW_REFUSALS).filter(|error| self.views[**error as usize] == 0);
        missing.extend(unseen.map(|error| format!("a view with error {error}")));
        for (count, name) in [(self.bad_table, "table"), (self.bad_caller, "caller"), (self.bad_code, "code")] {
            if count == 0 {
                missing.push(format!("a bad {name}"));
            }
        }
        missing.extend(self.absences.missing());
        missing.extend(self.subtypes.missing().map(str::to_string));
        missing.extend(self.situations.missing().map(str::to_string));
        missing
    }

    pub fn assert_complete(&self) {
        let missing = self.missing();
        assert!(missing.is_empty(), "never met:\n  {}", missing.join("\n  "));
    }
}

impl fmt::Display for Tally {
    fn fmt(&self, f: &mut fmt::Formatter) -> fmt::Result {
        writeln!(f, "refused alike: table {}, caller {}, code {}", self.bad_table, self.bad_caller, self.bad_code)?;
        for (code, errors) in self.own.iter().enumerate().skip(1) {
            write!(f, "call {code:2}: done {:6}; refused", errors[0])?;
            for &error in REFUSALS[code] {
                write!(f, "  {error}: {}", errors[error as usize])?;
            }
            writeln!(f)?;
        }
        write!(f, "views: shown {:6}; refused", self.views[0])?;
        for &error in VIEW_REFUSALS {
            write!(f, "  {error}: {}", self.views[error as usize])?;
        }
        writeln!(f)?;
        write!(f, "{}{}{}", self.absences, self.subtypes, self.situations)
    }
}

/// One call on a well-formed table, looked at for the situations.
struct Scene<'a> {
    tally: &'a mut Tally,
    before: &'a World,
    shape: &'a Shape,
    call: &'a Call,
    caller: usize,
}

impl Scene<'_> {
    fn word(&self, kind: Kind, index: usize, word: usize) -> u32 {
        self.before.table[self.shape.at(kind, index) + word]
    }

    fn own_word(&self, word: usize) -> u32 {
        self.word(Kind::Process, self.caller, word)
    }

    /// Whether a slot belongs to the caller's cell.
    fn own_cell(&self, kind: Kind, index: usize) -> bool {
        self.shape.cell(kind, index) == self.shape.cell(Kind::Process, self.caller)
    }

    /// Whether a process has a file open in modes of a kind.
    fn has_open(&self, process: usize, file: u32, by: impl Fn(u32) -> bool) -> bool {
        (0..ENTRIES).any(|place| {
            let (seid, modes) = self.before.entry(self.shape, process, DESCRIPTORS, place);
            seid == file && by(modes)
        })
    }

    /// Whether a cell has a slot of a kind that is not live; where a call finds none to take, it is worn out.
    fn unused_slot(&self, kind: Kind, cell: usize) -> bool {
        self.shape.run(kind, cell).any(|slot| !self.before.live(self.shape, kind, slot))
    }

    /// The file that the caller has open at the descriptor that the call names.
    fn opened(&self) -> usize {
        let place = self.call.request.a as usize;
        Seid::of(self.before.entry(self.shape, self.caller, DESCRIPTORS, place).0).index
    }

    /// A new object: which slots of its cell it passed over.
    fn created(&mut self, kind: Kind, seid: u32) {
        let taken = Seid::of(seid).index;
        let serial = self.word(kind, taken, SERIAL);
        let run = self.shape.run(kind, self.shape.cell(kind, taken));
        let free = run.filter(|&slot| slot != taken && self.word(kind, slot, LIVE) == 0);
        let free: Vec<(usize, u32)> = free.map(|slot| (slot, self.word(kind, slot, SERIAL))).collect();
        let [worn_out, worn_more, equal, reached, last] = match self.call.request.code {
            1 => [
                "spawn passes over a free slot of serial 65535",
                "spawn passes over a lower slot that is worn more",
                "spawn takes the lowest of slots worn equally",
                "spawn reaches serial 65535",
                "spawn takes slot 255",
            ],
            3 => [
                "build passes over a free slot of serial 65535",
                "build passes over a lower slot that is worn more",
                "build takes the lowest of slots worn equally",
                "build reaches serial 65535",
                "build takes slot 255",
            ],
            REGRADE => [
                "regrade passes over a free slot of serial 65535",
                "regrade passes over a lower slot that is worn more",
                "regrade takes the lowest of slots worn equally",
                "regrade reaches serial 65535",
                "regrade takes slot 255",
            ],
            _ => [
                "create passes over a free slot of serial 65535",
                "create passes over a lower slot that is worn more",
                "create takes the lowest of slots worn equally",
                "create reaches serial 65535",
                "create takes slot 255",
            ],
        };
        let lower = |(slot, _): &(usize, u32)| *slot < taken;
        self.tally.met(worn_out, free.iter().any(|free| lower(free) && free.1 == MAX_SERIAL));
        self.tally.met(worn_more, free.iter().any(|free| lower(free) && free.1 > serial && free.1 < MAX_SERIAL));
        self.tally.met(equal, free.iter().any(|free| free.1 == serial));
        self.tally.met(reached, serial + 1 == MAX_SERIAL);
        let whole = self.shape.run(kind, self.shape.cell(kind, taken)).len() == MAX_SLOTS;
        self.tally.met(last, taken == MAX_SLOTS - 1);
        self.tally.met("a creating call in a cell with all 256 slots of the kind", whole);
    }

    fn success(&mut self, first: u32, _second: u32) {
        let request = self.call.request;
        self.tally.met("a call by process 255", self.caller == MAX_SLOTS - 1);
        match request.code {
            1 => {
                let other_owner = request.a != self.own_word(OWNER);
                self.tally.met("spawn of another owner by owner 0", other_owner);
                self.created(Kind::Process, first);
            }
            2 => self.release_process(request.a),
            3 => {
                self.tally.met("build with write-only access", request.b & (READ | WRITE) == WRITE);
                self.created(Kind::Segment, first);
            }
            4 => {
                let cell = self.shape.cell(Kind::Segment, Seid::of(request.a).index);
                let lower = cell != self.shape.cell(Kind::Process, self.caller);
                self.tally.met("rendezvous in a lower cell", lower);
                let slot = (0..ENTRIES).any(|place| {
                    let (held, _) = self.before.entry(self.shape, self.caller, DESIGNATORS, place);
                    held >> 16 == request.a >> 16
                });
                self.tally.met("rendezvous beside a stale designator of the same slot", slot);
            }
            5 => self.give_up(Kind::Segment, request.a as usize),
            6 => {
                let (_, stored) = self.before.entry(self.shape, self.caller, DESIGNATORS, request.a as usize);
                self.tally.met("set access beyond the stored access", request.b & !stored != 0);
            }
            7 => self.created(Kind::File, first),
            8 if !is_subtype(request.a) => self.open(request.a, request.b),
            9 => self.give_up(Kind::File, request.a as usize),
            11 => {
                let file = Seid::of(request.a).index;
                let last = self.word(Kind::File, file, LINKS) == 1;
                let open = self.word(Kind::File, file, HOLDS) != 0;
                self.tally.met("unlink frees the file", last && !open);
                self.tally.met("unlink leaves an open file", last && open);
            }
            12 => {
                let class = Seid::of(request.a).class;
                let own = self.before.seid(self.shape, Kind::Process, self.caller);
                let other = class == Kind::Process.class() && request.a != own;
                self.tally.met("set bits of the caller by seid 0", request.a == 0);
                self.tally.met("set bits of another process", other);
                self.tally.met("set bits of a file", class == Kind::File.class());
                self.tally.met("set bits of a segment that is not sharable", class == Kind::Segment.class());
            }
            13 => {
                let file = self.opened();
                let own = self.own_cell(Kind::File, file);
                self.tally.met("read of a file of the own cell", own);
                self.tally.met("read of a lower cell's file", !own);
                self.tally.met("block 63 of file 255: read", is_last(file, request.b));
            }
            14 => {
                let file = self.opened();
                let size = self.word(Kind::File, file, SIZE);
                let last = is_last(file, request.b);
                self.tally.met("block 63 of file 255: written over", last && request.b < size);
                self.tally.met("block 63 of file 255: written after a hole of 63 blocks", last && size == 0);
                self.tally.met("write fills a hole", request.b > size);
                self.tally.met("write extends by one block", request.b == size);
                self.tally.met("write over a block", request.b < size);
            }
            15 => self.post(request.a),
            16 => self.receive(),
            17 => self.status(request.a),
            18 => {
                let (_, stored) = self.before.entry(self.shape, self.caller, DESIGNATORS, request.a as usize);
                self.tally.met("access limited by today's bits", first != stored);
            }
            19 => self.remap(request.a, request.b, request.c),
            20 => {
                let place = self.own_word(MAP + request.a as usize) as usize - 1;
                let (_, stored) = self.before.entry(self.shape, self.caller, DESIGNATORS, place);
                self.tally.met("access of a page limited by today's bits", first != stored);
            }
            REGRADE => {
                self.created(Kind::File, first);
                self.regrade(request.b as usize, Seid::of(first).index);
            }
            _ => {}
        }
    }

    /// The caller's map, and how many pages a designator has in it.
    fn map(&self) -> [u32; PAGES] {
        std::array::from_fn(|page| self.own_word(MAP + page))
    }

    fn pages(&self, designator: u32) -> usize {
        self.map().iter().filter(|&&word| word == designator + 1).count()
    }

    /// The size in pages of the segment that a designator holds, and whether that is stale.
    fn held_segment(&self, designator: u32) -> (usize, bool) {
        let (seid, _) = self.before.entry(self.shape, self.caller, DESIGNATORS, designator as usize);
        let size = self.word(Kind::Segment, Seid::of(seid).index, SIZE);
        (size.div_ceil(PAGE_BYTES) as usize, self.before.stale(self.shape, Kind::Segment, seid))
    }

    fn remap(&mut self, incoming: u32, first: u32, outgoing: u32) {
        let [comes, goes] = [incoming, outgoing].map(|designator| designator != ENTRIES as u32);
        self.tally.met("remap: neither", !comes && !goes);
        self.tally.met("remap: one goes out", goes && !comes);
        if goes {
            self.tally.met("remap: a stale one goes out", self.held_segment(outgoing).1);
        }
        if comes {
            let (seid, _) = self.before.entry(self.shape, self.caller, DESIGNATORS, incoming as usize);
            let cell = self.shape.cell(Kind::Segment, Seid::of(seid).index);
            let pages = self.held_segment(incoming).0;
            let run = &self.map()[first as usize..first as usize + pages];
            let over_own = run.contains(&(incoming + 1));
            self.tally.met("remap: one comes in", !goes);
            let elsewhere = cell != self.shape.cell(Kind::Process, self.caller);
            self.tally.met("remap: one comes in from another cell", elsewhere);
            self.tally.met("remap: one comes in over all eight pages", pages == PAGES);
            self.tally.met("remap: one takes the place of another", goes && run.contains(&(outgoing + 1)) && !over_own);
            self.tally.met("remap: one moves over its own pages", incoming == outgoing && over_own);
            self.tally.met("remap: one moves to other pages", incoming == outgoing && !over_own);
        }
    }

    fn regrade(&mut self, to: usize, taken: usize) {
        let guard = self.shape.cell(Kind::Process, self.caller);
        let source = self.opened();
        let from = self.shape.cell(Kind::File, source);
        let (up, down) = (self.shape.flow[guard][to], self.shape.flow[to][guard]);
        let size = self.word(Kind::File, source, SIZE) as usize;
        let stretch = &self.before.store[self.shape.stretch(taken)];
        let older = stretch[size * BLOCK_BYTES..].iter().any(|&byte| byte != 0);
        let full = (0..ENTRIES).all(|at| self.before.entry(self.shape, self.caller, DESCRIPTORS, at).0 != 0);
        let room = self.before.room(self.shape, guard);
        self.tally.met("regrade down", down && !up);
        self.tally.met("regrade up", up && !down);
        self.tally.met("regrade beside", !up && !down);
        self.tally.met("regrade into the guard's own cell", to == guard);
        self.tally.met("regrade into the file's own cell, which is not the guard's", to == from && to != guard);
        self.tally.met("regrade into a third cell", to != from && to != guard && from != guard);
        self.tally.met("regrade of an empty file", size == 0);
        self.tally.met("regrade over what an older file left, of more blocks", size > 0 && older);
        self.tally.met("regrade without an empty descriptor", full);
        self.tally.met("regrade where the guard's own cell is full", !room);
        self.tally.met("block 63 of file 255: copied out by a regrade", is_last_and_whole(source, size));
        self.tally.met("block 63 of file 255: copied in by a regrade", is_last_and_whole(taken, size));
    }

    fn release_process(&mut self, named: u32) {
        let own = self.before.seid(self.shape, Kind::Process, self.caller);
        let process = Seid::of(if named == 0 { own } else { named }).index;
        let cell = self.shape.cell(Kind::Process, process);
        self.tally.met("release of oneself by seid 0", named == 0);
        self.tally.met("release of oneself by the real seid", named == own);
        self.tally.met("release of a process with messages", self.word(Kind::Process, process, QUEUED) != 0);
        let mapped = (0..PAGES).any(|page| self.word(Kind::Process, process, MAP + page) != 0);
        self.tally.met("release of a process with a map", mapped);
        for (kind, entries) in [(Kind::File, DESCRIPTORS), (Kind::Segment, DESIGNATORS)] {
            let held: Vec<u32> = (0..ENTRIES)
                .map(|place| self.before.entry(self.shape, process, entries, place).0)
                .filter(|&seid| seid != 0 && !is_subtype(seid))
                .collect();
            let stale = held.iter().any(|&seid| self.before.stale(self.shape, kind, seid));
            self.tally.met("release of a process with stale entries", stale);
            for &seid in &held {
                let index = Seid::of(seid).index;
                if self.shape.cell(kind, index) != cell {
                    continue;
                }
                let last =
                    self.word(kind, index, HOLDS) as usize == held.iter().filter(|&&other| other == seid).count();
                match kind {
                    Kind::File => {
                        let linked = self.word(kind, index, LINKS) != 0;
                        self.tally.met("release frees a file", last && !linked);
                        self.tally.met("release leaves a file open elsewhere", !last);
                    }
                    _ => self.tally.met("release frees a segment", last),
                }
            }
        }
    }

    fn give_up(&mut self, kind: Kind, place: usize) {
        let entries = if kind == Kind::File { DESCRIPTORS } else { DESIGNATORS };
        let (seid, _) = self.before.entry(self.shape, self.caller, entries, place);
        if is_subtype(seid) {
            return;
        }
        let index = Seid::of(seid).index;
        let stale = self.before.stale(self.shape, kind, seid);
        let own = self.shape.cell(kind, index) == self.shape.cell(Kind::Process, self.caller);
        let last = own && self.word(kind, index, HOLDS) == 1;
        match kind {
            Kind::File => {
                let linked = own && self.word(kind, index, LINKS) != 0;
                self.tally.met("close of a stale descriptor", stale);
                self.tally.met("close frees the file", last && !linked);
                self.tally.met("close leaves a linked file", last && linked);
                self.tally.met("close of another cell's live file", !own && !stale);
            }
            _ => {
                let pages = self.pages(place as u32);
                self.tally.met("release of a segment: its pages are emptied", pages > 0);
                self.tally.met("release of a segment: stale", stale);
                self.tally.met("release of a segment: freed", last);
                self.tally.met("release of a segment: still referred to", own && !last);
                self.tally.met("release of a segment: another cell's, live", !own && !stale);
            }
        }
    }

    fn open(&mut self, file: u32, modes: u32) {
        self.tally.met("open of file 255", Seid::of(file).index == MAX_SLOTS - 1);
        let cell = self.shape.cell(Kind::File, Seid::of(file).index);
        let higher = cell != self.shape.cell(Kind::Process, self.caller);
        let processes = 0..self.shape.count(Kind::Process);
        let mut own = self.shape.run(Kind::Process, cell);
        let exclusive = higher && own.clone().any(|process| self.has_open(process, file, |modes| modes == 15));
        let reader = modes == 15 && processes.into_iter().any(|process| self.has_open(process, file, |_| true));
        let beside = !higher && own.any(|process| self.has_open(process, file, |_| true));
        self.tally.met("open beside an open of the own cell that does not clash", beside);
        self.tally.met("open from a higher cell beside an exclusive open", exclusive);
        self.tally.met("exclusive open beside a reader in a higher cell", reader);
    }

    /// Whether a process's bits forbid the caller to write to it.
    fn forbids(&self, receiver: usize) -> bool {
        let same = |word: usize| self.word(Kind::Process, receiver, word) == self.own_word(word);
        let bits = self.word(Kind::Process, receiver, PROCESS_BITS);
        plain::granted(bits, same(OWNER), same(GROUP)) & WRITE == 0
    }

    fn post(&mut self, named: u32) {
        self.tally.met("post to oneself by seid 0", named == 0);
        if named == 0 {
            return;
        }
        let receiver = Seid::of(named).index;
        let last = receiver == MAX_SLOTS - 1;
        let cell = self.shape.cell(Kind::Process, self.caller);
        if self.shape.cell(Kind::Process, receiver) == cell {
            let other = self.word(Kind::Process, receiver, OWNER) != self.own_word(OWNER);
            self.tally.met("post to another owner's process of the cell", other);
            self.tally.met("a post to process 255", last);
            return;
        }
        let live = self.before.live(self.shape, Kind::Process, receiver);
        let there = live && self.before.seid(self.shape, Kind::Process, receiver) == named;
        let full = self.word(Kind::Process, receiver, QUEUED) as usize == QUEUE;
        let forbids = self.forbids(receiver);
        let delivered = there && !forbids && !full;
        self.tally.met("post up: delivered", delivered);
        self.tally.met("a post to process 255", last && delivered);
        self.tally.met("post up: dropped, bits forbid", there && forbids && !full);
        self.tally.met("post up: dropped, queue full", there && !forbids && full);
        self.tally.met("post up: dropped, not live", !live);
        self.tally.met("post up: dropped, other serial", live && !there);
    }

    fn receive(&mut self) {
        let queued = self.own_word(QUEUED) as usize;
        let own = self.own_cell(Kind::Process, Seid::of(self.own_word(MESSAGES)).index);
        self.tally.met("receive of the only message", queued == 1);
        self.tally.met("receive of the first of two to seven", (2..QUEUE).contains(&queued));
        self.tally.met("receive of the first of eight", queued == QUEUE);
        self.tally.met("receive from a process of the own cell", own);
        self.tally.met("receive from a lower cell", !own);
    }

    fn status(&mut self, named: u32) {
        self.tally.met("status of the caller by seid 0", named == 0);
        if named == 0 {
            return;
        }
        let seid = Seid::of(named);
        let kind = Kind::of_class(seid.class).expect("it has a status");
        self.tally.met("status of a process", kind == Kind::Process);
        self.tally.met("status of a segment", kind == Kind::Segment);
        self.tally.met("status of a file", kind == Kind::File);
        self.tally.met("status of something in a lower cell", !self.own_cell(kind, seid.index));
    }

    fn post_forbidden(&mut self, named: u32) {
        let own = self.before.seid(self.shape, Kind::Process, self.caller);
        let receiver = Seid::of(if named == 0 { own } else { named }).index;
        let owner = self.word(Kind::Process, receiver, OWNER) == self.own_word(OWNER);
        let all_may = self.word(Kind::Process, receiver, PROCESS_BITS) & 2 != 0;
        let full = self.word(Kind::Process, receiver, QUEUED) as usize == QUEUE;
        self.tally.met("post refused to oneself by one's own bits", receiver == self.caller);
        self.tally.met("post refused to the owner though all may write", owner && all_may);
        self.tally.met("post refused by bits where the queue is full too", full);
        self.tally.met("post refused to owner 0 by another's bits", self.own_word(OWNER) == 0 && !owner);
    }

    fn refusal(&mut self, error: u32) {
        let request = self.call.request;
        let cell = self.shape.cell(Kind::Process, self.caller);
        match (request.code, error) {
            (8, 19) if !is_subtype(request.a) => {
                let held = self.has_open(self.caller, request.a, |modes| plain::clash(modes, request.b));
                self.tally.met("open refused by the caller's own descriptor", held);
                self.tally.met("open refused by another process's descriptor alone", !held);
            }
            (1, 27) => {
                let worn = self.unused_slot(Kind::Process, cell);
                self.tally.met("spawn refused though a slot is free, worn out", worn);
            }
            (3, 26) => {
                let worn = self.unused_slot(Kind::Segment, cell);
                self.tally.met("build refused though a slot is free, worn out", worn);
            }
            (7, 26) => {
                let worn = self.unused_slot(Kind::File, cell);
                self.tally.met("create refused though a slot is free, worn out", worn);
            }
            (19, 32) => {
                let pages = self.held_segment(request.a).0;
                let end = u64::from(request.b) + pages as u64;
                let wraps = request.b.wrapping_add(pages as u32) as usize <= PAGES;
                self.tally.met("remap refused: a run past page 7", end > PAGES as u64);
                self.tally.met("remap refused: a run past page 7 as a sum that wraps", end > PAGES as u64 && wraps);
                if end <= PAGES as u64 {
                    let run = &self.map()[request.b as usize..end as usize];
                    let used = |word: &u32| *word != 0 && *word != request.c + 1;
                    self.tally.met("remap refused: a used page", run.iter().any(used));
                }
            }
            (15, 16) => self.post_forbidden(request.a),
            (REGRADE, 34) => {
                self.tally.met("regrade refused where there is no guard", self.shape.guard.is_none());
                let wrong = self.shape.guard.is_some() && self.call.buffer.len() != 4;
                self.tally.met("regrade refused to another cell, its buffer wrong too", wrong);
            }
            (REGRADE, 26) => {
                let room = self.before.room(self.shape, cell);
                let worn = self.unused_slot(Kind::File, request.b as usize);
                self.tally.met("regrade refused though a slot is free, worn out", worn);
                self.tally.met("regrade refused of a full cell where the guard's own is not", room);
            }
            (12, 33) => {
                let segment = Seid::of(request.a).index;
                let alone = self.word(Kind::Segment, segment, HOLDS) == 1;
                let same = self.word(Kind::Segment, segment, BITS) == request.b;
                self.tally.met("set bits refused of a sharable segment that nobody else holds", alone);
                self.tally.met("set bits refused of a sharable segment though they would not change", same);
            }
            (13, 16) => {
                let (seid, _) = self.before.entry(self.shape, self.caller, DESCRIPTORS, request.a as usize);
                let file = Seid::of(seid).index;
                let owner = self.word(Kind::File, file, OWNER) == self.own_word(OWNER);
                let all_may = self.word(Kind::File, file, BITS) & 4 != 0;
                self.tally.met("read refused to the owner though all may read", owner && all_may);
            }
            _ => {}
        }
    }
}
