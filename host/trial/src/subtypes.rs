//! Subtypes as calls meet them: opened and closed, named by the c of create and open, and held where a file is wanted.

use crate::calls::{Call, REGRADE};
use crate::counts::Counts;
use crate::tables::{World, held_cell, is_subtype};
use plain::table::*;
use plain::{Kind, Request, Seid, Shape, Subtype};
use std::fmt;

pub const SITUATIONS: &[&str] = &[
    "open of a subtype of the own cell",
    "open of a subtype of a lower cell",
    "open of a subtype that the caller has open already",
    "open of a subtype, by a c that names nothing",
    "open of a subtype from a higher cell beside an exclusive open",
    "open of a subtype alone, beside a reader in a higher cell",
    "open of the last of sixteen subtypes",
    "open of a subtype refused: modes",
    "open of a subtype refused: index",
    "open of a subtype refused: serial 0",
    "open of a subtype refused: a serial other than 1",
    "open of a subtype refused: level, to read",
    "open of a subtype refused: level, to write in a lower cell",
    "open of a subtype refused: level, where its serial is wrong too",
    "open of a subtype refused: bits",
    "open of a subtype refused: the caller's own descriptor",
    "open of a subtype refused: another process's descriptor alone",
    "open of a subtype refused: no empty descriptor",
    "open of a subtyped file to read",
    "open of a subtyped file to write",
    "open of a subtyped file to read and write",
    "open of a subtyped file of a lower cell",
    "open of a subtyped file that excludes more than its subtype's descriptor",
    "open of a subtyped file by a subtype whose bits would forbid it today",
    "open of a subtyped file refused: c is 0",
    "open of a subtyped file refused: c is over 16",
    "open of a subtyped file refused: c of an empty descriptor",
    "open of a subtyped file refused: c of a descriptor of a file",
    "open of a subtyped file refused: another subtype",
    "open of a subtyped file refused: its subtype is not held to read",
    "open of a subtyped file refused: its subtype is not held to write",
    "open of a subtyped file refused: two descriptors of its subtype would do together",
    "open of a subtyped file refused: bits, where c names nothing too",
    "open of a subtyped file refused: c names nothing, where an open clashes too",
    "open of a subtyped file refused: c names nothing, where no descriptor is empty too",
    "open of a file without a subtype, by a c that names nothing",
    "open of a file without a subtype, by a c that names one",
    "create with a subtype",
    "create refused: c is over 16",
    "create refused: c of an empty descriptor",
    "create refused: c of a descriptor of a file",
    "create refused: a subtype of another cell",
    "create refused: a subtype that is not held to read",
    "create refused: a subtype that is not held to write",
    "create refused: a subtype that is not held to write, for a file to read",
    "create refused: c names nothing, where no descriptor is empty too",
    "close of a subtype of the own cell",
    "close of a subtype of a lower cell",
    "close of a subtype while a file of it is open",
    "release of a process that holds a subtype",
    "read of a subtype refused",
    "read of a subtype refused: not held to read",
    "write of a subtype refused",
    "write of a subtype refused: not held to write",
    "view of a subtype refused",
    "view of a subtype refused: not held to read",
    "regrade of a subtype refused",
    "regrade of a subtype refused: not held to read",
    "regrade of a subtyped file into its own cell",
    "regrade of a subtyped file into another cell",
];

/// How often each was met.
pub struct Subtypes(Counts);

impl Default for Subtypes {
    fn default() -> Subtypes {
        Subtypes(Counts::of(SITUATIONS))
    }
}

impl Subtypes {
    /// Notes what a live caller was answered from the call's own list.
    pub fn note(&mut self, before: &World, shape: &Shape, call: &Call, error: u32) {
        let request = &call.request;
        let mut scene = Scene { met: &mut self.0, before, shape, request, caller: request.caller as usize, error };
        match request.code {
            2 if error == 0 => scene.release_process(),
            7 => scene.create(),
            8 if is_subtype(request.a) => scene.open_subtype(),
            8 => scene.open_file(),
            9 if error == 0 => scene.close(),
            13 => scene.block_call(20, "read of a subtype refused", "read of a subtype refused: not held to read"),
            14 => scene.block_call(21, "write of a subtype refused", "write of a subtype refused: not held to write"),
            REGRADE if error == 0 => scene.regrade(),
            REGRADE => {
                scene.block_call(20, "regrade of a subtype refused", "regrade of a subtype refused: not held to read")
            }
            _ => {}
        }
    }

    /// Notes a view by a live caller.
    pub fn viewed(&mut self, before: &World, shape: &Shape, request: &Request, error: u32) {
        let mut scene = Scene { met: &mut self.0, before, shape, request, caller: request.caller as usize, error };
        scene.block_call(20, "view of a subtype refused", "view of a subtype refused: not held to read");
    }

    /// What has not been met.
    pub fn missing(&self) -> impl Iterator<Item = &'static str> {
        self.0.missing()
    }
}

impl fmt::Display for Subtypes {
    fn fmt(&self, f: &mut fmt::Formatter) -> fmt::Result {
        self.0.fmt(f)
    }
}

/// What the c of create or open names.
#[derive(Clone, Copy, PartialEq, Eq)]
enum Named {
    None,
    Past,
    Empty,
    File,
    Subtype { seid: u32, modes: u32 },
}

/// One call on a well-formed table, and its answer.
struct Scene<'a> {
    met: &'a mut Counts,
    before: &'a World,
    shape: &'a Shape,
    request: &'a Request,
    caller: usize,
    error: u32,
}

impl Scene<'_> {
    fn own_word(&self, word: usize) -> u32 {
        self.before.table[self.shape.at(Kind::Process, self.caller) + word]
    }

    fn cell(&self) -> usize {
        self.shape.cell(Kind::Process, self.caller)
    }

    fn file_word(&self, seid: u32, word: usize) -> u32 {
        self.before.table[self.shape.at(Kind::File, Seid::of(seid).index) + word]
    }

    fn descriptor(&self, process: usize, place: usize) -> (u32, u32) {
        self.before.entry(self.shape, process, DESCRIPTORS, place)
    }

    /// The descriptor that the call's first argument names, if it is one.
    fn first_argument(&self) -> (u32, u32) {
        let place = self.request.a as usize;
        if place < ENTRIES { self.descriptor(self.caller, place) } else { (0, 0) }
    }

    fn named(&self) -> Named {
        match self.request.c as usize {
            0 => Named::None,
            past if past > ENTRIES => Named::Past,
            place => match self.descriptor(self.caller, place - 1) {
                (0, _) => Named::Empty,
                (seid, modes) if is_subtype(seid) => Named::Subtype { seid, modes },
                _ => Named::File,
            },
        }
    }

    fn names_nothing(&self) -> bool {
        !matches!(self.named(), Named::Subtype { .. })
    }

    fn no_empty_descriptor(&self) -> bool {
        (0..ENTRIES).all(|place| self.descriptor(self.caller, place).0 != 0)
    }

    /// Whether a process has the call's object open in modes of a kind.
    fn has_open(&self, process: usize, by: impl Fn(u32) -> bool) -> bool {
        (0..ENTRIES).any(|place| {
            let (seid, modes) = self.descriptor(process, place);
            seid == self.request.a && by(modes)
        })
    }

    fn clashes(&self, process: usize) -> bool {
        self.has_open(process, |modes| plain::clash(modes, self.request.b))
    }

    fn open_subtype(&mut self) {
        let (seid, modes) = (Seid::of(self.request.a), self.request.b);
        let subtypes = self.shape.subtypes();
        match self.error {
            0 => self.opened_subtype(&subtypes[seid.index]),
            7 => self.met.met("open of a subtype refused: modes", true),
            12 => {
                let there = seid.index < subtypes.len();
                self.met.met("open of a subtype refused: index", !there && seid.serial == 1);
                self.met.met("open of a subtype refused: serial 0", there && seid.serial == 0);
                self.met.met("open of a subtype refused: a serial other than 1", there && seid.serial > 1);
            }
            13 => {
                let flows = self.shape.flow[subtypes[seid.index].cell][self.cell()];
                self.met.met("open of a subtype refused: level, to read", !flows && modes == 1);
                self.met.met("open of a subtype refused: level, to write in a lower cell", flows);
                self.met.met("open of a subtype refused: level, where its serial is wrong too", seid.serial != 1);
            }
            16 => self.met.met("open of a subtype refused: bits", true),
            19 => {
                let own = self.clashes(self.caller);
                self.met.met("open of a subtype refused: the caller's own descriptor", own);
                self.met.met("open of a subtype refused: another process's descriptor alone", !own);
            }
            _ => self.met.met("open of a subtype refused: no empty descriptor", self.error == 25),
        }
    }

    fn opened_subtype(&mut self, subtype: &Subtype) {
        let own = subtype.cell == self.cell();
        let alone = |modes: u32| modes == 15;
        let excluded = self.shape.run(Kind::Process, subtype.cell).any(|process| self.has_open(process, alone));
        let processes = 0..self.shape.count(Kind::Process);
        let reader = processes.into_iter().any(|process| self.has_open(process, |_| true));
        let already = self.has_open(self.caller, |_| true);
        let last = Seid::of(self.request.a).index + 1 == MAX_SUBTYPES;
        let ignored = self.request.c != 0 && self.names_nothing();
        self.met.met("open of a subtype of the own cell", own);
        self.met.met("open of a subtype of a lower cell", !own);
        self.met.met("open of a subtype that the caller has open already", already);
        self.met.met("open of a subtype, by a c that names nothing", ignored);
        self.met.met("open of a subtype from a higher cell beside an exclusive open", !own && excluded);
        // Nobody of the own cell has it open, or it would be refused.
        self.met.met("open of a subtype alone, beside a reader in a higher cell", alone(self.request.b) && reader);
        self.met.met("open of the last of sixteen subtypes", last);
    }

    /// An open of anything but a subtype; it may name nothing at all.
    fn open_file(&mut self) {
        if !matches!(self.error, 0 | 16 | 35 | 36) {
            return;
        }
        let due = self.file_word(self.request.a, SUBTYPE);
        match (self.error, self.named()) {
            (0, Named::Subtype { modes, .. }) if due != 0 => self.opened_by(due, modes),
            (0, named) => {
                let ignored = self.request.c != 0 && self.names_nothing();
                let another = matches!(named, Named::Subtype { .. });
                self.met.met("open of a file without a subtype, by a c that names nothing", ignored);
                self.met.met("open of a file without a subtype, by a c that names one", another);
            }
            (16, _) => {
                let both = due != 0 && self.names_nothing();
                self.met.met("open of a subtyped file refused: bits, where c names nothing too", both);
            }
            (_, Named::Subtype { seid, modes }) => self.mismatched(due, seid, modes),
            (_, named) => self.unnamed(named),
        }
    }

    fn opened_by(&mut self, due: u32, held: u32) {
        let modes = self.request.b;
        let &Subtype { cell, owner, group, bits } = self.shape.subtype(Seid::of(due)).expect("a file's subtype is one");
        let granted = plain::granted(bits, owner == self.own_word(OWNER), group == self.own_word(GROUP));
        let asked = if modes & 1 != 0 { READ } else { 0 } | if modes & 2 != 0 { WRITE } else { 0 };
        let forbidden = asked & !granted != 0;
        self.met.met("open of a subtyped file to read", modes == 1);
        self.met.met("open of a subtyped file to write", modes == 2);
        self.met.met("open of a subtyped file to read and write", modes == 3);
        self.met.met("open of a subtyped file of a lower cell", cell != self.cell());
        let excludes_more = modes & !held != 0;
        self.met.met("open of a subtyped file that excludes more than its subtype's descriptor", excludes_more);
        self.met.met("open of a subtyped file by a subtype whose bits would forbid it today", forbidden);
    }

    /// An open refused with 35.
    fn unnamed(&mut self, named: Named) {
        self.met.met("open of a subtyped file refused: c is 0", named == Named::None);
        self.met.met("open of a subtyped file refused: c is over 16", named == Named::Past);
        self.met.met("open of a subtyped file refused: c of an empty descriptor", named == Named::Empty);
        self.met.met("open of a subtyped file refused: c of a descriptor of a file", named == Named::File);
        let own = self.shape.cell(Kind::File, Seid::of(self.request.a).index) == self.cell();
        let mut processes = self.shape.run(Kind::Process, self.cell());
        let clash = own && processes.any(|process| self.clashes(process));
        let full = self.no_empty_descriptor();
        self.met.met("open of a subtyped file refused: c names nothing, where an open clashes too", clash);
        self.met.met("open of a subtyped file refused: c names nothing, where no descriptor is empty too", full);
    }

    /// An open refused with 36.
    fn mismatched(&mut self, due: u32, seid: u32, held: u32) {
        let lacking = self.request.b & !held & 3;
        let all = self.before.held_subtypes(self.shape, self.caller).into_iter();
        let together = all.filter(|&(_, other, _)| other == due).fold(0, |all, (_, _, modes)| all | modes);
        let right = seid == due;
        self.met.met("open of a subtyped file refused: another subtype", !right && lacking == 0);
        self.met.met("open of a subtyped file refused: its subtype is not held to read", right && lacking == 1);
        self.met.met("open of a subtyped file refused: its subtype is not held to write", right && lacking == 2);
        let would_do = right && self.request.b & !together & 3 == 0;
        self.met.met("open of a subtyped file refused: two descriptors of its subtype would do together", would_do);
    }

    fn create(&mut self) {
        match (self.error, self.named()) {
            (0, named) => self.met.met("create with a subtype", named != Named::None),
            (35, named) => {
                self.met.met("create refused: c is over 16", named == Named::Past);
                self.met.met("create refused: c of an empty descriptor", named == Named::Empty);
                self.met.met("create refused: c of a descriptor of a file", named == Named::File);
                let full = self.no_empty_descriptor();
                self.met.met("create refused: c names nothing, where no descriptor is empty too", full);
            }
            (36, Named::Subtype { seid, modes }) => {
                let own = held_cell(self.shape, Kind::File, seid) == self.cell();
                let unwritten = own && modes == 1;
                let to_read = unwritten && self.request.b == 1;
                self.met.met("create refused: a subtype of another cell", !own);
                self.met.met("create refused: a subtype that is not held to read", own && modes == 2);
                self.met.met("create refused: a subtype that is not held to write", unwritten);
                self.met.met("create refused: a subtype that is not held to write, for a file to read", to_read);
            }
            _ => {}
        }
    }

    fn close(&mut self) {
        let (seid, _) = self.first_argument();
        if !is_subtype(seid) {
            return;
        }
        let own = held_cell(self.shape, Kind::File, seid) == self.cell();
        let of_it = |place| {
            let (file, _) = self.descriptor(self.caller, place);
            let live = file != 0 && !is_subtype(file) && !self.before.stale(self.shape, Kind::File, file);
            live && self.file_word(file, SUBTYPE) == seid
        };
        let open = (0..ENTRIES).any(of_it);
        self.met.met("close of a subtype of the own cell", own);
        self.met.met("close of a subtype of a lower cell", !own);
        self.met.met("close of a subtype while a file of it is open", open);
    }

    fn release_process(&mut self) {
        let process = if self.request.a == 0 { self.caller } else { Seid::of(self.request.a).index };
        let holds = !self.before.held_subtypes(self.shape, process).is_empty();
        self.met.met("release of a process that holds a subtype", holds);
    }

    /// A call that wants a file at the descriptor of its first argument.
    fn block_call(&mut self, wrong_mode: u32, refused: &'static str, not_held: &'static str) {
        let subtype = is_subtype(self.first_argument().0);
        self.met.met(refused, subtype && self.error == 12);
        self.met.met(not_held, subtype && self.error == wrong_mode);
    }

    fn regrade(&mut self) {
        let (source, _) = self.first_argument();
        let subtyped = self.file_word(source, SUBTYPE) != 0;
        let same = self.shape.cell(Kind::File, Seid::of(source).index) == self.request.b as usize;
        self.met.met("regrade of a subtyped file into its own cell", subtyped && same);
        self.met.met("regrade of a subtyped file into another cell", subtyped && !same);
    }
}
