//! What an observer may learn. Two tables agree on the configuration and on all that flows to the observer, and differ in
//! everything else; two runs agree once the calls of callers in other cells are struck out. Then the remaining calls must get the
//! same answers and buffers, and what flows to the observer must stay equal.
//!
//! Regrades need a premise. By a caller that is struck out, into a cell that flows to the observer: both runs have it at the same place
//! among the remaining calls, with the same cell, size, bytes, owner, group and bits; one that is refused needs no partner. By a caller
//! that remains: it does not come as far as asking for a slot of a cell that does not flow to the observer. `pair_of_runs` keeps to it;
//! `broken_premise` does not, and the observer is told.

use crate::calls::{self, Call, REGRADE};
use crate::differ::difference;
use crate::rng::Rng;
use crate::tables::{self, Limits, World, held_cell, is_subtype};
use crate::{Monitor, Plain};
use plain::table::*;
use plain::{Kind, Request, Seid, Shape};
use std::fmt;

/// What a trial has met. All of it must be met, or the trial says little.
#[derive(Debug, Default)]
pub struct Met {
    pub runs: u64,
    pub visible_done: u64,
    pub visible_refused: u64,
    /// Views that show something.
    pub visible_views: u64,
    pub hidden_done: u64,
    pub no_caller: u64,
    /// Posts up that one run delivers and the other drops.
    pub posts_that_differ: u64,
    /// Those of them where the receiver's bits forbid it in one run alone.
    pub posts_that_differ_by_bits: u64,
    /// Opens and rendezvous by hidden callers in visible cells.
    pub hidden_holds: u64,
    /// Segments of visible cells that hidden callers map.
    pub hidden_maps: u64,
    /// Visible objects released, closed or unlinked while a hidden process holds them.
    pub freed_under_hidden: u64,
    /// Exclusive opens in a visible cell while a hidden process reads the file.
    pub exclusive_under_hidden: u64,
    /// Sets of more than one observer.
    pub wider_sets: u64,
    /// Regrades by hidden callers into visible cells, in both runs.
    pub paired_regrades: u64,
    /// Those of them whose sources are different files, or stand at different descriptors or callers.
    pub paired_from_elsewhere: u64,
    /// Those of them where different bytes stand behind the two sources' equal ones.
    pub paired_with_other_rests: u64,
    /// Those refused, in both runs alike.
    pub paired_refused: u64,
    /// Regrades by hidden guards into visible cells that one run alone has, refused.
    pub refused_alone: u64,
    /// Regrades by hidden callers into hidden cells.
    pub hidden_regrades: u64,
    /// Regrades by visible callers: done, and refused before a hidden cell is asked for a slot.
    pub visible_regrades: u64,
    pub visible_not_asked: u64,
    /// Opens by hidden callers of subtypes of visible cells, and of files by them.
    pub hidden_subtypes: u64,
    pub hidden_subtyped: u64,
    /// Subtypes that visible callers open alone while a hidden process has them open.
    pub alone_under_hidden: u64,
    /// Subtypes that visible callers open; files that they create and open by them; and refusals with 35 and 36.
    pub visible_subtypes: u64,
    pub visible_subtyped: u64,
    pub visible_mismatched: u64,
}

impl Met {
    pub fn assert_complete(&self) {
        let all = [
            self.runs,
            self.visible_done,
            self.visible_refused,
            self.visible_views,
            self.hidden_done,
            self.no_caller,
            self.posts_that_differ,
            self.posts_that_differ_by_bits,
            self.hidden_holds,
            self.hidden_maps,
            self.freed_under_hidden,
            self.exclusive_under_hidden,
            self.wider_sets,
            self.paired_regrades,
            self.paired_from_elsewhere,
            self.paired_with_other_rests,
            self.paired_refused,
            self.refused_alone,
            self.hidden_regrades,
            self.visible_regrades,
            self.visible_not_asked,
            self.hidden_subtypes,
            self.hidden_subtyped,
            self.alone_under_hidden,
            self.visible_subtypes,
            self.visible_subtyped,
            self.visible_mismatched,
        ];
        assert!(all.iter().all(|&count| count > 0), "never met: {self:#?}");
    }
}

/// Cells whose records may be seen: with each cell, every cell that flows to it.
pub(crate) type Seen = [bool; MAX_CELLS];

pub(crate) fn seen_by(shape: &Shape, observers: &[usize]) -> Seen {
    std::array::from_fn(|cell| observers.iter().any(|&observer| shape.flow[cell][observer]))
}

/// All that flows to the observer, as one list of words and one of bytes.
pub(crate) fn view(world: &World, shape: &Shape, seen: &Seen) -> (Vec<u32>, Vec<u8>) {
    let mut words = world.table[..shape.at(Kind::Process, 0)].to_vec();
    let mut bytes = Vec::new();
    for kind in Kind::ALL {
        for index in (0..shape.count(kind)).filter(|&index| seen[shape.cell(kind, index)]) {
            words.extend_from_slice(&world.table[shape.record(kind, index)]);
            if kind == Kind::File {
                bytes.extend_from_slice(&world.store[shape.stretch(index)]);
            }
        }
    }
    (words, bytes)
}

struct Run<'a> {
    monitor: &'a dyn Monitor,
    shape: &'a Shape,
    seen: &'a Seen,
    world: World,
}

impl Run<'_> {
    fn make(&mut self, call: &Call) -> ([u32; 3], Vec<u8>) {
        let mut buffer = call.buffer.clone();
        let answer = self.monitor.call(&mut self.world.table, &mut self.world.store, &call.request, &mut buffer);
        (answer, buffer)
    }

    /// What the rules would answer to a call.
    fn due(&self, call: &Call) -> u32 {
        let mut world = self.world.clone();
        Plain.call(&mut world.table, &mut world.store, &call.request, &mut call.buffer.clone())[0]
    }

    /// Whether a call is a regrade into a cell that is seen, or into one that is not.
    fn regrades(&self, call: &Call, seen: bool) -> bool {
        regrades(&call.request, self.shape, self.seen, seen)
    }

    /// Some calls by processes of cells that are not seen. A regrade that would be seen is left out: it needs a partner.
    fn hidden_calls(&mut self, rng: &mut Rng, met: &mut Met) {
        for _ in 0..rng.below(4) {
            let caller = calls::caller(rng, &self.world, self.shape, |cell| !self.seen[cell]);
            let desk = self.shape.guard.is_some_and(|guard| !self.seen[guard]) && rng.chance(1, 8);
            let directory = !self.shape.subtypes().is_empty() && rng.chance(1, 8);
            let call = match calls::at_the_desk(rng, &self.world, self.shape).filter(|_| desk) {
                Some(caller) => calls::with_code(rng, &self.world, self.shape, caller, REGRADE),
                None if directory => self.hidden_open(rng),
                None => calls::by(rng, &self.world, self.shape, caller.expect("a cell is hidden")),
            };
            if self.regrades(&call, true) {
                if self.due(&call) == 0 {
                    continue;
                }
                met.refused_alone += u64::from(guards(&self.world, self.shape, call.request.caller));
            }
            let request = call.request;
            let caller = request.caller as usize;
            let mapped = (request.code == 19 && (request.a as usize) < ENTRIES)
                .then(|| self.world.entry(self.shape, caller, DESIGNATORS, request.a as usize).0);
            let (answer, _) = self.make(&call);
            let kind = if request.code == 8 { Kind::File } else { Kind::Segment };
            if answer[0] == 0 {
                met.hidden_done += 1;
                met.hidden_regrades += u64::from(request.code == REGRADE);
                if let Some(seid) = mapped {
                    met.hidden_maps += u64::from(self.seen[self.shape.cell(Kind::Segment, Seid::of(seid).index)]);
                }
                if matches!(request.code, 4 | 8) {
                    let seen = self.seen[held_cell(self.shape, kind, request.a)];
                    met.hidden_holds += u64::from(seen && !is_subtype(request.a));
                    met.hidden_subtypes += u64::from(seen && is_subtype(request.a));
                    met.hidden_subtyped += u64::from(seen && self.subtyped(&request));
                }
            }
        }
    }

    /// An open by a process of a cell that is not seen, mostly by one that holds a subtype.
    fn hidden_open(&self, rng: &mut Rng) -> Call {
        let caller = calls::who_holds_a_subtype(rng, &self.world, self.shape, |cell| !self.seen[cell]);
        calls::with_code(rng, &self.world, self.shape, caller.expect("a cell is hidden"), 8)
    }

    /// Whether an open or a create that was done went by a subtype.
    fn subtyped(&self, request: &Request) -> bool {
        let subtype = |file: usize| self.world.table[self.shape.at(Kind::File, file) + SUBTYPE];
        match request.code {
            7 => request.c != 0,
            8 => !is_subtype(request.a) && subtype(Seid::of(request.a).index) != 0,
            _ => false,
        }
    }

    /// The visible objects that hidden processes hold and that are still there, entry by entry.
    fn held_from_above(&self) -> Vec<u32> {
        let mut held = Vec::new();
        for process in (0..self.shape.count(Kind::Process)).filter(|&p| !self.seen[self.shape.cell(Kind::Process, p)]) {
            for (kind, entries) in [(Kind::File, DESCRIPTORS), (Kind::Segment, DESIGNATORS)] {
                for place in 0..ENTRIES {
                    let (seid, _) = self.world.entry(self.shape, process, entries, place);
                    let seen = seid != 0 && self.seen[held_cell(self.shape, kind, seid)];
                    if seen && !self.world.stale(self.shape, kind, seid) {
                        held.push(seid);
                    }
                }
            }
        }
        held
    }

    /// An exclusive open, in its own cell, of a file or subtype that only hidden processes read: what a monitor that looks up would
    /// refuse.
    fn exclusive_open(&self, rng: &mut Rng) -> Option<Call> {
        let mut read = self.held_from_above();
        read.retain(|&word| {
            let seid = Seid::of(word);
            let file = seid.class == Kind::File.class();
            let record = |word: usize| self.world.table[self.shape.at(Kind::File, seid.index) + word];
            match file {
                true => record(HOLDS) == 0 && record(SUBTYPE) == 0,
                false => is_subtype(word) && !self.opened_below(word),
            }
        });
        if read.is_empty() {
            return None;
        }
        let seid = rng.pick(&read);
        let cell = held_cell(self.shape, Kind::File, seid);
        let caller = calls::caller(rng, &self.world, self.shape, |other| other == cell)?;
        Some(Call { request: Request { caller, code: 8, a: seid, b: 15, c: 0 }, buffer: Vec::new() })
    }

    /// Whether a process of its own cell has a subtype open.
    fn opened_below(&self, subtype: u32) -> bool {
        let mut processes = self.shape.run(Kind::Process, held_cell(self.shape, Kind::File, subtype));
        let held = |process| self.world.held_subtypes(self.shape, process);
        processes.any(|process| held(process).iter().any(|&(_, seid, _)| seid == subtype))
    }

    /// What a view by a call's process shows, of the call's first two arguments: number, place and bytes.
    fn shown(&self, call: &Call) -> (u32, usize, &[u8]) {
        let Request { caller, a, b, .. } = call.request;
        let (error, from, count) = self.monitor.view(&self.world.table, &self.world.store, caller, a, b);
        (error, from, &self.world.store[from..from + count])
    }

    /// Whether the bits of a receiver forbid the caller's post.
    fn forbids(&self, caller: u32, receiver: u32) -> bool {
        let record = |process: usize| &self.world.table[self.shape.record(Kind::Process, process)];
        let (poster, receiver) = (record(caller as usize), record(Seid::of(receiver).index));
        let same = |word: usize| poster[word] == receiver[word];
        plain::granted(receiver[PROCESS_BITS], same(OWNER), same(GROUP)) & WRITE == 0
    }

    fn sources(&self) -> Vec<Source> {
        sources(&self.world, self.shape)
    }

    /// A cell that is seen and has a file slot to be taken.
    fn seen_room(&self, rng: &mut Rng) -> Option<usize> {
        choose(rng, (0..self.shape.cells).filter(|&cell| self.seen[cell] && self.world.room(self.shape, cell)))
    }

    fn contents(&self, file: usize) -> (&[u8], &[u8]) {
        contents(&self.world, self.shape, file)
    }

    fn queued(&self, receiver: u32) -> u32 {
        self.world.table[self.shape.at(Kind::Process, Seid::of(receiver).index) + QUEUED]
    }
}

/// Whether a request is a regrade into a cell that is seen, or into one that is not.
pub(crate) fn regrades(request: &Request, shape: &Shape, seen: &Seen, wanted: bool) -> bool {
    let cell = request.b as usize;
    request.code == REGRADE && cell < shape.cells && seen[cell] == wanted
}

/// Whether a caller is a live process of the guard cell: who is not is refused whatever it asks.
pub(crate) fn guards(world: &World, shape: &Shape, caller: u32) -> bool {
    let caller = caller as usize;
    let there = caller < shape.count(Kind::Process) && world.live(shape, Kind::Process, caller);
    there && shape.guard == Some(shape.cell(Kind::Process, caller))
}

/// A file that a process of the guard cell has open for reading.
#[derive(Clone, Copy, Debug, PartialEq, Eq)]
pub(crate) struct Source {
    caller: u32,
    place: u32,
    pub(crate) file: usize,
}

/// What the processes of the guard cell can regrade: caller, descriptor, and the file.
pub(crate) fn sources(world: &World, shape: &Shape) -> Vec<Source> {
    let guard = shape.guard.expect("there is a guard");
    let mut sources = Vec::new();
    for process in shape.run(Kind::Process, guard).filter(|&p| world.live(shape, Kind::Process, p)) {
        for place in calls::readable(world, shape, process) {
            let (seid, _) = world.entry(shape, process, DESCRIPTORS, place);
            sources.push(Source { caller: process as u32, place: place as u32, file: Seid::of(seid).index });
        }
    }
    sources
}

/// The blocks that a file has, and what stands behind them.
pub(crate) fn contents<'a>(world: &'a World, shape: &Shape, file: usize) -> (&'a [u8], &'a [u8]) {
    let size = world.table[shape.at(Kind::File, file) + SIZE] as usize;
    world.store[shape.stretch(file)].split_at(size * BLOCK_BYTES)
}

/// A regrade of a source into a cell; bits, owner and group are drawn.
pub(crate) fn regrade(rng: &mut Rng, source: Source, cell: usize) -> Call {
    let request =
        Request { caller: source.caller, code: REGRADE, a: source.place, b: cell as u32, c: tables::bits(rng) };
    let mut buffer = vec![0; 4];
    rng.bytes(&mut buffer);
    Call { request, buffer }
}

/// The same regrade of another source.
pub(crate) fn same_of(call: &Call, source: Source) -> Call {
    let request = Request { caller: source.caller, a: source.place, ..call.request };
    Call { request, buffer: call.buffer.clone() }
}

/// A cell that is seen, or one that is not.
pub(crate) fn some_cell(rng: &mut Rng, shape: &Shape, seen: &Seen, wanted: bool) -> Option<usize> {
    choose(rng, (0..shape.cells).filter(|&cell| seen[cell] == wanted))
}

pub(crate) fn choose<T: Copy>(rng: &mut Rng, from: impl Iterator<Item = T>) -> Option<T> {
    let from: Vec<T> = from.collect();
    (!from.is_empty()).then(|| rng.pick(&from))
}

/// Two runs at their start, if the configuration drawn hides anything from the observer drawn: what is seen is equal, all else is drawn
/// apart, but that some hidden files have the same blocks.
fn two_runs<'a>(
    monitor: &'a dyn Monitor,
    rng: &mut Rng,
    world: &World,
    shape: &'a Shape,
    seen: &'a Seen,
) -> [Run<'a>; 2] {
    let one = Run { monitor, shape, seen, world: world.clone() };
    let mut other = Run { monitor, shape, seen, world: world.clone() };
    tables::fill(rng, &mut other.world, shape, |cell| !seen[cell]);
    share_blocks(rng, &one.world, &mut other.world, shape, seen);
    assert!(plain::check(&other.world.table, other.world.store.len()).is_some(), "the second table is well formed");
    compare(&one, &other, format_args!("at the start"));
    [one, other]
}

/// Some hidden files of the one table get the blocks that they have in the other.
pub(crate) fn share_blocks(rng: &mut Rng, one: &World, other: &mut World, shape: &Shape, seen: &Seen) {
    for file in (0..shape.count(Kind::File)).filter(|&file| !seen[shape.cell(Kind::File, file)]) {
        if one.live(shape, Kind::File, file) && other.live(shape, Kind::File, file) && rng.chance(1, 2) {
            let size = shape.at(Kind::File, file) + SIZE;
            other.table[size] = one.table[size];
            let blocks = contents(one, shape, file).0;
            let start = shape.stretch(file).start;
            other.store[start..start + blocks.len()].copy_from_slice(blocks);
        }
    }
}

/// A regrade into a cell that is seen, by the hidden guard of each run, with the same blocks; if there are two sources for it.
fn paired_regrade(one: &mut Run, other: &mut Run, rng: &mut Rng, met: &mut Met) {
    let cell = match rng.chance(7, 8) {
        true => one.seen_room(rng),
        false => some_cell(rng, one.shape, one.seen, true),
    };
    let (Some(cell), Some(source)) = (cell, choose(rng, one.sources().into_iter())) else { return };
    let (blocks, rest) = one.contents(source.file);
    let equal = other.sources().into_iter().filter(|twin| other.contents(twin.file).0 == blocks);
    let Some(twin) = choose(rng, equal) else { return };
    let rests_differ = rest != other.contents(twin.file).1;
    let call = regrade(rng, source, cell);
    let (answer, _) = one.make(&call);
    let (other_answer, _) = other.make(&same_of(&call, twin));
    assert_eq!(answer[0], other_answer[0], "regrades of the same, {source:?} and {twin:?}: {call:?}");
    compare(one, other, format_args!("after regrades of {source:?} and {twin:?}: {call:?}"));
    match answer[0] {
        0 => met.paired_regrades += 1,
        _ => met.paired_refused += 1,
    }
    met.paired_from_elsewhere += u64::from(answer[0] == 0 && source != twin);
    met.paired_with_other_rests += u64::from(answer[0] == 0 && rests_differ);
}

/// What breaks the premise, and was told.
#[derive(Debug, Default)]
pub struct Told {
    /// A regrade into a visible cell that one run alone has.
    pub alone: u64,
    /// Regrades at the same place, of different blocks.
    pub other_blocks: u64,
    /// Regrades at the same place, of the same blocks, with different bits, owner or group.
    pub other_marks: u64,
    /// Regrades at the same place into different visible cells.
    pub other_cell: u64,
    /// A regrade by a visible caller that asks for a slot of a hidden cell: only one run has one.
    pub room: u64,
}

impl Told {
    pub fn assert_complete(&self) {
        let all = [self.alone, self.other_blocks, self.other_marks, self.other_cell, self.room];
        assert!(all.iter().all(|&count| count > 0), "never told: {self:#?}");
    }
}

/// Two runs that break the premise: what the observer is told differs.
pub fn broken_premise(monitor: &dyn Monitor, rng: &mut Rng, limits: Limits, told: &mut Told) {
    let world = tables::well_formed(rng, limits);
    let shape = world.shape();
    let seen = seen_by(&shape, &[rng.below(shape.cells)]);
    let (Some(guard), Some(hidden)) = (shape.guard, some_cell(rng, &shape, &seen, false)) else { return };
    let [mut one, mut other] = two_runs(monitor, rng, &world, &shape, &seen);
    let sources = [&one, &other].map(|run| choose(rng, run.sources().into_iter()));
    let [Some(source), Some(twin)] = sources else { return };
    let differ = |one: &Run, other: &Run| view(&one.world, &shape, &seen) != view(&other.world, &shape, &seen);
    if seen[guard] {
        // What the guard has open is seen, so that both can be asked for the same.
        let call = regrade(rng, source, hidden);
        let (answer, other_answer) = (one.make(&call).0, other.make(&call).0);
        told.room += u64::from(answer[0] != other_answer[0]);
        return;
    }
    let (Some(cell), Some(another)) = (one.seen_room(rng), one.seen_room(rng)) else { return };
    let call = regrade(rng, source, cell);
    let alone = rng.chance(1, 4);
    let mut partner = same_of(&call, twin);
    match rng.below(8) {
        0 => partner.request.c ^= 1 << rng.below(9),
        1 => partner.buffer[rng.below(4)] ^= 1 << rng.below(8),
        2 | 3 => partner.request.b = another as u32,
        _ => {}
    }
    if one.due(&call) != 0 || !alone && other.due(&partner) != 0 {
        return;
    }
    let same_blocks = one.contents(source.file).0 == other.contents(twin.file).0;
    one.make(&call);
    if !alone {
        other.make(&partner);
    }
    let same = !alone && same_blocks && (call.request.b, call.request.c) == (partner.request.b, partner.request.c);
    let same = same && call.buffer == partner.buffer;
    assert_eq!(differ(&one, &other), !same, "{call:?} of {source:?}, and {partner:?} of {twin:?}, alone: {alone}");
    match () {
        _ if same => {}
        _ if alone => told.alone += 1,
        _ if call.request.b != partner.request.b => told.other_cell += 1,
        _ if same_blocks => told.other_marks += 1,
        _ => told.other_blocks += 1,
    }
}

/// One pair of runs, if the configuration drawn hides anything from the observer drawn.
pub fn pair_of_runs(monitor: &dyn Monitor, rng: &mut Rng, limits: Limits, steps: usize, met: &mut Met) {
    let world = match rng.chance(1, 4) {
        true => tables::fresh(rng, limits),
        false => tables::well_formed(rng, limits),
    };
    let shape = world.shape();
    let mut observers = vec![rng.below(shape.cells)];
    if rng.chance(1, 8) {
        observers.push(rng.below(shape.cells));
    }
    let seen = seen_by(&shape, &observers);
    if seen[..shape.cells].iter().all(|&cell| cell) {
        return;
    }
    met.runs += 1;
    met.wider_sets += u64::from(observers.len() > 1 && seen != seen_by(&shape, &observers[..1]));

    let [mut one, mut other] = two_runs(monitor, rng, &world, &shape, &seen);
    let desk_seen = shape.guard.map(|guard| seen[guard]);

    for _ in 0..steps {
        if !rng.chance(1, 8) {
            one.hidden_calls(rng, met);
        }
        other.hidden_calls(rng, met);
        if desk_seen == Some(false) && rng.chance(1, 4) {
            paired_regrade(&mut one, &mut other, rng, met);
        }
        let caller = match rng.chance(1, 64) {
            true => None,
            false => calls::caller(rng, &one.world, &shape, |cell| seen[cell]),
        };
        met.no_caller += u64::from(caller.is_none());
        let caller = caller.unwrap_or_else(|| calls::no_caller(rng, &shape));
        let drawn_from = if rng.chance(1, 2) { &one.world } else { &other.world };
        let call = match rng.below(16) {
            0 => one.exclusive_open(rng),
            1 if desk_seen == Some(true) => calls::at_the_desk(rng, drawn_from, &shape)
                .map(|caller| calls::with_code(rng, drawn_from, &shape, caller, REGRADE)),
            _ => None,
        };
        let mut call = call.unwrap_or_else(|| calls::by(rng, drawn_from, &shape, caller));
        if desk_seen == Some(true) && one.regrades(&call, false) {
            // It must not come as far as asking: else it asks about a cell that is seen.
            match matches!(one.due(&call), 0 | 26) {
                true => call.request.b = some_cell(rng, &shape, &seen, true).expect("the guard's own is seen") as u32,
                false => met.visible_not_asked += 1,
            }
        }
        visible_call(&mut one, &mut other, &call, met);
    }
}

fn visible_call(one: &mut Run, other: &mut Run, call: &Call, met: &mut Met) {
    let receiver = call.request.a;
    let fits = Seid::of(receiver).fits(Kind::Process, one.shape.count(Kind::Process));
    let up = call.request.code == 15 && fits && !one.seen[one.shape.cell(Kind::Process, Seid::of(receiver).index)];
    let before = if up { (one.queued(receiver), other.queued(receiver)) } else { (0, 0) };
    let frees = matches!(call.request.code, 2 | 5 | 9 | 11);
    let exclusive = call.request.code == 8 && call.request.b == 15;
    let held = if frees || exclusive { one.held_from_above() } else { Vec::new() };

    let shown = one.shown(call);
    assert_eq!(shown, other.shown(call), "views by the arguments of {call:?}");
    met.visible_views += u64::from(shown.0 == 0);
    let (answer, buffer) = one.make(call);
    let (other_answer, other_buffer) = other.make(call);
    assert_eq!(answer, other_answer, "answers to {call:?}");
    assert_eq!(buffer, other_buffer, "buffers of {call:?}");
    compare(one, other, format_args!("after {call:?}"));

    match answer[0] {
        0 => met.visible_done += 1,
        _ => met.visible_refused += 1,
    }
    met.visible_mismatched += u64::from(matches!(answer[0], 35 | 36));
    if up && answer[0] == 0 {
        let grown = (one.queued(receiver) - before.0, other.queued(receiver) - before.1);
        met.posts_that_differ += u64::from(grown.0 != grown.1);
        let forbids = [&*one, &*other].map(|run| run.forbids(call.request.caller, receiver));
        met.posts_that_differ_by_bits += u64::from(grown.0 != grown.1 && forbids[0] != forbids[1]);
    }
    if answer[0] == 0 {
        met.visible_regrades += u64::from(call.request.code == REGRADE);
        met.freed_under_hidden += u64::from(frees && one.held_from_above().len() < held.len());
        let (subtype, under_hidden) = (is_subtype(call.request.a), exclusive && held.contains(&call.request.a));
        met.exclusive_under_hidden += u64::from(under_hidden && !subtype);
        met.alone_under_hidden += u64::from(under_hidden && subtype);
        met.visible_subtypes += u64::from(call.request.code == 8 && subtype);
        met.visible_subtyped += u64::from(one.subtyped(&call.request));
    }
}

/// What is seen must be the same. The words are put together only where it is not.
fn compare(one: &Run, other: &Run, when: fmt::Arguments) {
    let (first, second) = (view(&one.world, one.shape, one.seen), view(&other.world, one.shape, one.seen));
    if first != second {
        panic!("what is seen differs {when}; all differences:\n{}", difference(one.shape, &one.world, &other.world));
    }
}
