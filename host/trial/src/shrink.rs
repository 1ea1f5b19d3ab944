//! When two monitors differ: calls are dropped while they still differ, what is left is made plain, and told as a script.

use crate::calls::Call;
use crate::differ::same_call;
use crate::scripts::{self, Script};
use crate::tables::World;
use crate::{Monitor, Plain};
use plain::Kind;
use plain::table::*;
use std::fmt::Write;

/// Drops items, in pieces from the whole down to one, while the rest still differs.
pub fn shrink<T: Clone>(items: &mut Vec<T>, mut differs: impl FnMut(&[T]) -> bool) {
    let mut piece = items.len();
    while piece > 0 {
        let mut dropped = false;
        let mut at = 0;
        while at < items.len() {
            let end = (at + piece).min(items.len());
            let fewer: Vec<T> = items[..at].iter().chain(&items[end..]).cloned().collect();
            if differs(&fewer) {
                *items = fewer;
                dropped = true;
            } else {
                at = end;
            }
        }
        if !dropped || piece > 1 {
            piece = (piece / 2).min(items.len());
        }
    }
}

/// A table and calls on it, at the last of which a monitor and the plain one differ.
pub struct Found {
    pub start: World,
    pub calls: Vec<Call>,
    /// Whether the table is what set-up leaves, so that a script tells all.
    pub from_setup: bool,
    /// In what they differ.
    pub difference: String,
}

/// The number of calls up to the first at which the two differ, and in what.
fn first_difference(monitor: &dyn Monitor, start: &World, calls: &[Call]) -> Option<(usize, String)> {
    let (mut ours, mut theirs) = (start.clone(), start.clone());
    (1..).zip(calls).find_map(|(made, call)| Some((made, same_call(monitor, &mut ours, &mut theirs, call).err()?)))
}

/// Shrinks a list of calls at which the two differ, and the table that it starts from.
pub fn found(monitor: &dyn Monitor, start: &World, calls: &[Call]) -> Found {
    let differs = |start: &World, calls: &[Call]| first_difference(monitor, start, calls).is_some();
    let mut calls = calls.to_vec();
    if let Some((made, _)) = first_difference(monitor, start, &calls) {
        calls.truncate(made);
    }
    shrink(&mut calls, |fewer| differs(start, fewer));
    let mut set_up = start.clone();
    Plain.setup(&mut set_up.table, set_up.store.len());
    set_up.store.fill(0);
    let from_setup = differs(&set_up, &calls);
    let start = if from_setup { set_up } else { calm(start, |calmer| differs(calmer, &calls)) };
    simplify(&mut calls, |call, change| change(call), |simpler| differs(&start, simpler));
    let difference = first_difference(monitor, &start, &calls).map_or_else(
        || "They agree when the calls are made again: one of them keeps something between calls.".to_string(),
        |(_, difference)| difference,
    );
    Found { start, calls, from_setup, difference }
}

/// Makes the arguments of calls 0 and their buffers empty or zeros while the items still differ. `on_call` makes a change to the
/// call of an item, if it has one.
pub fn simplify<T: Clone + PartialEq>(
    items: &mut [T],
    on_call: impl Fn(&mut T, fn(&mut Call)),
    mut differs: impl FnMut(&[T]) -> bool,
) {
    const SIMPLER: [fn(&mut Call); 5] = [
        |call| call.request.a = 0,
        |call| call.request.b = 0,
        |call| call.request.c = 0,
        |call| call.buffer.clear(),
        |call| call.buffer.fill(0),
    ];
    for at in 0..items.len() {
        for change in SIMPLER {
            let before = items[at].clone();
            on_call(&mut items[at], change);
            if items[at] != before && !differs(items) {
                items[at] = before;
            }
        }
    }
}

/// Clears records, entries and messages of a table while it stays well formed and the two still differ.
fn calm(start: &World, differs: impl Fn(&World) -> bool) -> World {
    let shape = start.shape();
    let mut world = start.clone();
    loop {
        let before = world.clone();
        let mut attempt = |change: &dyn Fn(&mut World)| {
            let mut calmer = world.clone();
            change(&mut calmer);
            recount(&mut calmer);
            if calmer != world && Plain.check(&calmer.table, calmer.store.len()) == 0 && differs(&calmer) {
                world = calmer;
            }
        };
        for kind in Kind::ALL {
            for index in 0..shape.count(kind) {
                let record = shape.record(kind, index);
                attempt(&|world| world.table[record.clone()].fill(0));
                attempt(&|world| {
                    let serial = world.table[record.start + SERIAL];
                    world.table[record.clone()].fill(0);
                    world.table[record.start + SERIAL] = serial;
                });
            }
        }
        for file in 0..shape.count(Kind::File) {
            let at = shape.at(Kind::File, file);
            attempt(&|world| world.table[at + SUBTYPE] = 0);
        }
        for process in 0..shape.count(Kind::Process) {
            let at = shape.at(Kind::Process, process);
            attempt(&|world| {
                world.table[at + QUEUED] = 0;
                world.table[at + MESSAGES..][..QUEUE * MESSAGE_WORDS].fill(0);
            });
            attempt(&|world| world.table[at + PARENT] = 0);
            for page in 0..PAGES {
                attempt(&|world| world.table[at + MAP + page] = 0);
            }
            for entries in [DESCRIPTORS, DESIGNATORS] {
                for place in 0..ENTRIES {
                    attempt(&|world| world.set_entry(&shape, process, entries, place, (0, 0)));
                }
            }
        }
        attempt(&|world| world.store.fill(0));
        if world == before {
            return world;
        }
    }
}

/// Makes the counts of opens and references right, and frees what nothing keeps.
fn recount(world: &mut World) {
    let shape = world.shape();
    for (kind, entries) in [(Kind::File, DESCRIPTORS), (Kind::Segment, DESIGNATORS)] {
        for index in 0..shape.count(kind) {
            if !world.live(&shape, kind, index) {
                continue;
            }
            let seid = world.seid(&shape, kind, index);
            let holders = shape.run(Kind::Process, shape.cell(kind, index));
            let held = holders.flat_map(|process| (0..ENTRIES).map(move |place| (process, place)));
            let holds = held.filter(|&(process, place)| world.entry(&shape, process, entries, place).0 == seid).count();
            let record = &mut world.table[shape.record(kind, index)];
            record[HOLDS] = holds as u32;
            if holds == 0 && (kind == Kind::Segment || record[LINKS] == 0) {
                let serial = record[SERIAL];
                record.fill(0);
                record[SERIAL] = serial;
            }
        }
    }
}

impl Found {
    /// The bytes that replay takes: the configuration and the calls.
    pub fn script(&self) -> Script {
        let mut script = Script::default();
        script.configuration(&self.start.table[..self.start.shape().at(Kind::Process, 0)]);
        for call in &self.calls {
            script.call(&call.request, &call.buffer);
        }
        script
    }

    /// The whole report.
    pub fn report(&self, monitor: &dyn Monitor) -> String {
        let mut report = format!("the two differ at the last of these calls.\n{}\n\n", self.difference);
        match self.from_setup {
            true => report += "As a script (tools/script.py makes the bytes that replay takes):\n\n",
            false => report += "As a script; but it starts from the records that follow it, not from set-up's:\n\n",
        }
        report += &scripts::text(&self.script().bytes, monitor);
        if !self.from_setup {
            self.tell_records(&mut report);
        }
        report
    }

    /// The words of each record that are not zero.
    fn tell_records(&self, report: &mut String) {
        let shape = self.start.shape();
        for kind in Kind::ALL {
            for index in 0..shape.count(kind) {
                let record = &self.start.table[shape.record(kind, index)];
                if record.iter().any(|&word| word != 0) {
                    write!(report, "# {kind:?} {index} of cell {}:", shape.cell(kind, index))
                        .expect("a string takes it");
                    for (at, word) in record.iter().enumerate().filter(|(_, word)| **word != 0) {
                        write!(report, " {at}={}", scripts::argument(*word)).expect("a string takes it");
                    }
                    report.push('\n');
                }
            }
        }
    }
}
