//! Damaged tables. The named damages break one clause of "well formed" each and leave the others whole as far as can be, so that a
//! check that forgets the clause is caught; the random ones change words and lengths anywhere.

use crate::rng::Rng;
use crate::tables::{World, is_subtype, subtypes};
use plain::table::*;
use plain::{Kind, SUBTYPE_CLASS, Seid, Shape, subtype_seid};

/// Does the damage where the table has a place for it; None where it has none.
type Apply = Box<dyn Fn(&mut Rng, &mut World, &Shape) -> Option<()>>;

pub struct Damage {
    pub name: String,
    pub apply: Apply,
}

/// Changes one to three words, or a length. The table may still be well formed.
pub fn random(rng: &mut Rng, world: &mut World, shape: &Shape) {
    if rng.chance(1, 16) {
        match rng.below(4) {
            0 => world.table.push(0),
            1 => drop(world.table.pop()),
            2 => world.store.push(0),
            _ => drop(world.store.pop()),
        }
        return;
    }
    for _ in 0..1 + rng.below(3) {
        let at = match rng.below(4) {
            0 => rng.below(shape.at(Kind::Process, 0)), // header, cells and subtypes
            1 => rng.below(world.table.len()),
            _ => {
                let kind = rng.pick(&Kind::ALL);
                let count = shape.count(kind);
                if count == 0 {
                    rng.below(world.table.len())
                } else {
                    let record = shape.record(kind, rng.below(count));
                    record.start + rng.below(record.len().min(FILE_WORDS))
                }
            }
        };
        let old = world.table[at];
        world.table[at] = match rng.below(8) {
            0 => rng.word(),
            1 => 0,
            2 => 1,
            3 => old ^ 1 << rng.below(32),
            4 => rng.pick(&[2, 8, 9, 16, 64, 65, 255, 256, 511, 512, 65535, 65536, u32::MAX]),
            5 => world.table[rng.below(world.table.len())],
            6 => old.wrapping_add(1),
            _ => old.wrapping_sub(1),
        };
    }
}

/// Every named damage.
pub fn named() -> Vec<Damage> {
    let mut all = Vec::new();
    header(&mut all);
    configured_subtypes(&mut all);
    heads(&mut all);
    processes(&mut all);
    for (kind, entries) in [(Kind::File, DESCRIPTORS), (Kind::Segment, DESIGNATORS)] {
        held(&mut all, kind, entries);
    }
    messages(&mut all);
    objects(&mut all);
    held_subtypes(&mut all);
    files_of_subtypes(&mut all);
    all
}

type All = Vec<Damage>;

fn add(all: &mut All, name: impl Into<String>, apply: impl Fn(&mut Rng, &mut World, &Shape) -> Option<()> + 'static) {
    all.push(Damage { name: name.into(), apply: Box::new(apply) });
}

/// A damage that writes one value at a place.
fn put(
    all: &mut All,
    name: impl Into<String>,
    values: &'static [u32],
    place: impl Fn(&mut Rng, &World, &Shape) -> Option<usize> + 'static,
) {
    add(all, name, move |rng, world, shape| {
        let at = place(rng, world, shape)?;
        world.table[at] = rng.pick(values);
        Some(())
    });
}

fn choose<T: Copy>(rng: &mut Rng, from: impl Iterator<Item = T>) -> Option<T> {
    let from: Vec<T> = from.collect();
    (!from.is_empty()).then(|| rng.pick(&from))
}

/// A slot that is live, or one that is not.
fn slot(rng: &mut Rng, world: &World, shape: &Shape, kind: Kind, live: bool) -> Option<usize> {
    choose(rng, (0..shape.count(kind)).filter(|&index| world.live(shape, kind, index) == live))
}

fn header(all: &mut All) {
    put(all, "cells out of range", &[0, 17, u32::MAX], |_, _, _| Some(0));
    put(all, "processes out of range", &[0, 257, u32::MAX], |_, _, _| Some(1));
    put(all, "segments out of range", &[257, u32::MAX], |_, _, _| Some(2));
    put(all, "files out of range", &[257, u32::MAX], |_, _, _| Some(3));
    add(all, "one slot more than there can be, in a table that is right for it", |rng, world, _| {
        let kind = rng.below(3);
        let mut words = vec![1, 1, 1, 1, 1, 0, 0, 0, 0, 0, 0, 1, 1, 1, 0, 0];
        (words[1 + kind], words[11 + kind]) = (257, 257);
        *world = World::configured(&words);
        Some(())
    });
    put(all, "blocks out of range", &[0, 65, u32::MAX], |_, _, _| Some(4));
    put(all, "header zero", &[1, 65536, u32::MAX], |_, _, _| Some(7));
    add(all, "guard out of range", |rng, world, shape| {
        world.table[5] = rng.pick(&[shape.cells as u32 + 1, 17, 256, u32::MAX]);
        Some(())
    });
    put(all, "security or integrity out of range", &[16, 255, u32::MAX], |rng, _, shape| {
        Some(cell(rng, shape) + rng.below(2))
    });
    put(all, "cell owner or group out of range", &[65536, u32::MAX], |rng, _, shape| {
        Some(cell(rng, shape) + 6 + rng.below(2))
    });
    add(all, "slot sum unequal", |rng, world, shape| {
        let at = cell(rng, shape) + 3 + rng.below(3);
        world.table[at] += 1;
        Some(())
    });
    add(all, "slot sum equal only modulo 2^32", |rng, world, shape| {
        let (one, other) = two_cells(rng, shape)?;
        let word = 3 + rng.below(3);
        let moved = world.table[other + word] + 1;
        world.table[one + word] = world.table[one + word].wrapping_add(moved);
        world.table[other + word] = u32::MAX;
        Some(())
    });
    add(all, "a cell without process slots", |rng, world, shape| {
        // Its slots go to another cell, and all records are cleared, so that nothing else is wrong.
        let (one, other) = two_cells(rng, shape)?;
        world.table[other + 3] += world.table[one + 3];
        world.table[one + 3] = 0;
        clear_records(world, shape);
        Some(())
    });
    add(all, "two cells of one level", |rng, world, shape| {
        let (one, other) = two_cells(rng, shape)?;
        world.table.copy_within(one..one + 3, other);
        clear_records(world, shape);
        Some(())
    });
    add(all, "table too long", |_, world, _| {
        world.table.push(0);
        Some(())
    });
    add(all, "table too short", |_, world, _| world.table.pop().map(drop));
    add(all, "table of less than a header", |rng, world, _| {
        world.table.truncate(rng.below(8));
        Some(())
    });
    add(all, "store too long", |_, world, _| {
        world.store.push(0);
        Some(())
    });
    add(all, "store too short", |_, world, _| world.store.pop().map(drop));
}

fn cell(rng: &mut Rng, shape: &Shape) -> usize {
    HEADER_WORDS + CELL_WORDS * rng.below(shape.cells)
}

fn two_cells(rng: &mut Rng, shape: &Shape) -> Option<(usize, usize)> {
    let (one, other) = (cell(rng, shape), cell(rng, shape));
    (one != other).then_some((one, other))
}

/// The subtypes' own words. Where other records would be wrong too, these are cleared.
fn configured_subtypes(all: &mut All) {
    put(all, "subtypes out of range", &[17, 255, u32::MAX], |_, _, _| Some(6));
    add(all, "one subtype more than there can be, in a table that is right for it", |_, world, _| {
        let mut words = vec![1, 1, 0, 1, 1, 0, MAX_SUBTYPES as u32 + 1, 0, 0, 0, 0, 1, 0, 1, 0, 0];
        words.resize(words.len() + SUBTYPE_WORDS * (MAX_SUBTYPES + 1), 0);
        *world = World::configured(&words);
        Some(())
    });
    add(all, "a subtype of no cell", |rng, world, shape| {
        // The last one, so that the cells do not fall.
        let last = shape.subtypes().len().checked_sub(1)?;
        world.table[subtype_at(shape, last)] =
            rng.pick(&[shape.cells as u32, 16, 256, u32::MAX]).max(shape.cells as u32);
        clear_records(world, shape);
        Some(())
    });
    add(all, "cells of subtypes that fall", |rng, world, shape| {
        let last = shape.subtypes().len().checked_sub(1)?;
        let higher = choose(rng, (0..last).filter(|&at| shape.subtypes()[at].cell < shape.subtypes()[at + 1].cell))?;
        world.table.swap(subtype_at(shape, higher), subtype_at(shape, higher + 1));
        clear_records(world, shape);
        Some(())
    });
    for (name, word, values) in [
        ("owner", 1, &[65536, u32::MAX] as &'static [u32]),
        ("group", 2, &[65536, u32::MAX]),
        ("bits", 3, &[512, 1023, u32::MAX]),
    ] {
        put(all, format!("a subtype's {name} out of range"), values, move |rng, _, shape| {
            Some(subtype_at(shape, choose(rng, 0..shape.subtypes().len())?) + word)
        });
    }
}

/// The first word of a subtype.
fn subtype_at(shape: &Shape, index: usize) -> usize {
    HEADER_WORDS + CELL_WORDS * shape.cells + SUBTYPE_WORDS * index
}

fn clear_records(world: &mut World, shape: &Shape) {
    let records = shape.at(Kind::Process, 0);
    world.table[records..].fill(0);
}

/// A subtype's seid with another index than any has, or with another serial.
fn no_subtype(rng: &mut Rng, shape: &Shape, past: bool) -> Option<u32> {
    let count = shape.subtypes().len();
    if past {
        return Some(subtype_seid(rng.pick(&[count, count + 1, 255])));
    }
    Some(subtype_seid(choose(rng, 0..count)?) & !65535 | rng.pick(&[0, 2, 3, 65535]))
}

/// Descriptors of subtypes, and subtypes where none can be.
fn held_subtypes(all: &mut All) {
    /// A seid for a descriptor of a process.
    type Held = fn(&mut Rng, &Shape, usize) -> Option<u32>;
    let wrong: [(&str, Held); 3] = [
        ("index", |rng, shape, _| no_subtype(rng, shape, true)),
        ("serial", |rng, shape, _| no_subtype(rng, shape, false)),
        ("a cell that does not flow", |rng, shape, process| {
            let cell = shape.cell(Kind::Process, process);
            choose(rng, subtypes(shape, |from| !shape.flow[from][cell]).into_iter())
        }),
    ];
    for (name, seid) in wrong {
        add(all, format!("held subtype: {name}"), move |rng, world, shape| {
            let (process, place) = empty(rng, world, shape, DESCRIPTORS)?;
            let seid = seid(rng, shape, process)?;
            world.set_entry(shape, process, DESCRIPTORS, place, (seid, 1));
            Some(())
        });
    }
    let modes = |name: &str, own: bool, values: &'static [u32], all: &mut All| {
        add(all, format!("held subtype: {name}"), move |rng, world, shape| {
            let (process, place) = empty(rng, world, shape, DESCRIPTORS)?;
            let cell = shape.cell(Kind::Process, process);
            let held = subtypes(shape, |from| shape.flow[from][cell] && (from == cell) == own);
            let seid = choose(rng, held.into_iter())?;
            world.set_entry(shape, process, DESCRIPTORS, place, (seid, rng.pick(values)));
            Some(())
        });
    };
    modes("modes no valid number", true, BAD_MODES, all);
    modes("modes no valid number, of a lower cell", false, BAD_MODES, all);
    modes("write in another cell", false, &[2, 3, 11, 15], all);
    add(all, "held Segment: a subtype", |rng, world, shape| {
        let (process, place) = empty(rng, world, shape, DESIGNATORS)?;
        let cell = shape.cell(Kind::Process, process);
        let seid = choose(rng, subtypes(shape, |from| shape.flow[from][cell]).into_iter())?;
        world.set_entry(shape, process, DESIGNATORS, place, (seid, 256));
        Some(())
    });
    add(all, "sender: a subtype", |rng, world, shape| {
        let process = slot(rng, world, shape, Kind::Process, true)?;
        let at = shape.at(Kind::Process, process);
        let seid = choose(rng, subtypes(shape, |from| from == shape.cell(Kind::Process, process)).into_iter())?;
        if world.table[at + QUEUED] == 0 {
            return None;
        }
        world.table[at + MESSAGES] = seid;
        Some(())
    });
    add(all, "parent: a subtype", |rng, world, shape| {
        let process = slot(rng, world, shape, Kind::Process, true)?;
        let seid = choose(rng, subtypes(shape, |from| from == shape.cell(Kind::Process, process)).into_iter())?;
        world.table[shape.at(Kind::Process, process) + PARENT] = seid;
        Some(())
    });
}

/// A subtype that a file may have.
fn right_subtype(rng: &mut Rng, shape: &Shape, file: usize) -> Option<u32> {
    choose(rng, subtypes(shape, |cell| cell == shape.cell(Kind::File, file)).into_iter())
}

/// A file's word for its subtype.
fn files_of_subtypes(all: &mut All) {
    /// A word for a file.
    type Word = fn(&mut Rng, &Shape, usize) -> Option<u32>;
    let wrong: [(&str, Word); 4] = [
        ("class", |rng, shape, file| {
            let seid = right_subtype(rng, shape, file)?;
            Some(seid & 0x00ff_ffff | rng.pick(&[0, 4, 5, 7, 129, 134, 255]) << 24)
        }),
        ("index", |rng, shape, _| no_subtype(rng, shape, true)),
        ("serial", |rng, shape, file| Some(right_subtype(rng, shape, file)? & !65535 | rng.pick(&[0, 2, 3, 65535]))),
        ("another cell", |rng, shape, file| {
            choose(rng, subtypes(shape, |cell| cell != shape.cell(Kind::File, file)).into_iter())
        }),
    ];
    for (name, word) in wrong {
        add(all, format!("File: its subtype: {name}"), move |rng, world, shape| {
            let file = slot(rng, world, shape, Kind::File, true)?;
            world.table[shape.at(Kind::File, file) + SUBTYPE] = word(rng, shape, file)?;
            Some(())
        });
    }
    add(all, "File: its subtype: not live", |rng, world, shape| {
        let file = slot(rng, world, shape, Kind::File, false)?;
        world.table[shape.at(Kind::File, file) + SUBTYPE] = right_subtype(rng, shape, file)?;
        Some(())
    });
}

/// What the three kinds of record have in common.
fn heads(all: &mut All) {
    for kind in Kind::ALL {
        let word = move |name: &str, live: bool, word: usize, values: &'static [u32], all: &mut All| {
            put(all, format!("{kind:?}: {name}"), values, move |rng, world, shape| {
                Some(shape.at(kind, slot(rng, world, shape, kind, live)?) + word)
            });
        };
        word("live neither 0 nor 1", true, LIVE, &[2, 3, 257, u32::MAX], all);
        word("live with serial 0", true, SERIAL, &[0], all);
        word("live, serial too high", true, SERIAL, &[65536, u32::MAX], all);
        word("not live, serial too high", false, SERIAL, &[65536, u32::MAX], all);
        word("owner out of range", true, OWNER, &[65536, u32::MAX], all);
        word("group out of range", true, GROUP, &[65536, u32::MAX], all);
        add(all, format!("{kind:?}: live neither 0 nor 1, all else zero"), move |rng, world, shape| {
            let at = shape.at(kind, slot(rng, world, shape, kind, false)?);
            world.table[at + LIVE] = rng.pick(&[2, 256, u32::MAX]);
            Some(())
        });
        add(all, format!("{kind:?}: not live, not zero"), move |rng, world, shape| {
            let record = shape.record(kind, slot(rng, world, shape, kind, false)?);
            let at = record.start + OWNER + rng.below(record.len() - OWNER);
            world.table[at] = rng.pick(&[1, 128, 65536, 1 << 31]);
            Some(())
        });
    }
}

fn processes(all: &mut All) {
    let word = |name: &str, word: usize, values: &'static [u32], all: &mut All| {
        put(all, format!("Process: {name}"), values, move |rng, world, shape| {
            Some(shape.at(Kind::Process, slot(rng, world, shape, Kind::Process, true)?) + word)
        });
    };
    word("queue length out of range", QUEUED, &[9, 10, 16, u32::MAX], all);
    word("bits out of range", PROCESS_BITS, &[512, 1023, 65536, u32::MAX], all);
    word("the zero behind its bits", PROCESS_BITS + 1, &[1, 65536, u32::MAX], all);
    word("a page past the designators", MAP + 3, &[17, 18, 256, u32::MAX], all);
    add(all, "Process: a page of an empty designator", |rng, world, shape| {
        let (process, place) = empty(rng, world, shape, DESIGNATORS)?;
        world.table[shape.at(Kind::Process, process) + MAP + rng.below(PAGES)] = place as u32 + 1;
        Some(())
    });
    add(all, "Process: a page of a descriptor", |rng, world, shape| {
        let (process, place) = empty(rng, world, shape, DESIGNATORS)?;
        if world.entry(shape, process, DESCRIPTORS, place).0 == 0 {
            return None;
        }
        world.table[shape.at(Kind::Process, process) + MAP] = place as u32 + 1;
        Some(())
    });
    let parent = |name: &str, all: &mut All, seid: fn(&mut Rng, &Shape, usize) -> Option<u32>| {
        add(all, format!("parent: {name}"), move |rng, world, shape| {
            let process = slot(rng, world, shape, Kind::Process, true)?;
            world.table[shape.at(Kind::Process, process) + PARENT] = seid(rng, shape, process)?;
            Some(())
        });
    };
    parent("class", all, |rng, _, process| Some(rng.pick(&[0, 3, 5, 129, 132]) << 24 | (process as u32) << 16 | 1));
    parent("index", all, |rng, shape, _| past_the_slots(rng, shape, Kind::Process));
    parent("serial 0", all, |_, _, process| Some(Kind::Process.seid(process, 0)));
    parent("another cell", all, |rng, shape, process| {
        let cell = shape.cell(Kind::Process, process);
        let count = shape.count(Kind::Process);
        let other = choose(rng, (0..count).filter(|&p| shape.cell(Kind::Process, p) != cell))?;
        Some(Kind::Process.seid(other, 1))
    });
}

/// A live process and an empty place among its entries.
fn empty(rng: &mut Rng, world: &World, shape: &Shape, entries: usize) -> Option<(usize, usize)> {
    let process = slot(rng, world, shape, Kind::Process, true)?;
    let places = (0..ENTRIES).filter(|&place| world.entry(shape, process, entries, place).0 == 0);
    Some((process, choose(rng, places)?))
}

/// A live process and a used place, for an object of its own cell or of another.
fn used(rng: &mut Rng, world: &World, shape: &Shape, kind: Kind, entries: usize, own: bool) -> Option<(usize, usize)> {
    let process = slot(rng, world, shape, Kind::Process, true)?;
    let cell = shape.cell(Kind::Process, process);
    let places = (0..ENTRIES).filter(|&place| {
        let (seid, _) = world.entry(shape, process, entries, place);
        seid != 0 && !is_subtype(seid) && (shape.cell(kind, Seid::of(seid).index) == cell) == own
    });
    Some((process, choose(rng, places)?))
}

/// An object of another cell which flows to the process's, or which does not; its serial is not 0.
fn elsewhere(rng: &mut Rng, world: &World, shape: &Shape, kind: Kind, process: usize, flows: bool) -> Option<usize> {
    let cell = shape.cell(Kind::Process, process);
    choose(
        rng,
        (0..shape.count(kind)).filter(|&index| {
            let from = shape.cell(kind, index);
            from != cell && shape.flow[from][cell] == flows && world.table[shape.at(kind, index) + SERIAL] != 0
        }),
    )
}

/// A seid whose index is past the slots of its kind; there is none where all 256 are.
fn past_the_slots(rng: &mut Rng, shape: &Shape, kind: Kind) -> Option<u32> {
    let count = shape.count(kind);
    (count < MAX_SLOTS).then(|| kind.seid(rng.pick(&[count, MAX_SLOTS - 1]), 1))
}

/// A seid that breaks what every held seid must be, for a holder: by class, index, serial or level.
type BadSeid = fn(&mut Rng, &World, &Shape, Kind, usize) -> Option<u32>;

const BAD_SEIDS: [(&str, BadSeid); 5] = [
    ("class", |rng, world, shape, kind, process| {
        let index = elsewhere(rng, world, shape, kind, process, true)?;
        let seid = world.seid(shape, kind, index);
        let class = rng.pick(&[3, 4, 5, SUBTYPE_CLASS, 129, 128, 1]);
        let subtype = kind == Kind::File && class == SUBTYPE_CLASS; // a descriptor may hold one
        (class != kind.class() && !subtype).then_some(seid & 0x00ff_ffff | class << 24)
    }),
    ("index", |rng, _, shape, kind, _| past_the_slots(rng, shape, kind)),
    ("serial 0", |rng, world, shape, kind, process| {
        Some(kind.seid(elsewhere(rng, world, shape, kind, process, true)?, 0))
    }),
    ("newer than its slot", |rng, world, shape, kind, process| {
        let seid = world.seid(shape, kind, elsewhere(rng, world, shape, kind, process, true)?);
        (seid & 65535 < 65535).then_some(seid + 1)
    }),
    ("a cell that does not flow", |rng, world, shape, kind, process| {
        Some(world.seid(shape, kind, elsewhere(rng, world, shape, kind, process, false)?))
    }),
];

/// No valid modes.
const BAD_MODES: &[u32] = &[0, 4, 5, 6, 7, 8, 9, 10, 12, 13, 14, 16, 17, 257, u32::MAX];

/// Descriptors and designators.
fn held(all: &mut All, kind: Kind, entries: usize) {
    for (name, bad) in BAD_SEIDS {
        add(all, format!("held {kind:?}: {name}"), move |rng, world, shape| {
            let (process, place) = empty(rng, world, shape, entries)?;
            let seid = bad(rng, world, shape, kind, process)?;
            let rights = if kind == Kind::File { 1 } else { 256 };
            world.set_entry(shape, process, entries, place, (seid, rights));
            Some(())
        });
    }
    add(all, format!("held {kind:?}: own cell, not live"), move |rng, world, shape| {
        let (process, place) = empty(rng, world, shape, entries)?;
        let run = shape.run(kind, shape.cell(Kind::Process, process));
        let dead = |&index: &usize| !world.live(shape, kind, index) && world.table[shape.at(kind, index) + SERIAL] != 0;
        let index = choose(rng, run.filter(dead))?;
        let rights = if kind == Kind::File { 1 } else { 256 };
        let seid = world.seid(shape, kind, index);
        world.set_entry(shape, process, entries, place, (seid, rights));
        Some(())
    });
    add(all, format!("held {kind:?}: own cell, older serial"), move |rng, world, shape| {
        let (process, place) = used(rng, world, shape, kind, entries, true)?;
        let (seid, rights) = world.entry(shape, process, entries, place);
        if seid & 65535 == 1 {
            return None;
        }
        world.set_entry(shape, process, entries, place, (seid - 1, rights));
        Some(())
    });
    add(all, format!("held {kind:?}: own cell, newer than its slot"), move |rng, world, shape| {
        let (process, place) = used(rng, world, shape, kind, entries, true)?;
        let (seid, rights) = world.entry(shape, process, entries, place);
        if seid & 65535 == 65535 {
            return None;
        }
        world.set_entry(shape, process, entries, place, (seid + 1, rights));
        Some(())
    });
    let bad_rights: &[u32] = match kind {
        Kind::File => BAD_MODES,
        _ => &[1, 2, 64, 129, 255, 257, 383, 385, 511, 512, 640, 1 << 31],
    };
    add(all, format!("held {kind:?}: rights no valid number"), move |rng, world, shape| {
        let own = rng.chance(1, 2);
        let (process, place) = used(rng, world, shape, kind, entries, own)?;
        let (seid, _) = world.entry(shape, process, entries, place);
        world.set_entry(shape, process, entries, place, (seid, rng.pick(bad_rights)));
        Some(())
    });
    let writing: &[u32] = if kind == Kind::File { &[2, 3, 11, 15] } else { &[128, 384] };
    add(all, format!("held {kind:?}: write in another cell"), move |rng, world, shape| {
        let (process, place) = used(rng, world, shape, kind, entries, false)?;
        let (seid, _) = world.entry(shape, process, entries, place);
        world.set_entry(shape, process, entries, place, (seid, rng.pick(writing)));
        Some(())
    });
    add(all, format!("held {kind:?}: unused entry not zero"), move |rng, world, shape| {
        let (process, place) = empty(rng, world, shape, entries)?;
        world.set_entry(shape, process, entries, place, (0, rng.pick(&[1, 128, 256, 1 << 31])));
        Some(())
    });
    if kind == Kind::Segment {
        add(all, "held Segment: one seid twice", move |rng, world, shape| {
            let own = rng.chance(1, 2);
            let (process, place) = used(rng, world, shape, kind, entries, own)?;
            let (seid, access) = world.entry(shape, process, entries, place);
            let free = (0..ENTRIES).filter(|&place| world.entry(shape, process, entries, place).0 == 0);
            let second = choose(rng, free)?;
            world.set_entry(shape, process, entries, second, (seid, access));
            if own {
                world.table[shape.at(kind, Seid::of(seid).index) + HOLDS] += 1;
            }
            Some(())
        });
        add(all, "held Segment: one seid twice, another serial of its slot between", move |rng, world, shape| {
            let (process, _) = empty(rng, world, shape, entries)?;
            let index = elsewhere(rng, world, shape, kind, process, true)?;
            let seid = world.seid(shape, kind, index);
            if seid & 65535 == 1 {
                return None;
            }
            // The three entries take the place of what stood there, if that was of another cell.
            let cell = shape.cell(Kind::Process, process);
            let free = (0..ENTRIES).filter(|&place| {
                let (held, _) = world.entry(shape, process, entries, place);
                held == 0 || shape.cell(kind, Seid::of(held).index) != cell
            });
            let free: Vec<usize> = free.collect();
            let [first, second, third, ..] = free[..] else {
                return None;
            };
            for (place, held) in [(first, seid), (second, seid - 1), (third, seid)] {
                world.set_entry(shape, process, entries, place, (held, 256));
            }
            Some(())
        });
    }
}

fn messages(all: &mut All) {
    for (name, bad) in BAD_SEIDS {
        add(all, format!("sender: {name}"), move |rng, world, shape| {
            let process = slot(rng, world, shape, Kind::Process, true)?;
            let at = shape.at(Kind::Process, process);
            let queued = world.table[at + QUEUED] as usize;
            let seid = bad(rng, world, shape, Kind::Process, process)?;
            if queued == 0 {
                return None;
            }
            world.table[at + MESSAGES + MESSAGE_WORDS * rng.below(queued)] = seid;
            Some(())
        });
    }
    add(all, "sender: own cell, newer than its slot", |rng, world, shape| {
        let process = slot(rng, world, shape, Kind::Process, true)?;
        let at = shape.at(Kind::Process, process);
        let seid = world.seid(shape, Kind::Process, process);
        if world.table[at + QUEUED] == 0 || seid & 65535 == 65535 {
            return None;
        }
        world.table[at + MESSAGES] = seid + 1;
        Some(())
    });
    add(all, "sender: none", |rng, world, shape| {
        let process = slot(rng, world, shape, Kind::Process, true)?;
        let at = shape.at(Kind::Process, process);
        let queued = world.table[at + QUEUED] as usize;
        if queued == 0 {
            return None;
        }
        let message = at + MESSAGES + MESSAGE_WORDS * rng.below(queued);
        world.table[message..message + MESSAGE_WORDS].fill(0);
        Some(())
    });
    add(all, "unused message not zero", |rng, world, shape| {
        let process = slot(rng, world, shape, Kind::Process, true)?;
        let at = shape.at(Kind::Process, process);
        let used = world.table[at + QUEUED] as usize * MESSAGE_WORDS;
        if used == QUEUE * MESSAGE_WORDS {
            return None;
        }
        let word = at + MESSAGES + used + rng.below(QUEUE * MESSAGE_WORDS - used);
        world.table[word] = rng.pick(&[1, 1 << 31]);
        Some(())
    });
}

/// Segments and files.
fn objects(all: &mut All) {
    let word = |kind: Kind, name: &str, word: usize, values: &'static [u32], all: &mut All| {
        put(all, format!("{kind:?}: {name}"), values, move |rng, world, shape| {
            Some(shape.at(kind, slot(rng, world, shape, kind, true)?) + word)
        });
    };
    word(Kind::Segment, "bits out of range", BITS, &[512, 1023, u32::MAX], all);
    word(Kind::Segment, "sharable neither 0 nor 1", SHARABLE, &[2, 256, u32::MAX], all);
    word(Kind::Segment, "size", SIZE, &[0, 1, 511, 513, 65023, 65025, 65536, u32::MAX - 511], all);
    word(Kind::File, "bits out of range", BITS, &[512, 1023, u32::MAX], all);
    word(Kind::File, "links out of range", LINKS, &[256, 257, u32::MAX], all);
    add(all, "File: size over B", |rng, world, shape| {
        let file = slot(rng, world, shape, Kind::File, true)?;
        world.table[shape.at(Kind::File, file) + SIZE] = rng.pick(&[shape.blocks as u32 + 1, u32::MAX]);
        Some(())
    });
    for kind in [Kind::Segment, Kind::File] {
        add(all, format!("{kind:?}: holds one too many"), move |rng, world, shape| {
            let index = slot(rng, world, shape, kind, true)?;
            world.table[shape.at(kind, index) + HOLDS] += 1;
            Some(())
        });
        add(all, format!("{kind:?}: holds one too few"), move |rng, world, shape| {
            let index = slot(rng, world, shape, kind, true)?;
            let holds = &mut world.table[shape.at(kind, index) + HOLDS];
            *holds = holds.checked_sub(1)?;
            Some(())
        });
        add(all, format!("{kind:?}: a reader of a higher cell counted"), move |rng, world, shape| {
            let entries = if kind == Kind::File { DESCRIPTORS } else { DESIGNATORS };
            let (process, place) = used(rng, world, shape, kind, entries, false)?;
            let (seid, _) = world.entry(shape, process, entries, place);
            if world.stale(shape, kind, seid) {
                return None;
            }
            world.table[shape.at(kind, Seid::of(seid).index) + HOLDS] += 1;
            Some(())
        });
        add(all, format!("{kind:?}: live and kept by nothing"), move |rng, world, shape| {
            let index = slot(rng, world, shape, kind, false)?;
            let record = &mut world.table[shape.record(kind, index)];
            record[LIVE] = 1;
            record[SERIAL] = record[SERIAL].max(1);
            record[SIZE] = if kind == Kind::Segment { 512 } else { 0 };
            Some(())
        });
    }
}
