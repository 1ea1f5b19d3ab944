//! Random well-formed tables. They are drawn from the definition of "well formed", not from what set-up and calls reach: stale
//! entries of lower cells' objects, stale senders and parents, serials at the top, full queues, opens that clash, subtypes held
//! against their bits.

use crate::rng::Rng;
use plain::table::*;
use plain::{Kind, Level, Seid, Shape, subtype_seid};

/// A table and its store.
#[derive(Clone, Debug, PartialEq, Eq)]
pub struct World {
    pub table: Vec<u32>,
    pub store: Vec<u8>,
}

impl World {
    /// The header, the cells and the subtypes, and zeros for the rest, whether or not they are good.
    pub fn configured(configuration: &[u32]) -> World {
        let count = |word: usize| configuration[word] as usize;
        let records = PROCESS_WORDS * count(1) + SEGMENT_WORDS * count(2) + FILE_WORDS * count(3);
        let mut table = configuration.to_vec();
        table.resize(configuration.len() + records, 0);
        World { table, store: vec![0; count(3) * count(4) * BLOCK_BYTES] }
    }

    pub fn shape(&self) -> Shape {
        Shape::read(&self.table, self.store.len()).expect("the configuration is good")
    }

    /// The seid that a slot has now, live or not; its serial may be 0.
    pub fn seid(&self, shape: &Shape, kind: Kind, index: usize) -> u32 {
        kind.seid(index, self.table[shape.at(kind, index) + SERIAL])
    }

    pub fn live(&self, shape: &Shape, kind: Kind, index: usize) -> bool {
        self.table[shape.at(kind, index) + LIVE] == 1
    }

    /// Whether a cell has a file slot to be taken.
    pub fn room(&self, shape: &Shape, cell: usize) -> bool {
        let free = |record: &[u32]| record[LIVE] == 0 && record[SERIAL] < MAX_SERIAL;
        shape.run(Kind::File, cell).any(|file| free(&self.table[shape.record(Kind::File, file)]))
    }

    /// Whether no process is live, so that every call is refused.
    pub fn deserted(&self, shape: &Shape) -> bool {
        (0..shape.count(Kind::Process)).all(|process| !self.live(shape, Kind::Process, process))
    }

    /// Whether a held seid no longer names anything. A subtype always does.
    pub fn stale(&self, shape: &Shape, kind: Kind, word: u32) -> bool {
        let Seid { index, .. } = Seid::of(word);
        !is_subtype(word) && (!self.live(shape, kind, index) || self.seid(shape, kind, index) != word)
    }

    /// The two words of a process's entry; `entries` is DESCRIPTORS or DESIGNATORS.
    pub fn entry(&self, shape: &Shape, process: usize, entries: usize, place: usize) -> (u32, u32) {
        let at = shape.at(Kind::Process, process) + entries + ENTRY_WORDS * place;
        (self.table[at], self.table[at + 1])
    }

    /// Where a block of the file that a process holds at a descriptor stands in the store.
    pub fn block_at(&self, shape: &Shape, process: u32, place: u32, block: u32) -> usize {
        let (seid, _) = self.entry(shape, process as usize, DESCRIPTORS, place as usize);
        shape.stretch(Seid::of(seid).index).start + BLOCK_BYTES * block as usize
    }

    /// The subtypes that a process holds: descriptor, seid and modes.
    pub fn held_subtypes(&self, shape: &Shape, process: usize) -> Vec<(usize, u32, u32)> {
        let entries = (0..ENTRIES).map(|place| (place, self.entry(shape, process, DESCRIPTORS, place)));
        entries.filter(|(_, (seid, _))| is_subtype(*seid)).map(|(place, (seid, modes))| (place, seid, modes)).collect()
    }

    pub fn set_entry(&mut self, shape: &Shape, process: usize, entries: usize, place: usize, entry: (u32, u32)) {
        let at = shape.at(Kind::Process, process) + entries + ENTRY_WORDS * place;
        (self.table[at], self.table[at + 1]) = entry;
    }
}

pub fn is_subtype(word: u32) -> bool {
    Seid::of(word).of_subtype()
}

/// The cell of what an entry holds: an object of a kind or, at a descriptor, a subtype.
pub fn held_cell(shape: &Shape, kind: Kind, word: u32) -> usize {
    shape.subtype(Seid::of(word)).map_or_else(|| shape.cell(kind, Seid::of(word).index), |subtype| subtype.cell)
}

/// The subtypes of the cells chosen, as seids.
pub fn subtypes(shape: &Shape, chosen: impl Fn(usize) -> bool) -> Vec<u32> {
    let subtypes = shape.subtypes().iter().enumerate();
    subtypes.filter(|(_, subtype)| chosen(subtype.cell)).map(|(index, _)| subtype_seid(index)).collect()
}

/// How large a table may be.
#[derive(Clone, Copy, Debug)]
pub struct Limits {
    pub cells: usize,
    pub slots: usize,
    pub blocks: usize,
    /// For the whole store.
    pub store_blocks: usize,
}

pub const SMALL: Limits = Limits { cells: 3, slots: 6, blocks: 3, store_blocks: 8 };
pub const MIDDLE: Limits = Limits { cells: 6, slots: 20, blocks: 4, store_blocks: 32 };
/// As large as replay takes.
pub const LARGE: Limits = Limits { cells: 16, slots: 64, blocks: 64, store_blocks: 64 };
/// As many slots as there can be; the store would take longer to compare than it is worth.
pub const HUGE: Limits = Limits { cells: 16, slots: MAX_SLOTS, blocks: 2, store_blocks: 2 * MAX_SLOTS };

/// Mostly small tables, so that many calls are made; some of full size.
pub fn limits(rng: &mut Rng) -> Limits {
    if rng.chance(1, 28) { HUGE } else { replay_limits(rng) }
}

/// The same, for tables that replay takes.
pub fn replay_limits(rng: &mut Rng) -> Limits {
    rng.pick(&[SMALL, SMALL, SMALL, SMALL, SMALL, MIDDLE, MIDDLE, MIDDLE, LARGE])
}

/// Whether a kind has as many slots as there can be.
pub fn full(shape: &Shape) -> bool {
    Kind::ALL.into_iter().any(|kind| shape.count(kind) == MAX_SLOTS)
}

/// Good header, cell and subtype words.
pub fn configuration(rng: &mut Rng, limits: Limits) -> Vec<u32> {
    let often = if limits.slots == MAX_SLOTS { 5 } else { 1 }; // of eight
    let cells = if rng.chance(often, 8) { 1 } else { 1 + rng.below(limits.cells) };
    let mut levels: Vec<Level> = Vec::new();
    let spread = rng.below(3);
    while levels.len() < cells {
        let level = level(rng, spread);
        if !levels.contains(&level) {
            levels.push(level);
        }
    }
    let blocks = if rng.chance(1, 8) { limits.blocks } else { 1 + rng.below(limits.blocks) };
    // Now and then as many as there can be.
    let most_often = if limits.slots == MAX_SLOTS { 3 } else { 1 }; // of six
    let mut count =
        |least: usize, most: usize| if rng.chance(most_often, 6) { most } else { least + rng.below(most - least + 1) };
    let processes = count(cells, limits.slots);
    let segments = count(0, limits.slots);
    let files = count(0, limits.slots.min(limits.store_blocks / blocks));
    let guard = if rng.chance(1, 4) { 0 } else { 1 + rng.below(cells) };
    let subtypes = match rng.below(8) {
        0 | 1 => 0,
        2 => MAX_SUBTYPES,
        _ => 1 + rng.below(MAX_SUBTYPES),
    };
    let header = [cells, processes, segments, files, blocks, guard, subtypes, 0];
    let mut words: Vec<u32> = header.map(|n| n as u32).to_vec();
    // One process slot for each cell; all others, and the segments and files, go to random cells.
    let mut slots = vec![[1u32, 0, 0]; cells];
    for (kind, extra) in [processes - cells, segments, files].into_iter().enumerate() {
        for _ in 0..extra {
            slots[rng.below(cells)][kind] += 1;
        }
    }
    for (level, slots) in levels.iter().zip(slots) {
        words.extend([level.security, level.integrity, level.compartments]);
        words.extend(slots);
        words.extend([identity(rng), identity(rng)]);
    }
    let mut cell_of: Vec<usize> = (0..subtypes).map(|_| rng.below(cells)).collect();
    cell_of.sort();
    for cell in cell_of {
        // Bits that forbid nobody are drawn more often: who holds no subtype opens no subtyped file.
        let bits = if rng.chance(1, 2) { 0o666 } else { bits(rng) };
        words.extend([cell as u32, identity(rng), identity(rng), bits]);
    }
    words
}

/// A level from a few that are often comparable, or from all.
fn level(rng: &mut Rng, spread: usize) -> Level {
    match spread {
        0 => Level { security: rng.between(0, 15), integrity: 0, compartments: rng.pick(&[0, 0, 1]) },
        1 => Level { security: rng.between(0, 3), integrity: rng.between(0, 2), compartments: rng.pick(&[0, 1, 2, 3]) },
        _ => {
            Level { security: rng.between(0, 15), integrity: rng.between(0, 15), compartments: rng.word() & rng.word() }
        }
    }
}

/// An owner or a group: few values, so that they are often equal.
pub fn identity(rng: &mut Rng) -> u32 {
    rng.pick(&[0, 0, 1, 1, 1, 2, 300, 65535])
}

pub fn bits(rng: &mut Rng) -> u32 {
    match rng.below(8) {
        0 => rng.between(0, MAX_BITS),
        1 => 0,
        2 => 4,
        3 => 0o604,
        _ => rng.pick(&[0o644, 0o666, 0o640, 0o777, 0o400, 0o200, 0o060, 0o006]),
    }
}

pub const VALID_MODES: [u32; 5] = [1, 2, 3, 11, 15];

/// A well-formed table and a store of random bytes.
pub fn well_formed(rng: &mut Rng, limits: Limits) -> World {
    let mut world = World::configured(&configuration(rng, limits));
    let shape = world.shape();
    fill(rng, &mut world, &shape, |_| true);
    world
}

/// The table after set-up.
pub fn fresh(rng: &mut Rng, limits: Limits) -> World {
    let mut world = World::configured(&configuration(rng, limits));
    plain::setup(&mut world.table, world.store.len());
    world
}

/// A table in daily use: most slots live, half of the entries used. For the benchmark.
pub fn busy(rng: &mut Rng, configuration: &[u32]) -> World {
    let mut world = World::configured(configuration);
    let shape = world.shape();
    let mood = Mood { live: 6, entries: 4, top_serials: false, quiet_files: 0, last_unused: false };
    fill_in_mood(rng, &mood, &mut world, &shape, |_| true);
    world
}

/// Draws anew the records and the store of the cells chosen. What they may hold in other cells is read there, so that a table
/// with good records elsewhere becomes well formed, or stays so.
pub fn fill(rng: &mut Rng, world: &mut World, shape: &Shape, chosen: impl Fn(usize) -> bool) {
    let mood = Mood {
        live: 2 + rng.below(7),
        entries: rng.pick(&[1, 3, 5, 8]),
        top_serials: rng.chance(1, 4),
        quiet_files: rng.draw() & rng.draw(),
        last_unused: if full(shape) { rng.chance(3, 4) } else { rng.chance(1, 3) },
    };
    fill_in_mood(rng, &mood, world, shape, chosen);
}

fn fill_in_mood(rng: &mut Rng, mood: &Mood, world: &mut World, shape: &Shape, chosen: impl Fn(usize) -> bool) {
    let cells: Vec<usize> = (0..shape.cells).filter(|&cell| chosen(cell)).collect();
    for &cell in &cells {
        for kind in Kind::ALL {
            for index in shape.run(kind, cell) {
                world.table[shape.record(kind, index)].fill(0);
                head(rng, mood, world, shape, kind, index);
            }
        }
        for file in shape.run(Kind::File, cell) {
            rng.bytes(&mut world.store[shape.stretch(file)]);
        }
    }
    for &cell in &cells {
        for process in shape.run(Kind::Process, cell) {
            if world.live(shape, Kind::Process, process) {
                holdings(rng, mood, world, shape, process, cell);
            }
        }
    }
    for &cell in &cells {
        count_holds(rng, world, shape, cell);
    }
}

/// What makes one table differ from another as a whole.
struct Mood {
    /// Of eight slots, how many are live.
    live: usize,
    /// Of eight entries, how many are used.
    entries: usize,
    top_serials: bool,
    /// One bit for each file slot, and for each subtype, over and over.
    quiet_files: u64,
    /// The last slot of each cell was never used, all others were: it is the next to be taken.
    last_unused: bool,
}

impl Mood {
    fn quiet(&self, index: usize) -> bool {
        self.quiet_files >> (index % 64) & 1 == 1
    }
}

fn serial(rng: &mut Rng, mood: &Mood, live: bool) -> u32 {
    if mood.top_serials && rng.chance(1, 2) {
        return rng.pick(&[65535, 65535, 65534, 65533]);
    }
    match rng.below(8) {
        0 if !live => 0,
        1 => rng.between(1, MAX_SERIAL),
        2 => rng.pick(&[65534, 65535]),
        _ => rng.between(1, 5),
    }
}

/// A record but for what it holds and who holds it.
fn head(rng: &mut Rng, mood: &Mood, world: &mut World, shape: &Shape, kind: Kind, index: usize) {
    let last = mood.last_unused && shape.run(kind, shape.cell(kind, index)).end == index + 1;
    let live = rng.chance(mood.live, 8) && !last;
    let serial = match serial(rng, mood, live) {
        _ if last => 0,
        0 if mood.last_unused => 1,
        serial => serial,
    };
    let record = &mut world.table[shape.record(kind, index)];
    record[SERIAL] = serial;
    if !live {
        return;
    }
    record[LIVE] = 1;
    record[OWNER] = identity(rng);
    record[GROUP] = identity(rng);
    match kind {
        Kind::Process => {
            record[PROCESS_BITS] = if rng.chance(1, 2) { FIRST_BITS } else { bits(rng) };
            if rng.chance(2, 3) {
                let run = shape.run(Kind::Process, shape.cell(kind, index));
                let parent = run.start + rng.below(run.len());
                let serial = if rng.chance(1, 2) { rng.between(1, 4) } else { rng.between(1, MAX_SERIAL) };
                record[PARENT] = Kind::Process.seid(parent, serial);
            }
        }
        Kind::Segment => {
            record[BITS] = bits(rng);
            record[SHARABLE] = u32::from(rng.chance(4, 5));
            record[SIZE] = 512 * rng.pick(&[1, 2, 3, 64, 126, 127]);
        }
        Kind::File => {
            let quiet = mood.quiet(index); // linked, or it would not stay
            record[BITS] = if quiet && rng.chance(1, 2) { 0o666 } else { bits(rng) };
            record[LINKS] = if quiet { 1 } else { rng.pick(&[0, 0, 0, 1, 1, 2, 254, 255]) };
            record[SIZE] = rng.below(shape.blocks + 1) as u32;
            let own = subtypes(shape, |cell| cell == shape.cell(kind, index));
            record[SUBTYPE] = if !own.is_empty() && rng.chance(2, 5) { rng.pick(&own) } else { 0 };
        }
    }
}

/// The objects that a process of a cell may hold: those of cells that flow to it, in the own cell only live ones.
fn candidates(world: &World, shape: &Shape, kind: Kind, cell: usize) -> Vec<usize> {
    (0..shape.count(kind))
        .filter(|&index| {
            let from = shape.cell(kind, index);
            let serial = world.table[shape.at(kind, index) + SERIAL];
            let own_cell = from == cell && kind != Kind::Process;
            shape.flow[from][cell] && serial >= 1 && (!own_cell || world.live(shape, kind, index))
        })
        .collect()
}

/// A seid of a candidate. Where it may be stale it sometimes is.
fn held(rng: &mut Rng, world: &World, shape: &Shape, kind: Kind, index: usize, cell: usize) -> u32 {
    let serial = world.table[shape.at(kind, index) + SERIAL];
    let must_be_live = kind != Kind::Process && shape.cell(kind, index) == cell;
    let older = !must_be_live && rng.chance(1, 4);
    kind.seid(index, if older { rng.between(1, serial) } else { serial })
}

fn holdings(rng: &mut Rng, mood: &Mood, world: &mut World, shape: &Shape, process: usize, cell: usize) {
    // Some files and subtypes stay quiet: nobody of their own cell has them open, though a higher reader may.
    let own = |file: usize| shape.cell(Kind::File, file) == cell;
    let mut files = candidates(world, shape, Kind::File, cell);
    files.retain(|&file| !(own(file) && mood.quiet(file)));
    let quiet: Vec<usize> = files.iter().copied().filter(|&file| mood.quiet(file)).collect();
    let mut subtypes = subtypes(shape, |from| shape.flow[from][cell]);
    subtypes.retain(|&seid| !(held_cell(shape, Kind::File, seid) == cell && mood.quiet(Seid::of(seid).index)));
    let segments = candidates(world, shape, Kind::Segment, cell);
    let senders = candidates(world, shape, Kind::Process, cell);
    let full = rng.chance(1, 8); // now and then no place is empty
    for place in 0..ENTRIES {
        if !(files.is_empty() && subtypes.is_empty()) && (full || rng.chance(mood.entries, 8)) {
            let entry = if files.is_empty() || !subtypes.is_empty() && rng.chance(1, 4) {
                let subtype = rng.pick(&subtypes);
                let own = held_cell(shape, Kind::File, subtype) == cell;
                (subtype, if own { rng.pick(&VALID_MODES) } else { 1 })
            } else {
                let file = if !quiet.is_empty() && rng.chance(1, 4) { rng.pick(&quiet) } else { rng.pick(&files) };
                let modes = if own(file) { rng.pick(&VALID_MODES) } else { 1 };
                (held(rng, world, shape, Kind::File, file, cell), modes)
            };
            world.set_entry(shape, process, DESCRIPTORS, place, entry);
        }
        if !segments.is_empty() && (full || rng.chance(mood.entries, 8)) {
            // The first of some draws that is not held already; now and then it is 64 slots from the last one that is.
            let (last, _) = world.entry(shape, process, DESIGNATORS, place.saturating_sub(1));
            let apart = Seid::of(last).index ^ 64;
            let apart = segments.contains(&apart).then_some(apart);
            let seid = (0..8)
                .map(|_| {
                    let drawn = rng.pick(&segments);
                    let segment = apart.filter(|_| rng.chance(1, 4)).unwrap_or(drawn);
                    held(rng, world, shape, Kind::Segment, segment, cell)
                })
                .find(|&seid| (0..place).all(|earlier| world.entry(shape, process, DESIGNATORS, earlier).0 != seid));
            if let Some(seid) = seid {
                let own = shape.cell(Kind::Segment, Seid::of(seid).index) == cell;
                let access = if own { rng.pick(&[0, 128, 256, 384]) } else { rng.pick(&[0, 256, 256]) };
                world.set_entry(shape, process, DESIGNATORS, place, (seid, access));
            }
        }
    }
    map(rng, world, shape, process);
    let queued = rng.pick(&[0, 0, 1, 2, 3, 7, 8, 8]);
    let at = shape.at(Kind::Process, process);
    world.table[at + QUEUED] = queued as u32;
    for message in 0..queued {
        let sender = rng.pick(&senders); // the process itself at least may have sent it
        let seid = held(rng, world, shape, Kind::Process, sender, cell);
        let text = [rng.word(), rng.word(), rng.word()];
        let words = at + MESSAGES + MESSAGE_WORDS * message;
        world.table[words] = seid;
        world.table[words + 1..words + MESSAGE_WORDS].copy_from_slice(&text);
    }
}

/// A map of what the process holds: none, or some pages of some designators, in runs or anywhere.
fn map(rng: &mut Rng, world: &mut World, shape: &Shape, process: usize) {
    let held: Vec<u32> = (0..ENTRIES)
        .filter(|&place| world.entry(shape, process, DESIGNATORS, place).0 != 0)
        .map(|place| place as u32 + 1)
        .collect();
    if held.is_empty() || rng.chance(1, 4) {
        return;
    }
    let at = shape.at(Kind::Process, process) + MAP;
    let map = &mut world.table[at..at + PAGES];
    for _ in 0..rng.below(5) {
        let first = rng.below(PAGES);
        let pages = rng.pick(&[1, 1, 1, 2, 4]).min(PAGES - first);
        map[first..first + pages].fill(rng.pick(&held));
    }
}

/// Opens and references by counting. A live object that nothing keeps is given to a process or gets a link, or is freed.
fn count_holds(rng: &mut Rng, world: &mut World, shape: &Shape, cell: usize) {
    for (kind, entries) in [(Kind::File, DESCRIPTORS), (Kind::Segment, DESIGNATORS)] {
        for process in shape.run(Kind::Process, cell) {
            for place in 0..ENTRIES {
                let (seid, _) = world.entry(shape, process, entries, place);
                let index = Seid::of(seid).index;
                if seid != 0 && !is_subtype(seid) && shape.cell(kind, index) == cell {
                    world.table[shape.at(kind, index) + HOLDS] += 1;
                }
            }
        }
        for index in shape.run(kind, cell) {
            let record = &mut world.table[shape.record(kind, index)];
            let kept = record[HOLDS] > 0 || kind == Kind::File && record[LINKS] > 0;
            if record[LIVE] == 1 && !kept {
                keep_or_free(rng, world, shape, kind, entries, index);
            }
        }
    }
}

fn keep_or_free(rng: &mut Rng, world: &mut World, shape: &Shape, kind: Kind, entries: usize, index: usize) {
    if kind == Kind::File && rng.chance(1, 2) {
        world.table[shape.at(kind, index) + LINKS] = 1;
        return;
    }
    let run = shape.run(Kind::Process, shape.cell(kind, index));
    let process = run.start + rng.below(run.len());
    let place = rng.below(ENTRIES);
    if world.live(shape, Kind::Process, process) && world.entry(shape, process, entries, place).0 == 0 {
        let rights = if kind == Kind::File { rng.pick(&VALID_MODES) } else { rng.pick(&[0, 128, 256, 384]) };
        let seid = world.seid(shape, kind, index);
        world.set_entry(shape, process, entries, place, (seid, rights));
        world.table[shape.at(kind, index) + HOLDS] = 1;
    } else {
        let record = &mut world.table[shape.record(kind, index)];
        let serial = record[SERIAL];
        record.fill(0);
        record[SERIAL] = serial;
    }
}
