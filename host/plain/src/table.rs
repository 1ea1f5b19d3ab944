//! The table: its layout, whether it is well formed, and set-up.

use crate::errors::Error;
use crate::seid::{Kind, SUBTYPE_SERIAL, Seid};
use std::ops::Range;

pub const MAX_CELLS: usize = 16;
pub const MAX_SLOTS: usize = 256;
pub const MAX_BLOCKS: u32 = 64;
pub const MAX_SUBTYPES: usize = 16;
pub const MAX_SERIAL: u32 = 65535;
pub const MAX_ID: u32 = 65535;
pub const MAX_BITS: u32 = 511;
pub const MAX_LINKS: u32 = 255;

pub const HEADER_WORDS: usize = 8;
pub const CELL_WORDS: usize = 8;
pub const SUBTYPE_WORDS: usize = 4;
pub const PROCESS_WORDS: usize = 112;
pub const SEGMENT_WORDS: usize = 8;
pub const FILE_WORDS: usize = 9;
pub const BLOCK_BYTES: usize = 512;

/// Descriptors, and designators, of a process; and the messages that it can have waiting.
pub const ENTRIES: usize = 16;
pub const QUEUE: usize = 8;
pub const ENTRY_WORDS: usize = 2;
pub const MESSAGE_WORDS: usize = 4;
/// The pages of a process's map.
pub const PAGES: usize = 8;
pub const PAGE_BYTES: u32 = 8192;

// Words that stand at one place in all three kinds of record.
pub const LIVE: usize = 0;
pub const SERIAL: usize = 1;
pub const OWNER: usize = 2;
pub const GROUP: usize = 3;
// Processes.
pub const PARENT: usize = 4;
pub const QUEUED: usize = 5;
pub const PROCESS_BITS: usize = 6;
/// The bits of a cell's first process after set-up.
pub const FIRST_BITS: u32 = 0o666;
pub const DESCRIPTORS: usize = 8;
pub const DESIGNATORS: usize = DESCRIPTORS + ENTRIES * ENTRY_WORDS;
pub const MESSAGES: usize = DESIGNATORS + ENTRIES * ENTRY_WORDS;
/// The map: a word for each page, 0 or designator + 1.
pub const MAP: usize = MESSAGES + QUEUE * MESSAGE_WORDS;
// Segments and files.
pub const BITS: usize = 4;
pub const SHARABLE: usize = 5;
pub const LINKS: usize = 5;
pub const SIZE: usize = 6;
/// References of a segment, opens of a file: the own-cell entries that hold it.
pub const HOLDS: usize = 7;
/// Files: 0, or the seid of the subtype that an open must name.
pub const SUBTYPE: usize = 8;

/// Owner bits and accesses: read and write at the owner's place.
pub const READ: u32 = 256;
pub const WRITE: u32 = 128;

#[derive(Clone, Copy, Debug, Default, PartialEq, Eq)]
pub struct Level {
    pub security: u32,
    pub integrity: u32,
    pub compartments: u32,
}

impl Level {
    pub fn flows_to(self, other: Level) -> bool {
        self.security <= other.security
            && self.compartments & !other.compartments == 0
            && self.integrity >= other.integrity
    }
}

/// The slots of one kind: where their records stand, and which cell each belongs to.
#[derive(Clone)]
pub struct Slots {
    pub count: usize,
    first_word: usize,
    record_words: usize,
    cell_of: [u8; MAX_SLOTS],
    /// Cell c owns the slots starts[c]..starts[c + 1].
    starts: [u16; MAX_CELLS + 1],
}

/// A subtype: its cell, and what judges who may open it.
#[derive(Clone, Copy, Debug, Default, PartialEq, Eq)]
pub struct Subtype {
    pub cell: usize,
    pub owner: u32,
    pub group: u32,
    pub bits: u32,
}

/// What the configuration says, header, cells and subtypes: sizes, places, and which cell may flow to which.
#[derive(Clone)]
pub struct Shape {
    pub cells: usize,
    pub blocks: usize,
    /// The cell of the regrading desk, if there is one.
    pub guard: Option<usize>,
    pub levels: [Level; MAX_CELLS],
    pub flow: [[bool; MAX_CELLS]; MAX_CELLS],
    slots: [Slots; 3],
    subtype_count: usize,
    subtypes: [Subtype; MAX_SUBTYPES],
}

impl Shape {
    /// None if the header, a cell, a subtype or one of the two lengths is bad.
    pub fn read(table: &[u32], store_bytes: usize) -> Option<Shape> {
        let (header, rest) = table.split_first_chunk::<HEADER_WORDS>()?;
        let [cells, processes, segments, files, blocks, guard, subtypes, zero] = *header;
        let max = MAX_SLOTS as u32;
        let good = (1..=MAX_CELLS as u32).contains(&cells)
            && (1..=max).contains(&processes)
            && segments <= max
            && files <= max
            && (1..=MAX_BLOCKS).contains(&blocks)
            && guard <= cells
            && subtypes <= MAX_SUBTYPES as u32
            && zero == 0;
        if !good {
            return None;
        }
        let (cells, blocks, subtypes) = (cells as usize, blocks as usize, subtypes as usize);
        let processes_at = HEADER_WORDS + CELL_WORDS * cells + SUBTYPE_WORDS * subtypes;
        let segments_at = processes_at + PROCESS_WORDS * processes as usize;
        let files_at = segments_at + SEGMENT_WORDS * segments as usize;
        let words = files_at + FILE_WORDS * files as usize;
        if table.len() != words || store_bytes != files as usize * blocks * BLOCK_BYTES {
            return None;
        }
        let slots = |count: u32, first_word, record_words| Slots {
            count: count as usize,
            first_word,
            record_words,
            cell_of: [0; MAX_SLOTS],
            starts: [0; MAX_CELLS + 1],
        };
        let mut shape = Shape {
            cells,
            blocks,
            guard: (guard as usize).checked_sub(1),
            levels: [Level::default(); MAX_CELLS],
            flow: [[false; MAX_CELLS]; MAX_CELLS],
            slots: [
                slots(processes, processes_at, PROCESS_WORDS),
                slots(segments, segments_at, SEGMENT_WORDS),
                slots(files, files_at, FILE_WORDS),
            ],
            subtype_count: 0,
            subtypes: [Subtype::default(); MAX_SUBTYPES],
        };
        let (cell_words, rest) = rest.split_at(CELL_WORDS * cells);
        for (c, cell) in cell_words.as_chunks().0.iter().enumerate() {
            shape.add_cell(c, cell)?;
        }
        if shape.slots.iter().any(|s| s.starts[cells] as usize != s.count) {
            return None;
        }
        for &words in &rest.as_chunks().0[..subtypes] {
            shape.add_subtype(words)?;
        }
        for from in 0..cells {
            for to in 0..cells {
                shape.flow[from][to] = shape.levels[from].flows_to(shape.levels[to]);
            }
        }
        Some(shape)
    }

    fn add_cell(&mut self, c: usize, cell: &[u32; CELL_WORDS]) -> Option<()> {
        let [security, integrity, compartments, counts @ .., owner, group] = *cell;
        let level = Level { security, integrity, compartments };
        let good = security <= 15
            && integrity <= 15
            && counts[Kind::Process as usize] >= 1
            && owner <= MAX_ID
            && group <= MAX_ID
            && !self.levels[..c].contains(&level);
        if !good {
            return None;
        }
        self.levels[c] = level;
        for (slots, count) in self.slots.iter_mut().zip(counts) {
            let start = slots.starts[c] as usize;
            if count as usize > slots.count - start {
                return None;
            }
            let end = start + count as usize;
            slots.cell_of[start..end].fill(c as u8);
            slots.starts[c + 1] = end as u16;
        }
        Some(())
    }

    /// The next subtype: its cell is no lower than that of the one before.
    fn add_subtype(&mut self, [cell, owner, group, bits]: [u32; SUBTYPE_WORDS]) -> Option<()> {
        let least = self.subtypes().last().map_or(0, |before| before.cell);
        let good =
            (least..self.cells).contains(&(cell as usize)) && owner <= MAX_ID && group <= MAX_ID && bits <= MAX_BITS;
        if !good {
            return None;
        }
        self.subtypes[self.subtype_count] = Subtype { cell: cell as usize, owner, group, bits };
        self.subtype_count += 1;
        Some(())
    }

    pub fn subtypes(&self) -> &[Subtype] {
        &self.subtypes[..self.subtype_count]
    }

    /// The subtype that a seid names, if it names one.
    pub fn subtype(&self, seid: Seid) -> Option<&Subtype> {
        let named = seid.of_subtype() && seid.serial == SUBTYPE_SERIAL;
        self.subtypes().get(seid.index).filter(|_| named)
    }

    pub fn count(&self, kind: Kind) -> usize {
        self.slots[kind as usize].count
    }

    /// The first word of a record.
    pub fn at(&self, kind: Kind, index: usize) -> usize {
        let slots = &self.slots[kind as usize];
        slots.first_word + slots.record_words * index
    }

    pub fn record(&self, kind: Kind, index: usize) -> Range<usize> {
        let at = self.at(kind, index);
        at..at + self.slots[kind as usize].record_words
    }

    pub fn cell(&self, kind: Kind, index: usize) -> usize {
        self.slots[kind as usize].cell_of[index] as usize
    }

    /// The slots that a cell owns.
    pub fn run(&self, kind: Kind, cell: usize) -> Range<usize> {
        let starts = &self.slots[kind as usize].starts;
        starts[cell] as usize..starts[cell + 1] as usize
    }

    /// The bytes of the store that belong to a file slot.
    pub fn stretch(&self, file: usize) -> Range<usize> {
        let bytes = self.blocks * BLOCK_BYTES;
        file * bytes..(file + 1) * bytes
    }
}

/// Set-up: reads the configuration, and writes every record.
pub fn setup(table: &mut [u32], store_bytes: usize) -> Error {
    let Some(shape) = Shape::read(table, store_bytes) else {
        return Error::XbParam;
    };
    table[shape.at(Kind::Process, 0)..].fill(0);
    for cell in 0..shape.cells {
        let words = HEADER_WORDS + CELL_WORDS * cell;
        let (owner, group) = (table[words + 6], table[words + 7]);
        let first = shape.at(Kind::Process, shape.run(Kind::Process, cell).start);
        table[first + LIVE] = 1;
        table[first + SERIAL] = 1;
        table[first + OWNER] = owner;
        table[first + GROUP] = group;
        table[first + PROCESS_BITS] = FIRST_BITS;
    }
    Error::XOK
}

/// The whole-table check, in one pass: the shape of a well-formed table, and None for any other.
pub fn check(table: &[u32], store_bytes: usize) -> Option<Shape> {
    let shape = Shape::read(table, store_bytes)?;
    let records = |kind: Kind| &table[shape.at(kind, 0)..shape.at(kind, shape.count(kind))];
    let mut pass = Pass { table, shape: &shape, holds: [[0; MAX_SLOTS]; 3] };
    let (processes, _) = records(Kind::Process).as_chunks();
    let (segments, _) = records(Kind::Segment).as_chunks();
    let (files, _) = records(Kind::File).as_chunks();
    let good = processes.iter().enumerate().all(|(p, record)| pass.process(p, record))
        && segments.iter().enumerate().all(|(s, record)| pass.segment(s, record))
        && files.iter().enumerate().all(|(f, record)| pass.file(f, record));
    good.then_some(shape)
}

/// The pass over the records. The entries that hold an object in its own cell are counted on the way.
struct Pass<'a> {
    table: &'a [u32],
    shape: &'a Shape,
    holds: [[u32; MAX_SLOTS]; 3],
}

/// An entry's object: its slot, and whether it is in the holder's own cell.
struct Held {
    index: usize,
    own: bool,
}

impl Pass<'_> {
    fn process(&mut self, p: usize, record: &[u32; PROCESS_WORDS]) -> bool {
        if record[LIVE] != 1 {
            return free(record);
        }
        let cell = self.shape.cell(Kind::Process, p);
        let queued = record[QUEUED] as usize;
        live_head(record)
            && self.parent(record[PARENT], cell)
            && queued <= QUEUE
            && record[PROCESS_BITS] <= MAX_BITS
            && record[PROCESS_BITS + 1] == 0
            && self.descriptors(&record[DESCRIPTORS..DESIGNATORS], cell)
            && self.designators(&record[DESIGNATORS..MESSAGES], cell)
            && self.messages(&record[MESSAGES..MAP], queued, cell)
            && record[MAP..].iter().all(|&page| page == 0 || filled(record, page as usize - 1))
    }

    fn parent(&self, parent: u32, cell: usize) -> bool {
        let seid = Seid::of(parent);
        let shape = self.shape;
        parent == 0
            || seid.fits(Kind::Process, shape.count(Kind::Process)) && shape.cell(Kind::Process, seid.index) == cell
    }

    /// What every held seid must be: of the right form, no newer than its slot, from a cell that flows to the holder's.
    fn held(&self, kind: Kind, word: u32, cell: usize) -> Option<Held> {
        let seid = Seid::of(word);
        if !seid.fits(kind, self.shape.count(kind)) {
            return None;
        }
        let from = self.shape.cell(kind, seid.index);
        let serial = self.table[self.shape.at(kind, seid.index) + SERIAL];
        (seid.serial <= serial && self.shape.flow[from][cell]).then_some(Held { index: seid.index, own: from == cell })
    }

    /// A held file or segment; in the own cell it is live with that serial, and the entry counts.
    fn held_object(&mut self, kind: Kind, word: u32, cell: usize) -> Option<Held> {
        let held = self.held(kind, word, cell)?;
        if held.own {
            let at = self.shape.at(kind, held.index);
            if self.table[at + LIVE] != 1 || self.table[at + SERIAL] != Seid::of(word).serial {
                return None;
            }
            self.holds[kind as usize][held.index] += 1;
        }
        Some(held)
    }

    /// Whether what a descriptor holds is of the holder's own cell; None where no process of the cell may hold it.
    fn opened(&mut self, word: u32, cell: usize) -> Option<bool> {
        let seid = Seid::of(word);
        if !seid.of_subtype() {
            return self.held_object(Kind::File, word, cell).map(|held| held.own);
        }
        let subtype = self.shape.subtype(seid)?;
        self.shape.flow[subtype.cell][cell].then_some(subtype.cell == cell)
    }

    fn descriptors(&mut self, words: &[u32], cell: usize) -> bool {
        words.as_chunks().0.iter().all(|&[seid, modes]| {
            if seid == 0 {
                return modes == 0;
            }
            self.opened(seid, cell).is_some_and(|own| crate::valid_modes(modes) && (own || modes & 2 == 0))
        })
    }

    fn designators(&mut self, words: &[u32], cell: usize) -> bool {
        let (entries, _) = words.as_chunks();
        let mut seen = [0u64; MAX_SLOTS / 64]; // the slots met so far: only a slot met twice can be a seid met twice
        entries.iter().enumerate().all(|(i, &[seid, access])| {
            if seid == 0 {
                return access == 0;
            }
            let Some(held) = self.held_object(Kind::Segment, seid, cell) else {
                return false;
            };
            let (word, slot) = (held.index / 64, 1 << (held.index % 64));
            let twice = seen[word] & slot != 0 && entries[..i].iter().any(|&[earlier, _]| earlier == seid);
            seen[word] |= slot;
            !twice && access & !(READ | WRITE) == 0 && (held.own || access & WRITE == 0)
        })
    }

    fn messages(&self, words: &[u32], queued: usize, cell: usize) -> bool {
        let (used, unused) = words.split_at(queued * MESSAGE_WORDS);
        let (used, _) = used.as_chunks::<MESSAGE_WORDS>();
        used.iter().all(|message| self.held(Kind::Process, message[0], cell).is_some()) && zero(unused)
    }

    fn segment(&self, s: usize, record: &[u32; SEGMENT_WORDS]) -> bool {
        if record[LIVE] != 1 {
            return free(record);
        }
        live_head(record)
            && record[BITS] <= MAX_BITS
            && record[SHARABLE] <= 1
            && segment_size(record[SIZE])
            && record[HOLDS] == self.holds[Kind::Segment as usize][s]
            && record[HOLDS] >= 1
    }

    fn file(&self, f: usize, record: &[u32; FILE_WORDS]) -> bool {
        if record[LIVE] != 1 {
            return free(record);
        }
        live_head(record)
            && record[BITS] <= MAX_BITS
            && record[LINKS] <= MAX_LINKS
            && record[SIZE] as usize <= self.shape.blocks
            && record[HOLDS] == self.holds[Kind::File as usize][f]
            && record[LINKS] + record[HOLDS] >= 1
            && self.file_subtype(record[SUBTYPE], self.shape.cell(Kind::File, f))
    }

    /// A file's subtype is one of its own cell.
    fn file_subtype(&self, word: u32, cell: usize) -> bool {
        word == 0 || self.shape.subtype(Seid::of(word)).is_some_and(|subtype| subtype.cell == cell)
    }
}

/// Whether a process holds something at a designator.
fn filled(process: &[u32], designator: usize) -> bool {
    designator < ENTRIES && process[DESIGNATORS + ENTRY_WORDS * designator] != 0
}

/// Serial, owner and group of a live record.
fn live_head(record: &[u32]) -> bool {
    (1..=MAX_SERIAL).contains(&record[SERIAL]) && record[OWNER] <= MAX_ID && record[GROUP] <= MAX_ID
}

/// A record that is not live is zero but for its serial.
fn free(record: &[u32]) -> bool {
    record[LIVE] == 0 && record[SERIAL] <= MAX_SERIAL && zero(&record[OWNER..])
}

fn zero(words: &[u32]) -> bool {
    words.iter().fold(0, |all, word| all | word) == 0
}

/// "A multiple of 512 in 512..65024."
pub fn segment_size(size: u32) -> bool {
    size.is_multiple_of(512) && (512..=65024).contains(&size)
}
