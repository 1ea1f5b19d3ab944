//! What a table is set up from.

use crate::layout::header::SUBTYPES;
use crate::layout::{
    HEADER_WORDS, MAX_BLOCKS, MAX_CELLS, MAX_SLOTS, MAX_SUBTYPES, configuration_words, store_bytes, table_words,
};
use crate::rights::Bits;
use std::fmt;

/// A level: what is secret, what is trusted, and which compartments it is about.
#[derive(Clone, Copy, Debug, Default, PartialEq, Eq, Hash)]
pub struct Level {
    /// The security category, 0 to 15.
    pub security: u8,
    /// The integrity category, 0 to 15.
    pub integrity: u8,
    /// The set of compartments, one in each bit.
    pub compartments: u32,
}

impl Level {
    /// A level of these three.
    pub const fn new(security: u8, integrity: u8, compartments: u32) -> Level {
        Level { security, integrity, compartments }
    }

    /// Whether information may flow from this level to the other. For display and tests: the monitor judges for itself.
    ///
    /// ```
    /// use monitor::Level;
    ///
    /// assert!(Level::new(1, 0, 0).flows_to(Level::new(3, 0, 0)) && !Level::new(3, 0, 0).flows_to(Level::new(1, 0, 0)));
    /// assert!(Level::new(0, 5, 0).flows_to(Level::new(0, 3, 0)) && !Level::new(0, 3, 0).flows_to(Level::new(0, 5, 0)));
    /// assert!(!Level::new(0, 0, 0b101).flows_to(Level::new(15, 0, 0b100)));
    /// ```
    pub const fn flows_to(self, other: Level) -> bool {
        self.security <= other.security
            && self.compartments & !other.compartments == 0
            && self.integrity >= other.integrity
    }
}

/// As in `security 1, integrity 0, compartments 00000000`.
impl fmt::Display for Level {
    fn fmt(&self, f: &mut fmt::Formatter) -> fmt::Result {
        write!(f, "security {}, integrity {}, compartments {:08x}", self.security, self.integrity, self.compartments)
    }
}

/// A cell of a hall: its level, its slots, and the owner and group of its first process.
#[derive(Clone, Copy, Debug, Default, PartialEq, Eq)]
pub struct Cell {
    /// Its level; no two cells of a hall have one level.
    pub level: Level,
    /// Its process slots, at least 1.
    pub processes: u32,
    /// Its segment slots.
    pub segments: u32,
    /// Its file slots.
    pub files: u32,
    /// The owner of its first process.
    pub owner: u16,
    /// The group of its first process.
    pub group: u16,
}

/// A subtype of a hall: a file that is created with one opens only to a process that has the subtype open. Its seid is
/// [`Seid::subtype`](crate::Seid::subtype) of its place among the subtypes.
#[derive(Clone, Copy, Debug, Default, PartialEq, Eq)]
pub struct Subtype {
    /// Its cell, whose files it is for; no lower than that of the subtype before.
    pub cell: u32,
    /// Its owner.
    pub owner: u16,
    /// Its group.
    pub group: u16,
    /// Its owner bits: who may open it, to read and to write.
    pub bits: Bits,
}

/// What a table is set up from. Whether it is a good configuration is for set-up to say.
#[derive(Clone, Debug, Default, PartialEq, Eq)]
pub struct Hall {
    /// The cells, 1 to 16. Their slots follow each other in this order, so a cell's first process is in the slot after the last
    /// of the cell before.
    pub cells: Vec<Cell>,
    /// B, the blocks of each file, 1 to 64.
    pub blocks: u32,
    /// The guard cell, whose processes may regrade; without one nobody may.
    pub guard: Option<u32>,
    /// The subtypes, at most 16, in the order of their cells.
    pub subtypes: Vec<Subtype>,
}

impl Hall {
    fn sum(&self, of: impl Fn(&Cell) -> u32) -> u32 {
        self.cells.iter().map(of).fold(0, u32::saturating_add)
    }

    /// The slot of a cell's first process, which is live after set-up with serial 1.
    ///
    /// ```
    /// use monitor::{Cell, Hall};
    ///
    /// let cell = Cell { processes: 3, ..Cell::default() };
    /// let hall = Hall { blocks: 1, cells: vec![cell; 2], ..Hall::default() };
    /// assert_eq!([0, 1].map(|cell| hall.first_process(cell)), [0, 3]);
    /// ```
    ///
    /// # Panics
    ///
    /// If the hall has no such cell.
    ///
    /// ```should_panic
    /// # use monitor::{Cell, Hall};
    /// let hall = Hall { blocks: 1, cells: vec![Cell { processes: 2, ..Cell::default() }], ..Hall::default() };
    /// hall.first_process(1);
    /// ```
    pub fn first_process(&self, cell: usize) -> u32 {
        assert!(cell < self.cells.len(), "no cell {cell}: the hall has {}", self.cells.len());
        self.cells[..cell].iter().map(|cell| cell.processes).fold(0, u32::saturating_add)
    }

    /// A table as long as the counts ask for, with the header, the cells and the subtypes in it, to be handed to set-up. Counts that
    /// are too large get no more room than the largest good ones: set-up refuses them.
    pub fn table(&self) -> Vec<u32> {
        let (processes, segments, files) = (self.sum(|c| c.processes), self.sum(|c| c.segments), self.sum(|c| c.files));
        let guard = self.guard.map_or(0, |cell| cell.saturating_add(1));
        let [cells, subtypes] = [self.cells.len(), self.subtypes.len()];
        let mut table = vec![0; HEADER_WORDS];
        let counts = [cells as u32, processes, segments, files, self.blocks, guard, subtypes as u32];
        table[..=SUBTYPES].copy_from_slice(&counts);
        for cell in &self.cells {
            let Level { security, integrity, compartments } = cell.level;
            table.extend([security.into(), integrity.into(), compartments]);
            table.extend([cell.processes, cell.segments, cell.files, cell.owner.into(), cell.group.into()]);
        }
        for subtype in &self.subtypes {
            let &Subtype { cell, owner, group, bits } = subtype;
            table.extend([cell, owner.into(), group.into(), bits.0.into()]);
        }
        debug_assert_eq!(table.len(), configuration_words(cells, subtypes));
        let room = |count: u32| (count as usize).min(MAX_SLOTS);
        let (cells, subtypes) = (cells.min(MAX_CELLS), subtypes.min(MAX_SUBTYPES));
        table.resize(table_words(cells, room(processes), room(segments), room(files), subtypes), 0);
        table
    }

    /// A store of the right length, all zeros; like the table, no longer than the longest good one.
    pub fn store(&self) -> Vec<u8> {
        let files = (self.sum(|c| c.files) as usize).min(MAX_SLOTS);
        vec![0; store_bytes(files, (self.blocks as usize).min(MAX_BLOCKS))]
    }
}
