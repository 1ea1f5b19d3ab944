//! The table's sizes, places and limits in words, and the buffers' in bytes: document 01's numbers, said once. A test compares
//! each of them with the library, and another those that monitor.h has too: limits, sizes and two places in the header. The rest
//! stands here alone.

/// Cells, at most.
pub const MAX_CELLS: usize = 16;
/// Slots of each kind, at most.
pub const MAX_SLOTS: usize = 256;
/// Blocks of a file, at most.
pub const MAX_BLOCKS: usize = 64;
/// Subtypes, at most.
pub const MAX_SUBTYPES: usize = 16;

/// The words of the header.
pub const HEADER_WORDS: usize = 8;
/// The words of a cell.
pub const CELL_WORDS: usize = 8;
/// The words of a subtype.
pub const SUBTYPE_WORDS: usize = 4;
/// The words of a process record.
pub const PROCESS_WORDS: usize = 112;
/// The words of a segment record.
pub const SEGMENT_WORDS: usize = 8;
/// The words of a file record.
pub const FILE_WORDS: usize = 9;

/// The bytes of a block.
pub const BLOCK_BYTES: usize = 512;
/// The bytes of a message's text, as it is posted.
pub const TEXT_BYTES: usize = 12;
/// The bytes of a message as it is received: its sender, then its text.
pub const MESSAGE_BYTES: usize = 16;
/// The bytes of a status.
pub const STATUS_BYTES: usize = 16;
/// The bytes of an owner and a group, as a regrade takes them.
pub const IDENTITY_BYTES: usize = 4;

/// The descriptors of a process, and as many designators.
pub const ENTRIES: usize = 16;
/// The words of a descriptor or designator: what it holds, and with which modes or access.
pub const ENTRY_WORDS: usize = 2;
/// The messages that a process can have waiting.
pub const QUEUE: usize = 8;
/// The words of a waiting message.
pub const MESSAGE_WORDS: usize = 4;
/// The pages of a process.
pub const PAGES: usize = 8;
/// The bytes of a page.
pub const PAGE_BYTES: usize = 8192;

/// The words of header, cells and subtypes, behind which the records stand.
pub const fn configuration_words(cells: usize, subtypes: usize) -> usize {
    HEADER_WORDS + CELL_WORDS * cells + SUBTYPE_WORDS * subtypes
}

/// The words of a table, by the header's numbers in their order.
pub const fn table_words(cells: usize, processes: usize, segments: usize, files: usize, subtypes: usize) -> usize {
    configuration_words(cells, subtypes) + PROCESS_WORDS * processes + SEGMENT_WORDS * segments + FILE_WORDS * files
}

/// The bytes of a store.
pub const fn store_bytes(files: usize, blocks: usize) -> usize {
    files * blocks * BLOCK_BYTES
}

/// No image of a table of that many words and a store of that many bytes is longer: a word takes up to five bytes.
pub const fn image_bytes(words: usize, bytes: usize) -> usize {
    5 * words + bytes
}

/// No working slice of a table is longer, by the header's numbers: three lists of slots for each cell, and a word for each process and
/// file of one cell.
pub const fn work_words(cells: usize, processes: usize, segments: usize, files: usize) -> usize {
    3 * cells + processes + segments + files + processes * files
}

/// Words of the header.
pub mod header {
    /// The number of cells.
    pub const CELLS: usize = 0;
    /// The number of process slots.
    pub const PROCESSES: usize = 1;
    /// The number of segment slots.
    pub const SEGMENTS: usize = 2;
    /// The number of file slots.
    pub const FILES: usize = 3;
    /// B, the blocks of each file.
    pub const BLOCKS: usize = 4;
    /// 0, or the guard cell, and 1.
    pub const GUARD: usize = 5;
    /// The number of subtypes.
    pub const SUBTYPES: usize = 6;
}

/// Words of a cell, from its first.
pub mod cell {
    /// The security category.
    pub const SECURITY: usize = 0;
    /// The integrity category.
    pub const INTEGRITY: usize = 1;
    /// The set of compartments.
    pub const COMPARTMENTS: usize = 2;
    /// The cell's process slots.
    pub const PROCESSES: usize = 3;
    /// The cell's segment slots.
    pub const SEGMENTS: usize = 4;
    /// The cell's file slots.
    pub const FILES: usize = 5;
    /// The owner of its first process.
    pub const OWNER: usize = 6;
    /// The group of its first process.
    pub const GROUP: usize = 7;
}

/// Words of a subtype, from its first.
pub mod subtype {
    /// Its cell, no lower than that of the subtype before.
    pub const CELL: usize = 0;
    /// The owner.
    pub const OWNER: usize = 1;
    /// The group.
    pub const GROUP: usize = 2;
    /// The owner bits.
    pub const BITS: usize = 3;
}

/// Words that stand at one place in the records of all kinds.
pub mod record {
    /// 1 if the slot is live, else 0.
    pub const LIVE: usize = 0;
    /// The uses of the slot so far.
    pub const SERIAL: usize = 1;
    /// The owner.
    pub const OWNER: usize = 2;
    /// The group.
    pub const GROUP: usize = 3;
}

/// Words of a process record.
pub mod process {
    use super::{ENTRIES, ENTRY_WORDS, MESSAGE_WORDS, QUEUE};

    /// The parent's seid.
    pub const PARENT: usize = 4;
    /// The messages that are waiting.
    pub const QUEUED: usize = 5;
    /// The owner bits; who may write may post.
    pub const BITS: usize = 6;
    /// The first descriptor: the seid of a file or a subtype, and modes.
    pub const DESCRIPTORS: usize = 8;
    /// The first designator: a segment seid and an access.
    pub const DESIGNATORS: usize = DESCRIPTORS + ENTRIES * ENTRY_WORDS;
    /// The oldest message: its sender and three words of text.
    pub const MESSAGES: usize = DESIGNATORS + ENTRIES * ENTRY_WORDS;
    /// The first page of the map: 0, or the designator that is mapped there, and 1.
    pub const MAP: usize = MESSAGES + QUEUE * MESSAGE_WORDS;
}

/// Words of a segment record.
pub mod segment {
    /// The owner bits.
    pub const BITS: usize = 4;
    /// 1 if others may rendezvous, else 0.
    pub const SHARABLE: usize = 5;
    /// The size in bytes.
    pub const SIZE: usize = 6;
    /// The designators of its own cell that hold it.
    pub const REFERENCES: usize = 7;
}

/// Words of a file record.
pub mod file {
    /// The owner bits.
    pub const BITS: usize = 4;
    /// The links.
    pub const LINKS: usize = 5;
    /// The size in blocks.
    pub const SIZE: usize = 6;
    /// The descriptors of its own cell that hold it.
    pub const OPENS: usize = 7;
    /// 0, or the seid of its subtype.
    pub const SUBTYPE: usize = 8;
}
