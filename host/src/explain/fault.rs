//! Why a table is refused: the clauses of "well formed" one by one, up to the first that fails.

use crate::hall::Level;
use crate::layout::{self, *};
use crate::rights::{Access, Modes};
use crate::seid::{Kind, Seid};
use std::fmt::Display;

/// The first clause of "well formed" that a table fails beside a store of that length, and where; None if it is well formed. For a
/// host that finds its table refused with XbTab, or its configuration with XbParam: the header, the cells, the subtypes and the two
/// lengths are looked at first, then the records in their order.
///
/// ```
/// use monitor::{Cell, Hall, explain};
/// use monitor::layout::{HEADER_WORDS, cell};
///
/// let hall = Hall { blocks: 1, cells: vec![Cell { processes: 1, files: 2, ..Cell::default() }], ..Hall::default() };
/// let (mut table, store) = (hall.table(), hall.store());
/// monitor::setup(&mut table, store.len())?;
/// assert_eq!(explain::table(&table, store.len()), None);
/// assert_eq!(explain::table(&table, 512).unwrap(), "the store has 512 bytes, and its header asks for 1024");
/// table[HEADER_WORDS + cell::SECURITY] = 16;
/// assert_eq!(explain::table(&table, store.len()).unwrap(), "cell 0, security (word 8): 16, not 0 to 15");
/// # Ok::<(), monitor::Error>(())
/// ```
///
/// It decides nothing, and nothing here is proved: [`well_formed`](crate::well_formed) is the judge. A trial compares the two.
pub fn table(table: &[u32], store_bytes: usize) -> Option<String> {
    Shape::read(table, store_bytes).and_then(|shape| Pass::over(&shape)).err()
}

type Looked = Result<(), String>;

fn must(holds: bool, otherwise: impl FnOnce() -> String) -> Looked {
    if holds { Ok(()) } else { Err(otherwise()) }
}

/// Bounds of owners, groups and serials, of bits, of links and of a level's categories.
const WORD_16: u32 = 65535;
const MOST_BITS: u32 = 0o777;
const MOST_LINKS: u32 = 255;
const MOST_CATEGORY: u32 = 15;

/// A segment's size is a multiple of the one, up to the other.
const SEGMENT_UNIT: u32 = 512;
const MOST_SEGMENT: u32 = 65024;

/// The last word of a process's head: always 0.
const ZERO: usize = process::BITS + 1;

/// The kinds that have slots, in the order of their records.
const SLOTTED: [Kind; 3] = [Kind::Process, Kind::Segment, Kind::File];

/// A table whose header, cells, subtypes and lengths are good.
struct Shape<'a> {
    words: &'a [u32],
    cells: usize,
    blocks: u32,
    /// By kind: slots, and subtypes.
    counts: [usize; 4],
}

impl<'a> Shape<'a> {
    fn read(words: &'a [u32], store_bytes: usize) -> Result<Shape<'a>, String> {
        must(words.len() >= HEADER_WORDS, || {
            format!("the table has {} words, and a header has {HEADER_WORDS}", words.len())
        })?;
        let ranges = [
            (header::CELLS, "cells", 1, MAX_CELLS),
            (header::PROCESSES, "process slots", 1, MAX_SLOTS),
            (header::SEGMENTS, "segment slots", 0, MAX_SLOTS),
            (header::FILES, "file slots", 0, MAX_SLOTS),
            (header::BLOCKS, "blocks of a file", 1, MAX_BLOCKS),
            (header::GUARD, "guard cell and 1, or 0", 0, words[header::CELLS] as usize),
            (header::SUBTYPES, "subtypes", 0, MAX_SUBTYPES),
            (header::SUBTYPES + 1, "a zero", 0, 0),
        ];
        for (word, name, low, high) in ranges {
            within(words, word, low as u32, high as u32, || format!("header, {name}"))?;
        }
        let cells = words[header::CELLS] as usize;
        let counts = [header::PROCESSES, header::SEGMENTS, header::FILES, header::SUBTYPES];
        let counts @ [processes, segments, files, subtypes] = counts.map(|word| words[word] as usize);
        let shape = Shape { words, cells, blocks: words[header::BLOCKS], counts };
        let configuration = configuration_words(cells, subtypes);
        must(words.len() >= configuration, || {
            let words = words.len();
            format!(
                "the table has {words} words, and its header, {cells} cells and {subtypes} subtypes have {configuration}"
            )
        })?;
        (0..cells).try_for_each(|cell| shape.cell_words(cell))?;
        for later in 0..cells {
            for earlier in 0..later {
                must(shape.level(earlier) != shape.level(later), || {
                    format!("cells {earlier} and {later} have one level")
                })?;
            }
        }
        for kind in SLOTTED {
            let (sum, count) = (shape.starts(kind, cells), shape.count(kind) as u64);
            must(sum == count, || format!("the cells have {sum} {kind} slots, and the header {count}"))?;
        }
        (0..subtypes).try_for_each(|subtype| shape.subtype_words(subtype))?;
        let words_due = table_words(cells, processes, segments, files, subtypes);
        must(words.len() == words_due, || {
            format!("the table has {} words, and its header asks for {words_due}", words.len())
        })?;
        let bytes_due = layout::store_bytes(files, shape.blocks as usize);
        must(store_bytes == bytes_due, || {
            format!("the store has {store_bytes} bytes, and its header asks for {bytes_due}")
        })?;
        Ok(shape)
    }

    fn cell_words(&self, cell: usize) -> Looked {
        use crate::layout::cell::*;
        for (word, name, low, high) in [
            (SECURITY, "security", 0, MOST_CATEGORY),
            (INTEGRITY, "integrity", 0, MOST_CATEGORY),
            (PROCESSES, "process slots", 1, u32::MAX),
            (OWNER, "owner", 0, WORD_16),
            (GROUP, "group", 0, WORD_16),
        ] {
            within(self.words, HEADER_WORDS + CELL_WORDS * cell + word, low, high, || format!("cell {cell}, {name}"))?;
        }
        Ok(())
    }

    /// Only where those before are good: the cells never fall.
    fn subtype_words(&self, subtype: usize) -> Looked {
        use crate::layout::subtype::*;
        let least = if subtype == 0 { 0 } else { self.cell_of(Kind::Subtype, subtype - 1) };
        for (word, name, low, high) in [
            (CELL, "cell", least as u32, self.cells as u32 - 1),
            (OWNER, "owner", 0, WORD_16),
            (GROUP, "group", 0, WORD_16),
            (BITS, "bits", 0, MOST_BITS),
        ] {
            let at = self.at(Kind::Subtype, subtype) + word;
            within(self.words, at, low, high, || format!("subtype {subtype}, {name}"))?;
        }
        Ok(())
    }

    fn cell_word(&self, cell: usize, word: usize) -> u32 {
        self.words[HEADER_WORDS + CELL_WORDS * cell + word]
    }

    /// Only of a cell whose categories are in range.
    fn level(&self, cell: usize) -> Level {
        let word = |word| self.cell_word(cell, word);
        Level::new(word(cell::SECURITY) as u8, word(cell::INTEGRITY) as u8, word(cell::COMPARTMENTS))
    }

    fn count(&self, kind: Kind) -> usize {
        self.counts[kind as usize]
    }

    /// The slots of a kind in the cells before this one.
    fn starts(&self, kind: Kind, cell: usize) -> u64 {
        let word = [cell::PROCESSES, cell::SEGMENTS, cell::FILES][kind as usize];
        (0..cell).map(|cell| u64::from(self.cell_word(cell, word))).sum()
    }

    /// The cell of a slot, or of a subtype.
    fn cell_of(&self, kind: Kind, slot: usize) -> usize {
        if kind == Kind::Subtype {
            return self.words[self.at(kind, slot) + subtype::CELL] as usize;
        }
        (0..self.cells).rfind(|&cell| self.starts(kind, cell) <= slot as u64).expect("the first cell starts at slot 0")
    }

    fn at(&self, kind: Kind, slot: usize) -> usize {
        let [processes, segments, _, subtypes] = self.counts;
        match kind {
            Kind::Process => table_words(self.cells, slot, 0, 0, subtypes),
            Kind::Segment => table_words(self.cells, processes, slot, 0, subtypes),
            Kind::File => table_words(self.cells, processes, segments, slot, subtypes),
            Kind::Subtype => configuration_words(self.cells, slot),
        }
    }
}

/// A word in its range.
fn within(words: &[u32], at: usize, low: u32, high: u32, place: impl FnOnce() -> String) -> Looked {
    let value = words[at];
    must((low..=high).contains(&value), || {
        let range = match (low, high) {
            _ if low == high => format!("not {low}"),
            (_, u32::MAX) => format!("not at least {low}"),
            _ => format!("not {low} to {high}"),
        };
        fault(place(), at, value, range)
    })
}

fn fault(place: impl Display, at: usize, value: impl Display, what: impl Display) -> String {
    format!("{place} (word {at}): {value}, {what}")
}

/// The pass over the records. The entries that hold an object in its own cell are counted on the way, by kind and slot.
struct Pass<'a> {
    shape: &'a Shape<'a>,
    held: [[u32; MAX_SLOTS]; 3],
}

impl<'a> Pass<'a> {
    fn over(shape: &'a Shape<'a>) -> Looked {
        let mut pass = Pass { shape, held: [[0; MAX_SLOTS]; 3] };
        for kind in SLOTTED {
            for slot in 0..shape.count(kind) {
                pass.record(kind, slot)?;
            }
        }
        Ok(())
    }

    fn record(&mut self, kind: Kind, slot: usize) -> Looked {
        let (words, at) = (self.shape.words, self.shape.at(kind, slot));
        let range = |word: usize, name: &str, low, high| {
            within(words, at + word, low, high, || format!("{kind} {slot}, {name}"))
        };
        range(record::LIVE, "live", 0, 1)?;
        range(record::SERIAL, "serial", 0, WORD_16)?;
        if words[at + record::LIVE] == 0 {
            let end = at + [PROCESS_WORDS, SEGMENT_WORDS, FILE_WORDS][kind as usize];
            let left = (at + record::OWNER..end).find(|&word| words[word] != 0);
            let what = "though it is not live: not 0";
            return left.map_or(Ok(()), |word| {
                Err(fault(format!("{kind} {slot}, its word {}", word - at), word, words[word], what))
            });
        }
        range(record::SERIAL, "serial of a live record", 1, WORD_16)?;
        range(record::OWNER, "owner", 0, WORD_16)?;
        range(record::GROUP, "group", 0, WORD_16)?;
        match kind {
            Kind::Process => self.process(slot, at),
            Kind::Segment => {
                range(segment::BITS, "bits", 0, MOST_BITS)?;
                range(segment::SHARABLE, "sharable", 0, 1)?;
                let size = words[at + segment::SIZE];
                must(size.is_multiple_of(SEGMENT_UNIT) && (SEGMENT_UNIT..=MOST_SEGMENT).contains(&size), || {
                    let what = format!("not a multiple of {SEGMENT_UNIT} up to {MOST_SEGMENT}");
                    fault(format!("segment {slot}, size"), at + segment::SIZE, size, what)
                })?;
                range(segment::REFERENCES, "references", 1, u32::MAX)?;
                self.counted(kind, slot, at + segment::REFERENCES, "references")
            }
            _ => {
                range(file::BITS, "bits", 0, MOST_BITS)?;
                range(file::LINKS, "links", 0, MOST_LINKS)?;
                range(file::SIZE, "size in blocks", 0, self.shape.blocks)?;
                must(words[at + file::LINKS] != 0 || words[at + file::OPENS] != 0, || {
                    fault(
                        format!("file {slot}, links"),
                        at + file::LINKS,
                        0,
                        "and its opens are 0 too, though it is live",
                    )
                })?;
                self.counted(kind, slot, at + file::OPENS, "opens")?;
                self.file_subtype(slot, at + file::SUBTYPE)
            }
        }
    }

    /// A file's subtype, if it has one, is of the file's cell.
    fn file_subtype(&self, slot: usize, at: usize) -> Looked {
        let word = self.shape.words[at];
        if word == 0 {
            return Ok(());
        }
        let place = || format!("file {slot}, subtype");
        let (from, cell) = (self.formed(Kind::Subtype, at, place)?, self.shape.cell_of(Kind::File, slot));
        must(from == cell, || {
            fault(place(), at, Seid::from(word), format!("which is of cell {from}, and the file of cell {cell}"))
        })
    }

    /// A count of entries, against those met.
    fn counted(&self, kind: Kind, slot: usize, at: usize, name: &str) -> Looked {
        let (told, met) = (self.shape.words[at], self.held[kind as usize][slot]);
        must(told == met, || {
            fault(format!("{kind} {slot}, {name}"), at, told, format!("and {met} entries of its cell hold it"))
        })
    }

    fn process(&mut self, slot: usize, at: usize) -> Looked {
        let words = self.shape.words;
        let cell = self.shape.cell_of(Kind::Process, slot);
        let range =
            |word: usize, name: &str, high| within(words, at + word, 0, high, || format!("process {slot}, {name}"));
        let parent = words[at + process::PARENT];
        if parent != 0 {
            let place = || format!("process {slot}, parent");
            let from = self.formed(Kind::Process, at + process::PARENT, place)?;
            must(from == cell, || {
                fault(place(), at + process::PARENT, Seid::from(parent), format!("which is of cell {from}, not {cell}"))
            })?;
        }
        range(process::QUEUED, "queue length", QUEUE as u32)?;
        range(process::BITS, "bits", MOST_BITS)?;
        range(ZERO, "a zero", 0)?;
        for place in 0..ENTRIES {
            self.entry(Kind::File, slot, cell, place, at + process::DESCRIPTORS + ENTRY_WORDS * place)?;
        }
        for place in 0..ENTRIES {
            self.entry(Kind::Segment, slot, cell, place, at + process::DESIGNATORS + ENTRY_WORDS * place)?;
        }
        let designator = |place: usize| words[at + process::DESIGNATORS + ENTRY_WORDS * place];
        for later in 0..ENTRIES {
            let earlier =
                (0..later).find(|&earlier| designator(later) != 0 && designator(earlier) == designator(later));
            must(earlier.is_none(), || {
                let what = format!("which designator {} holds too", earlier.unwrap_or_default());
                let word = at + process::DESIGNATORS + ENTRY_WORDS * later;
                fault(format!("process {slot}, designator {later}"), word, Seid::from(words[word]), what)
            })?;
        }
        for message in 0..QUEUE {
            let first = at + process::MESSAGES + MESSAGE_WORDS * message;
            if message < words[at + process::QUEUED] as usize {
                self.seid(Kind::Process, cell, first, || format!("process {slot}, sender of message {message}"))?;
            } else {
                for word in first..first + MESSAGE_WORDS {
                    within(words, word, 0, 0, || {
                        format!("process {slot}, message {message}, which is past the queue")
                    })?;
                }
            }
        }
        for page in 0..PAGES {
            range(process::MAP + page, &format!("page {page}, a designator and 1"), ENTRIES as u32)?;
            let mapped = words[at + process::MAP + page];
            must(mapped == 0 || designator(mapped as usize - 1) != 0, || {
                let what = format!("and designator {} is empty", mapped - 1);
                fault(format!("process {slot}, page {page}"), at + process::MAP + page, mapped, what)
            })?;
        }
        Ok(())
    }

    /// A word that is a seid of this kind; gives the cell of its slot, or the subtype's. Where a file's is wanted, which is at descriptors,
    /// a subtype's would do.
    fn formed(&self, kind: Kind, at: usize, place: impl Fn() -> String) -> Result<usize, String> {
        let word = self.shape.words[at];
        let seid = Seid::from(word);
        must(seid.kind() == Some(kind), || {
            let wanted = if kind == Kind::File { "file or subtype".to_string() } else { kind.to_string() };
            fault(place(), at, word, format!("not the seid of a {wanted}"))
        })?;
        let count = self.shape.count(kind);
        must((seid.slot() as usize) < count, || {
            let many = if kind == Kind::Subtype { "subtypes".to_string() } else { format!("{kind} slots") };
            fault(place(), at, seid, format!("and there are {count} {many}"))
        })?;
        must(seid.serial() != 0, || fault(place(), at, seid, "and uses count from 1"))?;
        must(kind != Kind::Subtype || seid.serial() == 1, || fault(place(), at, seid, "and a subtype's serial is 1"))?;
        Ok(self.shape.cell_of(kind, seid.slot() as usize))
    }

    /// A seid that a process of a cell may hold; gives the cell that it comes from.
    fn seid(&self, kind: Kind, cell: usize, at: usize, place: impl Fn() -> String) -> Result<usize, String> {
        let from = self.formed(kind, at, &place)?;
        let seid = Seid::from(self.shape.words[at]);
        if kind != Kind::Subtype {
            let serial = self.shape.words[self.shape.at(kind, seid.slot() as usize) + record::SERIAL];
            must(seid.serial() <= serial, || fault(place(), at, seid, format!("and its slot is at use {serial}")))?;
        }
        must(self.shape.level(from).flows_to(self.shape.level(cell)), || {
            fault(place(), at, seid, format!("which is of cell {from}, and that does not flow to cell {cell}"))
        })?;
        Ok(from)
    }

    /// A descriptor or a designator: a seid and how it is held. A descriptor may hold a subtype in a file's place.
    fn entry(&mut self, kind: Kind, process: usize, cell: usize, number: usize, at: usize) -> Looked {
        let words = self.shape.words;
        let (held, used) = (words[at], words[at + 1]);
        let (name, modes) = if kind == Kind::File { ("descriptor", "modes") } else { ("designator", "access") };
        let place = || format!("process {process}, {name} {number}");
        if held == 0 {
            return within(words, at + 1, 0, 0, || format!("{}, {modes} of an empty one", place()));
        }
        let seid = Seid::from(held);
        let subtype = kind == Kind::File && seid.kind() == Some(Kind::Subtype);
        let from = self.seid(if subtype { Kind::Subtype } else { kind }, cell, at, place)?;
        let own = from == cell;
        if own && !subtype {
            let object = self.shape.at(kind, seid.slot() as usize);
            let (live, serial) = (words[object + record::LIVE], words[object + record::SERIAL]);
            must(live == 1, || fault(place(), at, seid, "which is of its own cell and not live"))?;
            must(serial == seid.serial(), || {
                fault(place(), at, seid, format!("which is of its own cell, and its slot is at use {serial}"))
            })?;
            self.held[kind as usize][seid.slot() as usize] += 1;
        }
        let (valid, writes) = match kind {
            Kind::File => (Modes::of(used).is_some(), used & Modes::Write.number() != 0),
            _ => (Access::of(used).is_some(), used & Access::Write.number() != 0),
        };
        must(valid, || fault(format!("{}, {modes}", place()), at + 1, used, format!("no valid {modes}")))?;
        must(own || !writes, || {
            let what = format!("to write, and {seid} is of cell {from}, not {cell}");
            fault(format!("{}, {modes}", place()), at + 1, used, what)
        })
    }
}

/// The trial: on well-formed tables, on every named damage and on as many random ones, words are found exactly where the library refuses.
///
/// ```
/// use monitor::{Cell, Hall, Level, explain, layout, well_formed};
/// use trial::{Rng, damage, tables};
///
/// let mut rng = Rng::for_trial("explain_table", 23);
/// let named = damage::named();
/// let mut times = vec![0; named.len()];
/// let [mut well, mut random] = [0; 2];
/// let mut agree = |world: &tables::World, name: &str| {
///     let told = explain::table(&world.table, world.store.len());
///     let good = well_formed(&world.table, world.store.len());
///     assert_eq!(told.is_none(), good, "{name}: {told:?}");
///     good
/// };
/// while times.contains(&0) || well < 200 {
///     let limits = tables::limits(&mut rng);
///     let start = tables::well_formed(&mut rng, limits);
///     let shape = start.shape();
///     assert!(agree(&start, "well formed"));
///     well += 1;
///     for (damage, times) in named.iter().zip(&mut times).filter(|(_, times)| **times < 8) {
///         let mut world = start.clone();
///         if (damage.apply)(&mut rng, &mut world, &shape).is_some() {
///             assert!(!agree(&world, &damage.name));
///             *times += 1;
///         }
///     }
///     for _ in 0..50 {
///         let mut world = start.clone();
///         damage::random(&mut rng, &mut world, &shape);
///         random += usize::from(!agree(&world, "at random"));
///     }
/// }
/// // A table that is cut anywhere.
/// let mut world = tables::well_formed(&mut rng, tables::SMALL);
/// while world.table.pop().is_some() {
///     assert!(!agree(&world, "cut"));
/// }
/// // One that is right in all but its number of cells.
/// for cells in 16..=17 {
///     let cell = |at| Cell { level: Level::new(0, 0, at as u32), processes: 1, ..Cell::default() };
///     let mut table = Hall { blocks: 1, cells: (0..cells).map(cell).collect(), ..Hall::default() }.table();
///     table.resize(layout::table_words(cells, cells, 0, 0, 0), 0);
///     assert_eq!(agree(&tables::World { table, store: Vec::new() }, "cells"), cells == 16);
/// }
/// println!("{well} well formed, {} named damages, {random} random ones", named.len());
/// assert!(random > 5_000);
/// ```
#[cfg(doctest)]
struct Trial;
