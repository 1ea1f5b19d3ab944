//! The sizes, places and limits of `monitor::layout` are the library's: tables are set up and used, and looked at.

use monitor::layout::{self, *};
use monitor::{Bits, Cell, Code, Error, Hall, Kind, Level, Seid, Subtype, setup};

const FILL: u32 = 0xdead_beef;

fn cell(security: u8, processes: u32, segments: u32, files: u32) -> Cell {
    Cell { level: Level::new(security, 0, 0), processes, segments, files, ..Cell::default() }
}

/// Whether set-up takes a hall with a table and a store of these lengths.
fn taken(hall: &Hall, words: usize, bytes: usize) -> bool {
    let mut table = hall.table();
    table.resize(words, 0);
    setup(&mut table, bytes).is_ok()
}

#[test]
fn lengths() {
    for (cells, processes, segments, files, blocks, subtypes) in [
        (1, 1, 0, 0, 1, 0),
        (1, 2, 0, 0, 1, 0),
        (1, 1, 1, 0, 1, 0),
        (1, 1, 0, 1, 1, 0),
        (1, 1, 0, 1, 2, 0),
        (1, 1, 0, 0, 1, 1),
        (3, 9, 5, 7, 4, 11),
    ] {
        let mut hall = Hall {
            blocks,
            cells: (1..cells).map(|security| cell(security, 1, 0, 0)).collect(),
            subtypes: vec![Subtype::default(); subtypes],
            ..Hall::default()
        };
        hall.cells.push(cell(0, processes - hall.cells.len() as u32, segments, files));
        let words = table_words(cells.into(), processes as usize, segments as usize, files as usize, subtypes);
        let bytes = store_bytes(files as usize, blocks as usize);
        assert_eq!((hall.table().len(), hall.store().len()), (words, bytes));
        assert!(taken(&hall, words, bytes), "{hall:?}");
        assert!(!taken(&hall, words + 1, bytes) && !taken(&hall, words - 1, bytes));
        assert!(!taken(&hall, words, bytes + 1) && (bytes == 0 || !taken(&hall, words, bytes - 1)));
    }
}

#[test]
fn limits() {
    let one = |processes: usize, segments: usize, files: usize, blocks: usize| {
        let cells = vec![cell(0, processes as u32, segments as u32, files as u32)];
        let hall = Hall { blocks: blocks as u32, cells, ..Hall::default() };
        taken(&hall, table_words(1, processes, segments, files, 0), store_bytes(files, blocks))
    };
    assert!(one(MAX_SLOTS, MAX_SLOTS, MAX_SLOTS, MAX_BLOCKS));
    assert!(!one(MAX_SLOTS + 1, 0, 0, 1) && !one(0, 0, 0, 1));
    assert!(!one(1, MAX_SLOTS + 1, 0, 1) && !one(1, 0, MAX_SLOTS + 1, 1));
    assert!(!one(1, 0, 1, MAX_BLOCKS + 1) && !one(1, 0, 1, 0));
    let cells = |count: usize| {
        let level = |at: usize| Level::new(0, 0, at as u32);
        let cells = (0..count).map(|at| Cell { level: level(at), processes: 1, ..Cell::default() }).collect();
        taken(&Hall { blocks: 1, cells, ..Hall::default() }, table_words(count, count, 0, 0, 0), 0)
    };
    assert!(cells(MAX_CELLS) && !cells(MAX_CELLS + 1) && !cells(0));
    let guard = |cell_of_two: u32| {
        let cells = vec![cell(0, 1, 0, 0), cell(1, 1, 0, 0)];
        taken(&Hall { blocks: 1, cells, guard: Some(cell_of_two), ..Hall::default() }, table_words(2, 2, 0, 0, 0), 0)
    };
    assert!(guard(0) && guard(1) && !guard(2) && !guard(u32::MAX));
    let subtypes = |cells_of: &[u32], bits: u16| {
        let cells = vec![cell(0, 1, 0, 0), cell(1, 1, 0, 0)];
        let subtype = |&cell| Subtype { cell, owner: u16::MAX, group: u16::MAX, bits: Bits(bits) };
        let subtypes: Vec<Subtype> = cells_of.iter().map(subtype).collect();
        let words = table_words(2, 2, 0, 0, subtypes.len());
        taken(&Hall { blocks: 1, cells, subtypes, ..Hall::default() }, words, 0)
    };
    assert!(subtypes(&[1; MAX_SUBTYPES], 0o777) && !subtypes(&[1; MAX_SUBTYPES + 1], 0o777));
    assert!(subtypes(&[0, 0, 1], 0) && !subtypes(&[0, 1, 0], 0) && !subtypes(&[2], 0) && !subtypes(&[0], 0o1000));
}

/// A hall that is too large is refused, and takes no more memory than the largest.
#[test]
fn too_large() {
    let hall = Hall {
        blocks: u32::MAX,
        cells: vec![cell(0, u32::MAX, u32::MAX, u32::MAX); 3],
        guard: Some(u32::MAX),
        subtypes: vec![Subtype::default(); 1000],
    };
    assert!(hall.table().len() <= table_words(3, MAX_SLOTS, MAX_SLOTS, MAX_SLOTS, MAX_SUBTYPES));
    assert_eq!(hall.store().len(), store_bytes(MAX_SLOTS, MAX_BLOCKS));
    let (mut table, store) = (hall.table(), hall.store());
    assert_eq!(setup(&mut table, store.len()), Err(Error::XbParam));
}

/// Two cells, the lower first; three slots of each kind in each.
struct Look {
    table: Vec<u32>,
    store: Vec<u8>,
}

impl Look {
    fn call(&mut self, caller: u32, code: Code, arguments: [u32; 3], buffer: &mut [u8]) -> (u32, u32) {
        monitor::call(&mut self.table, &mut self.store, caller, code.number(), arguments, buffer)
            .result()
            .unwrap_or_else(|error| panic!("{code} {arguments:?}: {error}"))
    }

    fn record(&self, kind: Kind, slot: usize) -> &[u32] {
        let counts = [header::PROCESSES, header::SEGMENTS, header::FILES].map(|word| self.table[word] as usize);
        let [cells, subtypes] = [header::CELLS, header::SUBTYPES].map(|word| self.table[word] as usize);
        let (at, words) = match kind {
            Kind::Process => (table_words(cells, slot, 0, 0, subtypes), PROCESS_WORDS),
            Kind::Segment => (table_words(cells, counts[0], slot, 0, subtypes), SEGMENT_WORDS),
            Kind::File => (table_words(cells, counts[0], counts[1], slot, subtypes), FILE_WORDS),
            Kind::Subtype => (configuration_words(cells, slot), SUBTYPE_WORDS),
        };
        &self.table[at..at + words]
    }
}

#[test]
fn places() {
    let hall = Hall {
        blocks: 2,
        cells: vec![
            Cell { owner: 7, group: 8, ..cell(1, 3, 3, 3) },
            Cell { level: Level::new(3, 0, 0xf0), processes: 3, segments: 3, files: 3, owner: 9, group: 10 },
        ],
        guard: Some(0),
        subtypes: vec![
            Subtype { cell: 0, owner: 7, group: 99, bits: Bits(0o600) },
            Subtype { cell: 1, owner: 11, group: 12, bits: Bits(0o644) },
        ],
    };
    let mut look = Look { table: hall.table(), store: hall.store() };
    let records = configuration_words(2, 2);
    look.table[records..].fill(FILL);
    setup(&mut look.table, look.store.len()).unwrap();

    // What set-up read: had a word stood elsewhere, it would have been refused, or the records would stand elsewhere.
    assert_eq!(look.table[header::CELLS], 2);
    assert_eq!([header::PROCESSES, header::SEGMENTS, header::FILES].map(|word| look.table[word]), [6; 3]);
    assert_eq!([header::BLOCKS, header::GUARD, header::SUBTYPES].map(|word| look.table[word]), [2, 1, 2]);
    let upper = look.table[HEADER_WORDS + CELL_WORDS..][..CELL_WORDS].to_vec();
    let second = look.record(Kind::Subtype, 1);
    assert_eq!(
        [subtype::CELL, subtype::OWNER, subtype::GROUP, subtype::BITS].map(|word| second[word]),
        [1, 11, 12, 0o644]
    );
    assert_eq!(
        [layout::cell::SECURITY, layout::cell::INTEGRITY, layout::cell::COMPARTMENTS].map(|w| upper[w]),
        [3, 0, 0xf0]
    );
    assert_eq!([layout::cell::PROCESSES, layout::cell::SEGMENTS, layout::cell::FILES].map(|w| upper[w]), [3; 3]);
    let status = |look: &mut Look, caller| {
        let mut bytes = [0; STATUS_BYTES];
        look.call(caller, Code::Status, [0; 3], &mut bytes);
        monitor::Status::from_bytes(bytes).expect("a process")
    };
    let first = hall.first_process(1);
    let told = status(&mut look, first);
    assert_eq!((told.kind, told.cell, told.level), (Kind::Process, 1, hall.cells[1].level));
    assert_eq!((told.bits, look.record(Kind::Process, first as usize)[process::BITS]), (Bits::FIRST, 0o666));
    assert_eq!([told.owner, told.group].map(u32::from), [upper[layout::cell::OWNER], upper[layout::cell::GROUP]]);

    // Processes.
    let child = look.call(0, Code::Spawn, [7, 8, 0o640], &mut []).0;
    assert_eq!(child, Seid::new(Kind::Process, 1, 1).into());
    let head = |look: &Look, kind, slot| {
        [record::LIVE, record::SERIAL, record::OWNER, record::GROUP].map(|word| look.record(kind, slot)[word])
    };
    assert_eq!(head(&look, Kind::Process, 1), [1, 1, 7, 8]);
    assert_eq!(look.record(Kind::Process, 1)[process::PARENT], Seid::new(Kind::Process, 0, 1).into());
    assert_eq!(look.record(Kind::Process, 1)[process::BITS], 0o640);
    for text in [b"the first...", b"the second.."] {
        look.call(0, Code::Post, [child, 0, 0], &mut text.to_vec());
    }
    let posted = look.record(Kind::Process, 1);
    assert_eq!(posted[process::QUEUED], 2);
    let second = process::MESSAGES + MESSAGE_WORDS;
    assert_eq!(posted[second], Seid::new(Kind::Process, 0, 1).into());
    assert_eq!(posted[second + 1], u32::from_be_bytes(*b"the "));
    assert_eq!(posted.len(), process::MAP + PAGES);

    // Segments and files, and how they are held.
    let segment = look.call(0, Code::BuildSegment, [1024, 0o640, 1], &mut []).0;
    let file = look.call(0, Code::CreateFile, [0o604, 3, 0], &mut []).0;
    let again = look.call(0, Code::Open, [file, 1, 0], &mut []).0;
    look.call(0, Code::Link, [file, 0, 0], &mut []);
    look.call(0, Code::WriteBlock, [0, 1, 0], &mut [5; BLOCK_BYTES]);
    assert_eq!(head(&look, Kind::Segment, 0), [1, 1, 7, 8]);
    assert_eq!(head(&look, Kind::File, 0), [1, 1, 7, 8]);
    let words = look.record(Kind::Segment, 0);
    assert_eq!(
        [segment::BITS, segment::SHARABLE, segment::SIZE, segment::REFERENCES].map(|w| words[w]),
        [0o640, 1, 1024, 1]
    );
    let words = look.record(Kind::File, 0);
    assert_eq!([file::BITS, file::LINKS, file::SIZE, file::OPENS].map(|w| words[w]), [0o604, 1, 2, 2]);
    assert_eq!((words[file::SUBTYPE], words.len()), (0, file::SUBTYPE + 1));
    let holder = look.record(Kind::Process, 0);
    assert_eq!(holder[process::DESIGNATORS..][..2], [segment, 384]);
    assert_eq!(holder[process::DESCRIPTORS + ENTRY_WORDS * again as usize..][..2], [file, 1]);
    assert_eq!(look.store[BLOCK_BYTES..2 * BLOCK_BYTES], [5; BLOCK_BYTES]);

    // A file of a subtype, by the bits that set-up read: the owner's alone let it be opened.
    let opened = Seid::subtype(0).into();
    let held = look.call(0, Code::Open, [opened, 3, 0], &mut []).0;
    assert_eq!(look.record(Kind::Process, 0)[process::DESCRIPTORS + ENTRY_WORDS * held as usize..][..2], [opened, 3]);
    let subtyped = look.call(0, Code::CreateFile, [0o600, 3, held + 1], &mut []);
    assert_eq!(look.record(Kind::File, 1)[file::SUBTYPE], opened);
    look.call(0, Code::Open, [subtyped.0, 1, held + 1], &mut []);

    // A copy in the other cell, by the guard word that set-up read.
    let copy = look.call(0, Code::Regrade, [0, 1, 0o640], &mut [1, 2, 3, 4]).0;
    assert_eq!(copy, Seid::new(Kind::File, 3, 1).into());
    assert_eq!(head(&look, Kind::File, 3), [1, 1, 0x0102, 0x0304]);
    let words = look.record(Kind::File, 3);
    assert_eq!([file::BITS, file::LINKS, file::SIZE, file::OPENS].map(|w| words[w]), [0o640, 1, 2, 0]);
    assert_eq!(look.store[7 * BLOCK_BYTES..8 * BLOCK_BYTES], [5; BLOCK_BYTES]);

    // The map: the segment of 1,024 bytes takes one page; one byte more than a page would take two.
    look.call(0, Code::Remap, [0, PAGES as u32 - 1, ENTRIES as u32], &mut []);
    let map = |look: &Look| look.record(Kind::Process, 0)[process::MAP..].to_vec();
    assert_eq!(map(&look), [[0; PAGES - 1].as_slice(), &[1]].concat());
    let two = look.call(0, Code::BuildSegment, [PAGE_BYTES as u32 + 512, 0, 0], &mut []).1;
    look.call(0, Code::Remap, [two, 0, 0], &mut []);
    assert_eq!(map(&look), [[two + 1; 2].as_slice(), &[0; PAGES - 2]].concat());

    // As many entries as there are, and as many messages.
    for place in again + 4..ENTRIES as u32 {
        assert_eq!(look.call(0, Code::Open, [file, 1, 0], &mut []).0, place);
    }
    for _ in 2..QUEUE {
        look.call(0, Code::Post, [child, 0, 0], &mut [0; TEXT_BYTES]);
    }
    let mut refused = |code: Code, arguments, buffer: &mut [u8]| {
        monitor::call(&mut look.table, &mut look.store, 0, code.number(), arguments, buffer).result()
    };
    assert_eq!(refused(Code::Open, [file, 1, 0], &mut []), Err(Error::XodSpace));
    assert_eq!(refused(Code::Post, [child, 0, 0], &mut [0; TEXT_BYTES]), Err(Error::XpostEh));

    // The lengths of buffers: any other is XbSz, and for a call that has none any length will do.
    for &code in Code::ALL {
        for length in 0..=BLOCK_BYTES + 1 {
            let result = refused(code, [u32::MAX; 3], &mut vec![0; length]);
            let wrong_length = code.buffer_bytes().is_some_and(|asked| asked != length);
            assert_eq!(result == Err(Error::XbSz), wrong_length, "{code} with {length} bytes");
        }
    }
    assert_eq!(MESSAGE_BYTES, 4 * MESSAGE_WORDS);
}
