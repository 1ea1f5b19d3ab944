//! Calls and answers in words: each call once done and once refused, and any numbers at all.

use monitor::layout::{configuration_words, file, header, process, store_bytes, subtype, table_words};
use monitor::{Answer, Bits, Cell, Code, Hall, Level, Subtype, explain};
use trial::Rng;

const FILE: u32 = 129 << 24 | 1;
const SEGMENT: u32 = 5 << 24 | 2 << 16 | 9;
const PROCESS: u32 = 4 << 24 | 3 << 16 | 7;
const SUBTYPE: u32 = 6 << 24 | 2 << 16 | 1;
const STATUS: [u8; 16] = [129, 1, 0, 10, 0, 20, 1, 0xa4, 3, 0, 0, 0, 0, 0, 0, 0];
const MESSAGE: [u8; 16] = *b"\x04\x03\x00\x07all is quiet";

/// Code, arguments, results, buffer; what was asked, what came back.
type Made = (Code, [u32; 3], [u32; 2], &'static [u8], &'static str, &'static str);

const MADE: [Made; 21] = [
    (
        Code::Spawn,
        [10, 20, 0o620],
        [PROCESS, 0],
        &[],
        "spawn a process for owner 10, group 20, rw--w----",
        "process 3 (use 7)",
    ),
    (Code::ReleaseProcess, [0, 0, 0], [0, 0], &[], "release itself", "done"),
    (
        Code::BuildSegment,
        [1024, 0o640, 1],
        [SEGMENT, 4],
        &[],
        "build a segment of 1024 bytes, rw-r-----, sharable",
        "segment 2 (use 9), designator 4",
    ),
    (Code::Rendezvous, [SEGMENT, 256, 0], [3, 0], &[], "take up segment 2 (use 9) to read", "designator 3"),
    (Code::ReleaseSegment, [3, 0, 0], [0, 0], &[], "give up designator 3", "done"),
    (Code::SetAccess, [3, 0, 0], [0, 0], &[], "hold designator 3 to do nothing", "done"),
    (
        Code::CreateFile,
        [0o644, 3, 0],
        [FILE, 2],
        &[],
        "create a file, rw-r--r--, to read and write",
        "file 0 (use 1), descriptor 2",
    ),
    (Code::Open, [FILE, 15, 0], [2, 0], &[], "open file 0 (use 1) to read and write, nobody else", "descriptor 2"),
    (Code::Close, [2, 0, 0], [0, 0], &[], "close descriptor 2", "done"),
    (Code::Link, [FILE, 0, 0], [0, 0], &[], "link file 0 (use 1)", "done"),
    (Code::Unlink, [FILE, 0, 0], [0, 0], &[], "unlink file 0 (use 1)", "done"),
    (Code::SetBits, [FILE, 0o444, 0], [0, 0], &[], "set r--r--r-- on file 0 (use 1)", "done"),
    (Code::ReadBlock, [2, 1, 0], [0, 0], &[b'*'; 512], "read block 1 by descriptor 2", "512 bytes, from \"********\""),
    (Code::WriteBlock, [2, 1, 0], [0, 0], &[b'*'; 512], "write block 1 by descriptor 2", "done"),
    (Code::Post, [PROCESS, 0, 0], [0, 0], b"all is quiet", "post to process 3 (use 7)", "done"),
    (Code::Receive, [0; 3], [0, 0], &MESSAGE, "receive a message", "\"all is quiet\" from process 3 (use 7)"),
    (
        Code::Status,
        [FILE, 0, 0],
        [0, 0],
        &STATUS,
        "ask about file 0 (use 1)",
        "file of cell 1, owner 10, group 20, rw-r--r--",
    ),
    (Code::Access, [3, 0, 0], [128, 0], &[], "ask what designator 3 is held to do", "to write"),
    (Code::Remap, [3, 5, 16], [0, 0], &[], "map designator 3 from page 5 on", "done"),
    (Code::PageAccess, [5, 0, 0], [384, 0], &[], "ask what page 5 is held to do", "to read and write"),
    (
        Code::Regrade,
        [2, 0, 0o640],
        [FILE, 0],
        &[0, 10, 0, 20],
        "copy the file of descriptor 2 into cell 0, rw-r-----",
        "file 0 (use 1)",
    ),
];

#[test]
fn each_call() {
    for ((code, arguments, [first, second], buffer, asked, came_back), listed) in MADE.into_iter().zip(Code::ALL) {
        assert_eq!(code, *listed);
        let answer = Answer { error: 0, first, second };
        let mut call = explain::Call { caller: 5, code: code.number(), arguments, answer, buffer };
        assert_eq!((call.asked().to_string().as_str(), call.came_back().to_string().as_str()), (asked, came_back));
        assert_eq!(call.to_string(), format!("process 5: {asked}: {came_back}"));
        call.answer = Answer { error: 26, first: 0, second: 0 };
        assert!(call.refused());
        assert_eq!(call.to_string(), format!("process 5: {asked}: refused, XnoSpace: no free slot in the cell"));
    }
    assert_eq!(MADE.len(), Code::ALL.len());
}

#[test]
fn odd_numbers() {
    for (code, arguments, asked) in [
        (99, [1, 2, 3], "call 99 (1, 2, 3)"),
        (Code::Open.number(), [16777217, 9, 0], "open an object of class 1 (word 16777217) to modes 9"),
        (Code::Open.number(), [FILE, 1, 3], "open file 0 (use 1) to read, with the subtype of descriptor 2"),
        (Code::Open.number(), [SUBTYPE, 3, 9], "open subtype 2 to read and write"),
        (Code::Open.number(), [SUBTYPE + 1, 1, 0], "open subtype 2 (use 2) to read"),
        (
            Code::CreateFile.number(),
            [0o600, 3, u32::MAX],
            "create a file, rw-------, to read and write, with the subtype of descriptor 4294967294",
        ),
        (Code::Rendezvous.number(), [SEGMENT, 5, 0], "take up segment 2 (use 9) to access 5"),
        (Code::BuildSegment.number(), [0, 512, 2], "build a segment of 0 bytes, bits 512, sharable 2"),
        (Code::SetBits.number(), [FILE, 65536, 0], "set bits 65536 on file 0 (use 1)"),
        (Code::Remap.number(), [16, 9, 16], "map nothing"),
        (Code::Remap.number(), [16, 9, 2], "take designator 2 out of the map"),
        (Code::Remap.number(), [2, 0, 2], "map designator 2 from page 0 on, with designator 2 out"),
    ] {
        assert_eq!(explain::asked(code, arguments).to_string(), asked);
    }
    // Whatever the numbers and however short the buffer, there are words for it.
    let mut rng = Rng::for_trial("odd_numbers", 17);
    for _ in 0..20_000 {
        let mut buffer = vec![0; rng.below(20)];
        rng.bytes(&mut buffer);
        let answer = Answer { error: rng.pick(&[0, 0, 29, 36, 37, u32::MAX]), first: rng.word(), second: rng.word() };
        let code = rng.between(0, 25);
        let arguments = [rng.word(), rng.word(), rng.word()];
        let call = explain::Call { caller: rng.word(), code, arguments, answer, buffer: &buffer };
        assert!(!call.to_string().is_empty());
    }
}

/// What is told of a table with subtypes, by each word that can be wrong.
#[test]
fn why_a_table_with_subtypes_is_refused() {
    let cell = |security| Cell { level: Level::new(security, 0, 0), processes: 1, files: 1, ..Cell::default() };
    let of_cell = |cell| Subtype { cell, owner: 10, group: 20, bits: Bits(0o600) };
    let subtypes = [0, 1, 1].map(of_cell).to_vec();
    let hall = Hall { blocks: 1, cells: vec![cell(1), cell(3)], subtypes, ..Hall::default() };
    let mut table = hall.table();
    monitor::setup(&mut table, hall.store().len()).expect("the hall is good");
    let at = |index: usize, word: usize| configuration_words(2, index) + word;
    let descriptor = |slot: usize| table_words(2, slot, 0, 0, 3) + process::DESCRIPTORS;
    let file = |slot: usize, word: usize| table_words(2, 2, 0, slot, 3) + word;
    let live = [(file(0, 0), 1), (file(0, 1), 1), (file(0, file::LINKS), 1)];
    let one = |at: usize, word: u32| vec![(at, word)];
    let cases = [
        (one(header::SUBTYPES, 17), "header, subtypes (word 6): 17, not 0 to 16"),
        (one(header::SUBTYPES + 1, 1), "header, a zero (word 7): 1, not 0"),
        (one(header::SUBTYPES, 2), "the table has 278 words, and its header asks for 274"),
        (one(at(2, subtype::CELL), 2), "subtype 2, cell (word 32): 2, not 1"),
        (one(at(2, subtype::CELL), 0), "subtype 2, cell (word 32): 0, not 1"),
        (one(at(0, subtype::CELL), 2), "subtype 0, cell (word 24): 2, not 0 to 1"),
        (one(at(1, subtype::OWNER), 65536), "subtype 1, owner (word 29): 65536, not 0 to 65535"),
        (one(at(1, subtype::GROUP), 65536), "subtype 1, group (word 30): 65536, not 0 to 65535"),
        (one(at(1, subtype::BITS), 512), "subtype 1, bits (word 31): 512, not 0 to 511"),
        (one(descriptor(0), SUBTYPE + 65536), "process 0, descriptor 0 (word 44): subtype 3, and there are 3 subtypes"),
        (
            one(descriptor(0), SUBTYPE + 1),
            "process 0, descriptor 0 (word 44): subtype 2 (use 2), and a subtype's serial is 1",
        ),
        (
            one(descriptor(0), SUBTYPE),
            "process 0, descriptor 0 (word 44): subtype 2, which is of cell 1, and that does not flow to cell 0",
        ),
        (one(descriptor(0), PROCESS), "process 0, descriptor 0 (word 44): 67305479, not the seid of a file or subtype"),
        (one(descriptor(1), SUBTYPE), "process 1, descriptor 0, modes (word 157): 0, no valid modes"),
        (
            vec![(descriptor(1), SUBTYPE & !0xff_0000), (descriptor(1) + 1, 3)],
            "process 1, descriptor 0, modes (word 157): 3, to write, and subtype 0 is of cell 0, not 1",
        ),
        (
            one(file(0, file::SUBTYPE), SUBTYPE),
            "file 0, its word 8 (word 268): 100794369, though it is not live: not 0",
        ),
        (
            [&live[..], &[(file(0, file::SUBTYPE), FILE)]].concat(),
            "file 0, subtype (word 268): 2164260865, not the seid of a subtype",
        ),
        (
            [&live[..], &[(file(0, file::SUBTYPE), SUBTYPE)]].concat(),
            "file 0, subtype (word 268): subtype 2, which is of cell 1, and the file of cell 0",
        ),
    ];
    for (changes, told) in cases {
        let mut table = table.clone();
        for (at, word) in changes {
            table[at] = word;
        }
        assert_eq!(explain::table(&table, store_bytes(2, 1)).as_deref(), Some(told));
    }
    assert_eq!(explain::table(&table, store_bytes(2, 1)), None);
    table.truncate(30);
    let told = explain::table(&table, store_bytes(2, 1));
    assert_eq!(told.unwrap(), "the table has 30 words, and its header, 2 cells and 3 subtypes have 36");
}
