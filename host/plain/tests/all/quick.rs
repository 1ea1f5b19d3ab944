//! The working slice in literal words, and quick trays.

use crate::common::*;
use plain::Error::*;
use plain::{Record, quick_tray, tray, work, work_length};

fn slice(hall: &Hall) -> Vec<u32> {
    let mut words = vec![7; work_length(&hall.table, hall.store.len())];
    assert_eq!(work(&hall.table, hall.store.len(), &mut words), XOK);
    words
}

fn night(calls: &[(u32, u32, [u32; 3])]) -> Vec<Record> {
    calls.iter().map(|&(caller, code, [a, b, c])| Record { caller, code, a, b, c, ..Record::default() }).collect()
}

/// Runs a quick tray, whose calls must all succeed, and compares it with a tray; the slice that it leaves.
fn run(hall: &mut Hall, calls: &[(u32, u32, [u32; 3])]) -> Vec<u32> {
    let (mut words, mut other) = (slice(hall), hall.clone());
    let (mut quick, mut slow) = (night(calls), night(calls));
    assert_eq!(quick_tray(&mut hall.table, &mut hall.store, &mut quick, &mut [], &mut words), XOK);
    assert_eq!(tray(&mut other.table, &mut other.store, &mut slow, &mut []), XOK);
    assert!(quick == slow && *hall == other && quick.iter().all(|record| record.error == 0));
    assert_eq!(words, slice(hall));
    words
}

/// After set-up: a cell with 3 processes, 1 segment and 2 files, and one with 1 process, no segment and 1 file.
fn two_cells() -> Hall {
    Hall::new(&[[1, 0, 0, 3, 1, 2, 0, 0], [3, 0, 0, 1, 0, 1, 0, 0]], 1)
}

#[test]
fn after_set_up() {
    let words = [
        [2, 2, 1, 0].as_slice(), // processes 1 and 2, and a zero: process 0 is live
        &[0, 0],                 // no process of the other cell
        &[1, 0],                 // segment 0: its serial is 0 too
        &[0],                    // the other cell has no segment slots
        &[2, 1, 0],              // files 0 and 1
        &[1, 2],                 // file 2
        &[0, 0, 0, 0, 0, 0],     // three processes, two files each
        &[0],                    // one process, one file
    ];
    assert_eq!(slice(&two_cells()), words.concat());
}

#[test]
fn serials_fall_and_worn_slots_are_not_listed() {
    let mut hall = Hall::new(&[[1, 0, 0, 1, 0, 6, 0, 0]], 1);
    for (index, serial) in [5, 65535, 65534, 0, 5, 255].into_iter().enumerate() {
        hall.file(index)[1] = serial;
    }
    let keys = [65534 * 256 + 2, 255 * 256 + 5, 5 * 256 + 4, 5 * 256, 3];
    assert_eq!(slice(&hall)[..10], [[0, 0, 0, 5].as_slice(), &keys, &[0]].concat());
    // The last is the next to be taken, and so on; the one of serial 65534 is then worn out.
    let [three, zero, four, five, two] = [file(3, 1), file(0, 6), file(4, 6), file(5, 256), file(2, 65535)];
    for seid in [three, zero, four, five, two] {
        assert_eq!(hall.done(0, CREATE, [0o600, 3, 0]).0, seid);
    }
    let words = run(&mut hall, &[(0, CLOSE, [4, 0, 0]), (0, CLOSE, [0, 0, 0])]);
    assert_eq!(words, [0, 0, 0, 1, 256 + 3, 0, 0, 0, 0, 0, 1 << 1, 0, 0, 0, 1 << 2, 1 << 3]);
}

#[test]
fn masks_are_of_descriptors_that_hold_the_file() {
    let mut hall = Hall::subtyped(&[[1, 0, 0, 2, 0, 2, 0, 0], [3, 0, 0, 1, 0, 1, 0, 0]], &[[0, 0, 0, 0o666]; 2], 1, 0);
    let masks = |words: &[u32]| words[words.len() - 5..].to_vec();
    let words = run(&mut hall, &[(0, SPAWN, [0, 0, 0]), (0, OPEN, [subtype(1), 3, 0]), (0, CREATE, [0o666, 3, 1])]);
    // Process 0 holds a subtype whose place is 1 at descriptor 0, and file 0 at descriptor 1.
    assert_eq!(masks(&words), [2, 0, 0, 0, 0]);
    // Neither does a higher process's open count.
    let opens = [(1, OPEN, [subtype(0), 1, 0]), (2, OPEN, [subtype(1), 1, 0]), (0, OPEN, [file(0, 1), 1, 1])];
    assert_eq!(masks(&run(&mut hall, &opens)), [6, 0, 0, 0, 0]);
    let create = [(1, CREATE, [0o666, 3, 0]), (2, OPEN, [file(1, 1), 1, 0]), (0, OPEN, [file(1, 1), 1, 0])];
    assert_eq!(masks(&run(&mut hall, &create)), [6, 8, 0, 2, 0]);
    assert_eq!(masks(&run(&mut hall, &[(2, CREATE, [0o600, 3, 0])])), [6, 8, 0, 2, 4]);
    // All that a released process held is gone, and so are its bits.
    let words = run(&mut hall, &[(0, RELEASE, [process(1, 1), 0, 0]), (0, CLOSE, [1, 0, 0])]);
    assert_eq!(masks(&words), [4, 8, 0, 0, 4]);
    assert_eq!(words[..3], [1, 256 + 1, 0]);
}

#[test]
fn refusals() {
    let mut hall = two_cells();
    let right = slice(&hall);
    let before = hall.clone();
    let mut refused = |words: &[u32], count: usize, bad: bool, due| {
        hall.table[0] = if bad { 3 } else { 2 };
        let (start, mut words, mut records) = (hall.clone(), words.to_vec(), vec![Record::default(); count]);
        let lent = (words.clone(), records.clone());
        assert_eq!(quick_tray(&mut hall.table, &mut hall.store, &mut records, &mut [], &mut words), due);
        assert!(hall == start && (words, records) == lent, "a refusal changed something");
    };
    for at in 0..right.len() {
        let mut other = right.clone();
        other[at] ^= 1;
        refused(&other, 1, false, XbTab);
        refused(&other, 1_025, false, XbParam);
    }
    refused(&right[1..], 1, false, XbTab);
    refused(&[right.clone(), vec![0]].concat(), 0, false, XbTab);
    refused(&right, 1_024, true, XbTab);
    refused(&right, 1_025, true, XbParam);
    assert_eq!(work_length(&hall.table, hall.store.len()), 0);
    for length in [0, right.len()] {
        assert_eq!(work(&hall.table, hall.store.len(), &mut vec![0; length]), XbTab);
    }
    for length in [0, right.len() - 1, right.len() + 1] {
        let mut words = vec![7; length];
        assert_eq!(work(&before.table, before.store.len(), &mut words), XbSz);
        assert_eq!(words, vec![7; length]);
    }
}
