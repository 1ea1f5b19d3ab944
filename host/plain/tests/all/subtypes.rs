//! The readings of CR 11, by their numbers: subtypes, and files that open only to who holds theirs.

use crate::common::*;
use plain::Error::*;
use plain::{Error, replay, setup};

/// Cells 0 and 1, security 1 and 3, owners 5 and 7, groups 6 and 8, three processes and three files each, B 2, cell 1 the guard's.
/// Subtypes 0 and 1 are of cell 0, 2 of cell 1; all may open 0 and 2, and the owner alone 1. Processes 0 and 3 are the first of their cells.
fn directory() -> Hall {
    let cells = [[1, 0, 0, 3, 0, 3, 5, 6], [3, 0, 0, 3, 0, 3, 7, 8]];
    Hall::subtyped(&cells, &[[0, 5, 6, 0o666], [0, 5, 6, 0o600], [1, 7, 8, 0o666]], 2, 2)
}

/// A second process of cell 0, in slot 1.
fn clerk(hall: &mut Hall) {
    hall.done(0, SPAWN, [5, 6, 0o666]);
}

const READ_ONLY: u32 = 1;
const WRITE_ONLY: u32 = 2;
const READ_WRITE: u32 = 3;

#[test]
fn r21_r26_the_configuration() {
    let cells = [[1, 0, 0, 1, 0, 1, 0, 0], [3, 0, 0, 1, 0, 1, 0, 0]];
    let most = [[1, 65535, 65535, 511]; 16];
    let judge = |subtypes: &[Subtype], good: bool| {
        let mut hall = Hall::unset_with(&cells, subtypes, 1);
        let before = hall.clone();
        assert_eq!(setup(&mut hall.table, hall.store.len()), if good { XOK } else { XbParam }, "{subtypes:?}");
        assert_eq!(hall.good(), good, "{subtypes:?}");
        let words = 8 + 16 + 4 * subtypes.len();
        assert_eq!(hall.table[..words], before.table[..words], "set-up keeps them");
        assert!(good || hall == before);
    };
    judge(&[], true);
    judge(&most, true);
    judge(&[most[0]; 17], false);
    judge(&[[0, 0, 0, 0], [0, 0, 0, 0], [1, 0, 0, 0]], true);
    judge(&[[1, 0, 0, 0], [0, 0, 0, 0]], false);
    for bad in [[2, 0, 0, 0], [u32::MAX, 0, 0, 0], [1, 65536, 0, 0], [1, 0, 65536, 0], [1, 0, 0, 512]] {
        judge(&[[0, 0, 0, 0], bad], false);
    }
    // Replay reads their number after the guard, and their words after the cells'.
    let bad = b"bad configuration\n".to_vec();
    let heading = b"n error first second\n".to_vec();
    let cell = [0, 0, 0, 1, 0, 1, 5, 6];
    let configured = |subtypes: &[[u8; 4]], rest: &[u8]| {
        replay(&[&[1, 1, 0, 1, 1, 0, subtypes.len() as u8], &cell[..], &subtypes.concat(), rest].concat())
    };
    assert_eq!(configured(&[], &[]), heading);
    assert_eq!(configured(&[[0, 5, 6, 127]; 16], &[]), heading);
    assert_eq!(configured(&[[0, 5, 6, 127]; 17], &[]), bad);
    assert_eq!(configured(&[[1, 5, 6, 127]], &[]), bad);
    let whole = [&[1, 1, 0, 1, 1, 0, 1], &cell[..], &[0, 5, 6, 127]].concat();
    for cut in 0..whole.len() {
        assert_eq!(replay(&whole[..cut]), bad);
    }
    // Bits 384: the owner opens it, 6 x 2^24 + 1 in four groups.
    let subtype = [&[1, 1, 0, 1, 1, 0, 1], &cell[..], &[0, 5, 6, 128, 3]].concat();
    let listing = replay(&[&subtype[..], &[0, 8, 129, 128, 128, 48, 3, 0, 0]].concat());
    assert_eq!(String::from_utf8(listing).unwrap(), "n error first second\n1 XOK 0 0\n");
}

#[test]
fn r22_open_and_close_of_a_subtype() {
    let mut hall = directory();
    let fresh = hall.clone();
    for modes in [0, 4, 9, 16] {
        assert_eq!(hall.error(0, OPEN, [subtype(3) + 7, modes, 0]), XbadModes);
    }
    for form in [subtype(3), subtype(255), subtype(2) - 1] {
        assert_eq!(hall.error(0, OPEN, [form, READ_ONLY, 0]), XnoObj);
    }
    // The level before the serial, the serial before the bits.
    assert_eq!(hall.error(0, OPEN, [subtype(2) + 1, READ_ONLY, 0]), XnoAcc);
    assert_eq!(hall.error(0, OPEN, [subtype(0) + 1, READ_ONLY, 0]), XnoObj);
    assert_eq!(hall.error(3, OPEN, [subtype(1) + 1, READ_ONLY, 0]), XnoObj);
    assert_eq!(hall.error(3, OPEN, [subtype(1), READ_ONLY, 0]), XdapViol);
    for modes in [WRITE_ONLY, READ_WRITE, 11, 15] {
        assert_eq!(hall.error(3, OPEN, [subtype(0), modes, 0]), XnoAcc, "writing in another cell");
    }
    assert_eq!(hall, fresh);
    // Its own c is ignored; it may be held twice; nothing is counted.
    assert_eq!(hall.done(0, OPEN, [subtype(0), READ_WRITE, 17]), (0, 0));
    assert_eq!(hall.done(0, OPEN, [subtype(0), READ_ONLY, u32::MAX]), (1, 0));
    assert_eq!(hall.done(3, OPEN, [subtype(0), READ_ONLY, 0]), (0, 0));
    assert_eq!(hall.process(0)[8..12], [subtype(0), READ_WRITE, subtype(0), READ_ONLY]);
    assert_eq!(hall.file(0), [0; 9]);
    // Opens clash in the own cell, and a higher reader neither blocks nor is blocked.
    clerk(&mut hall);
    assert_eq!(hall.error(1, OPEN, [subtype(0), 15, 0]), Xbusy);
    assert_eq!(hall.error(1, OPEN, [subtype(0), 11, 0]), Xbusy);
    assert_eq!(hall.done(1, OPEN, [subtype(0), READ_WRITE, 0]), (0, 0));
    for (caller, descriptor) in [(0, 0), (0, 1), (1, 0)] {
        hall.done(caller, CLOSE, [descriptor, 0, 0]);
    }
    assert_eq!(hall.done(0, OPEN, [subtype(0), 15, 0]), (0, 0));
    assert_eq!(hall.error(1, OPEN, [subtype(0), READ_ONLY, 0]), Xbusy);
    assert_eq!(hall.done(3, OPEN, [subtype(0), READ_ONLY, 0]), (1, 0));
    assert_eq!(hall.error(0, CLOSE, [1, 0, 0]), XbadOd);
    // No descriptor is left, and 19 comes before 25.
    for place in 1..16 {
        assert_eq!(hall.done(0, OPEN, [subtype(1), READ_ONLY, 0]), (place, 0));
    }
    assert_eq!(hall.error(0, OPEN, [subtype(1), READ_ONLY, 0]), XodSpace);
    assert_eq!(hall.error(0, OPEN, [subtype(1), 15, 0]), Xbusy);
}

/// Everywhere else class 6 is a class not taken.
#[test]
fn r22_a_class_not_taken() {
    let mut hall = directory();
    hall.done(0, OPEN, [subtype(0), READ_WRITE, 0]);
    assert_eq!(hall.error(0, RELEASE, [subtype(0), 0, 0]), XbPrSd);
    assert_eq!(hall.error(0, RENDEZVOUS, [subtype(0), 256, 0]), XbSgSd);
    assert_eq!(hall.error(0, LINK, [subtype(0), 0, 0]), XnoObj);
    assert_eq!(hall.error(0, UNLINK, [subtype(0), 0, 0]), XnoObj);
    assert_eq!(hall.error(0, SET_BITS, [subtype(0), 0, 0]), XnoObj);
    assert_eq!(hall.post(0, subtype(0), &[0; 12]), XbPrSd);
    assert_eq!(hall.status(0, subtype(0)), Err(XnoObj));
}

/// What a create by process 0 with a c is answered.
fn created(hall: &mut Hall, c: u32) -> Error {
    hall.error(0, CREATE, [0o666, READ_ONLY, c])
}

#[test]
fn r23_create() {
    let mut hall = directory();
    assert_eq!(hall.error(0, CREATE, [512, 0, 1]), XbParam);
    assert_eq!(hall.error(0, CREATE, [0, 0, 1]), XbadModes, "7 before 35");
    for c in [1, 16, 17, 18, u32::MAX] {
        assert_eq!(created(&mut hall, c), XbadStCap, "{c}");
    }
    assert_eq!(hall.done(0, CREATE, [0o666, READ_WRITE, 0]), (file(0, 1), 0));
    assert_eq!(hall.file(0)[8], 0);
    assert_eq!(created(&mut hall, 1), XbadStCap, "a file");
    // Held for reading alone, or for writing alone: whatever the new file's modes.
    for (place, modes) in [(1, READ_ONLY), (2, WRITE_ONLY)] {
        hall.done(0, OPEN, [subtype(0), modes, 0]);
        for file_modes in [READ_ONLY, WRITE_ONLY, READ_WRITE] {
            assert_eq!(hall.error(0, CREATE, [0o666, file_modes, place + 1]), XbadSubtypeMatch);
        }
    }
    hall.done(0, OPEN, [subtype(0), READ_WRITE, 0]);
    assert_eq!(hall.done(0, CREATE, [0, READ_ONLY, 4]), (file(1, 1), 4));
    assert_eq!(hall.file(1), [1, 1, 5, 6, 0, 0, 0, 1, subtype(0)]);
    // A subtype of another cell, which can be held for reading alone.
    hall.done(3, OPEN, [subtype(0), READ_ONLY, 0]);
    assert_eq!(hall.error(3, CREATE, [0, READ_ONLY, 1]), XbadSubtypeMatch);
    // 35 and 36 before 25, and 25 before 26.
    for _ in 5..16 {
        hall.done(0, OPEN, [subtype(0), READ_ONLY, 0]);
    }
    assert_eq!(created(&mut hall, 1), XbadStCap);
    assert_eq!(created(&mut hall, 2), XbadSubtypeMatch);
    assert_eq!(created(&mut hall, 4), XodSpace);
    hall.done(0, CLOSE, [15, 0, 0]);
    assert_eq!(created(&mut hall, 4), XOK);
    hall.done(0, CLOSE, [14, 0, 0]);
    assert_eq!(created(&mut hall, 4), XnoSpace);
    // A freed file has no subtype.
    hall.done(0, CLOSE, [4, 0, 0]);
    assert_eq!(hall.file(1), [0, 1, 0, 0, 0, 0, 0, 0, 0]);
}

#[test]
fn r23_r24_open_of_a_subtyped_file() {
    let mut hall = directory();
    clerk(&mut hall);
    hall.done(0, OPEN, [subtype(0), READ_WRITE, 0]);
    hall.done(0, OPEN, [subtype(1), READ_WRITE, 0]);
    let that = hall.done(0, CREATE, [0o666, READ_WRITE, 1]).0;
    let without = hall.done(0, CREATE, [0o666, READ_WRITE, 0]).0;
    let open = |hall: &mut Hall, caller: u32, modes: u32, c: u32| hall.error(caller, OPEN, [that, modes, c]);
    for (c, error) in [(0, XbadStCap), (3, XbadStCap), (16, XbadStCap), (17, XbadStCap), (2, XbadSubtypeMatch)] {
        assert_eq!(open(&mut hall, 0, READ_ONLY, c), error, "{c}");
    }
    assert_eq!(open(&mut hall, 0, 15, 0), XbadStCap, "35 before 19");
    assert_eq!(open(&mut hall, 0, 15, 2), XbadSubtypeMatch, "36 before 19");
    assert_eq!(open(&mut hall, 0, 15, 1), Xbusy);
    assert_eq!(open(&mut hall, 0, READ_WRITE, 1), XOK);
    // What is asked of the file must be held of the subtype; exclusive modes ask nothing; two descriptors do not add up.
    hall.done(1, OPEN, [subtype(0), READ_ONLY, 0]);
    hall.done(1, OPEN, [subtype(0), WRITE_ONLY, 0]);
    for (modes, c, error) in [
        (READ_ONLY, 1, XOK),
        (WRITE_ONLY, 1, XbadSubtypeMatch),
        (READ_WRITE, 1, XbadSubtypeMatch),
        (READ_ONLY, 2, XbadSubtypeMatch),
        (WRITE_ONLY, 2, XOK),
        (READ_WRITE, 2, XbadSubtypeMatch),
    ] {
        assert_eq!(open(&mut hall, 1, modes, c), error, "{modes} {c}");
    }
    // The bits come first; those of the subtype are not judged again.
    hall.done(0, SET_BITS, [that, 0, 0]);
    assert_eq!(open(&mut hall, 0, READ_ONLY, 0), XdapViol);
    hall.done(0, SET_BITS, [that, 0o666, 0]);
    let at = 8 + 16 + 3;
    hall.table[at] = 0;
    assert_eq!(open(&mut hall, 1, READ_ONLY, 1), XOK);
    // From a higher cell, by a descriptor that it holds there.
    assert_eq!(open(&mut hall, 3, READ_ONLY, 0), XbadStCap);
    hall.table[at] = 0o666;
    hall.done(3, OPEN, [subtype(0), READ_ONLY, 0]);
    assert_eq!(open(&mut hall, 3, READ_ONLY, 1), XOK);
    // On a file without a subtype c is ignored.
    for c in [0, 1, 3, 16, 17, u32::MAX] {
        assert_eq!(hall.error(0, OPEN, [without, READ_ONLY, c]), XOK, "{c}");
    }
    // Closing the subtype leaves its files open; only open asks for it.
    hall.done(0, CLOSE, [0, 0, 0]);
    assert_eq!(hall.write(0, 2, 0, 7), XOK);
    assert_eq!(hall.read(0, 2, 0), Ok([7; 512]));
    assert_eq!(open(&mut hall, 0, READ_ONLY, 1), XbadStCap);
    hall.done(0, LINK, [that, 0, 0]);
    assert_eq!(hall.status(0, that).unwrap()[0], 129);
}

#[test]
fn r24_exclusive_modes_ask_nothing() {
    let mut hall = directory();
    hall.done(0, OPEN, [subtype(0), READ_WRITE, 0]);
    let that = hall.done(0, CREATE, [0o600, READ_WRITE, 1]).0;
    hall.done(0, LINK, [that, 0, 0]);
    hall.done(0, CLOSE, [1, 0, 0]);
    assert_eq!(hall.done(0, OPEN, [that, 15, 1]), (1, 0));
}

#[test]
fn r25_block_calls_and_regrades() {
    let mut hall = directory();
    // A file in the slot that has the subtype's index, with its serial: it is not what a descriptor of the subtype holds.
    hall.done(3, CREATE, [0o666, READ_WRITE, 0]);
    hall.done(0, CREATE, [0o666, READ_WRITE, 0]);
    hall.write(0, 0, 0, 7);
    for (caller, modes) in [(0, READ_ONLY), (0, WRITE_ONLY), (0, READ_WRITE)] {
        hall.done(caller, OPEN, [subtype(0), modes, 0]);
    }
    for (descriptor, error) in [(1, XnoObj), (2, XnotReadable)] {
        assert_eq!(hall.read(0, descriptor, 0), Err(error));
        assert_eq!(plain::view(&hall.table, &hall.store, 0, descriptor, 9), Err(error));
    }
    assert_eq!(hall.write(0, 1, 0, 7), XnotWritable);
    assert_eq!(hall.write(0, 3, 0, 7), XnoObj);
    // 12 before 16: bits that forbid it today change nothing.
    hall.table[8 + 16 + 3] = 0;
    assert_eq!(hall.read(0, 1, 0), Err(XnoObj));
    hall.done(3, OPEN, [subtype(2), READ_ONLY, 0]);
    hall.done(3, OPEN, [subtype(2), WRITE_ONLY, 0]);
    let regrade = |hall: &mut Hall, a: u32| hall.with(3, REGRADE, [a, 0, 0], &mut [0; 4]).error;
    assert_eq!((regrade(&mut hall, 1), regrade(&mut hall, 2)), (XnoObj, XnotReadable));
    assert_eq!(hall.file(0)[..8], [1, 1, 5, 6, 0o666, 0, 1, 1]);
}

#[test]
fn r25_release_and_regraded_copies() {
    let mut hall = directory();
    clerk(&mut hall);
    hall.done(1, OPEN, [subtype(0), READ_WRITE, 0]);
    let that = hall.done(1, CREATE, [0o666, READ_WRITE, 1]).0;
    hall.done(1, LINK, [that, 0, 0]);
    hall.done(3, OPEN, [subtype(0), READ_ONLY, 0]);
    hall.done(3, OPEN, [that, READ_ONLY, 1]);
    for (cell, copy) in [(0, 1), (1, 3)] {
        assert_eq!(hall.with(3, REGRADE, [1, cell, 0o666], &mut [0; 4]).error, XOK);
        assert_eq!(hall.file(copy)[4..], [0o666, 1, 0, 0, 0], "a copy has no subtype");
    }
    let mut before = hall.clone();
    hall.done(0, RELEASE, [process(1, 1), 0, 0]);
    assert_eq!(hall.file(0), [1, 1, 5, 6, 0o666, 1, 0, 0, subtype(0)], "one open less, its own");
    assert_eq!(hall.file(1), before.file(1));
    assert_eq!(hall.error(0, OPEN, [that, READ_ONLY, 0]), XbadStCap);
}

#[test]
fn r26_what_is_well_formed() {
    let mut hall = directory();
    hall.file(0).copy_from_slice(&[1, 4, 0, 0, 0, 1, 0, 0, 0]);
    let with = |word: u32| {
        let mut hall = hall.clone();
        hall.file(0)[8] = word;
        hall.good()
    };
    assert!(with(0) && with(subtype(0)) && with(subtype(1)));
    for word in [1, subtype(2), subtype(3), subtype(0) + 1, subtype(0) - 1, file(0, 4), process(0, 1), 7 << 24 | 1] {
        assert!(!with(word), "{word}");
    }
    let mut free = directory();
    free.file(0)[8] = subtype(0);
    assert!(!free.good(), "0 when not live");
    // Descriptors: of processes 0 and 3.
    let held = |process: usize, seid: u32, modes: u32| {
        let mut hall = directory();
        hall.process(process)[8..12].copy_from_slice(&[seid, modes, seid, modes]);
        hall.good()
    };
    for modes in 0..17 {
        let valid = [1, 2, 3, 11, 15].contains(&modes);
        assert_eq!(held(0, subtype(0), modes), valid, "clashing opens are not demanded to be none: {modes}");
        assert_eq!(held(3, subtype(0), modes), modes == 1, "{modes}");
    }
    assert!(!held(0, subtype(2), 1), "it does not flow down");
    assert!(!held(0, subtype(3), 1) && !held(0, subtype(0) + 1, 1) && !held(0, subtype(0) - 1, 1));
}
