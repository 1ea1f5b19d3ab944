//! The readings of document 02, by their numbers: what each says that a call can show.

use crate::common::*;
use plain::Error::*;

#[test]
fn r13_slots_wear_evenly() {
    // For each kind: the call that makes one, the one that gives it up, and what it is named by then.
    let mut hall = Hall::new(&[[1, 0, 0, 4, 3, 3, 0, 0], [3, 0, 0, 4, 3, 3, 0, 0]], 1);
    for index in 0..3 {
        // The serials 9, 2 and 2: the smaller are taken first, and of equals the lower.
        let serial = if index == 0 { 9 } else { 2 };
        hall.process(index + 1)[1] = serial;
        hall.segment(index)[1] = serial;
        hall.file(index)[1] = serial;
    }
    for (index, serial) in [(1, 3), (2, 3), (0, 10)] {
        assert_eq!(hall.done(0, SPAWN, [0, 0, 0]).0, process(index + 1, serial));
        assert_eq!(hall.done(0, BUILD, [512, 0, 0]).0, segment(index, serial));
        assert_eq!(hall.done(0, CREATE, [0, 1, 0]).0, file(index, serial));
    }
    // The refusals for want of a slot stay, and another cell's slots are not looked at.
    assert_eq!(hall.error(0, SPAWN, [0, 0, 0]), XnoProc);
    assert_eq!(hall.error(0, BUILD, [512, 0, 0]), XnoSpace);
    assert_eq!(hall.error(0, CREATE, [0, 1, 0]), XnoSpace);
    // A worn slot is none, though it has the smallest serial of no other.
    hall.done(0, CLOSE, [0; 3]);
    hall.file(1)[1] = 65535;
    assert_eq!(hall.error(0, CREATE, [0, 1, 0]), XnoSpace);
}

/// Where each use ends before the next begins, serials never differ by more than one.
#[test]
fn r13_wear_from_set_up() {
    let mut hall = Hall::new(&[[0, 0, 0, 1, 5, 7, 0, 0]], 1);
    for round in 0..100 {
        assert_eq!(hall.done(0, CREATE, [0, 1, 0]).0, file(round % 7, round / 7 + 1));
        hall.done(0, CLOSE, [0; 3]);
        assert_eq!(hall.done(0, BUILD, [512, 0, 0]).0, segment(round % 5, round / 5 + 1));
        hall.done(0, RELEASE_SEGMENT, [0; 3]);
        let serials: Vec<u32> = (0..7).map(|index| hall.file(index)[1]).collect();
        assert!(serials.iter().max().unwrap() - serials.iter().min().unwrap() <= 1, "{serials:?}");
    }
}

/// One cell; process 0 holds segments of 1, 2 and 8 pages by its designators 0, 1 and 2. Process 1 is above and holds the first.
fn mapped() -> Hall {
    let mut hall = Hall::new(&[[1, 0, 0, 2, 4, 1, 0, 0], [3, 0, 0, 1, 1, 0, 0, 0]], 1);
    for size in [8192, 8704, 65024] {
        hall.done(0, BUILD, [size, 0o644, 1]);
    }
    hall.done(2, RENDEZVOUS, [segment(0, 1), 256, 0]);
    hall
}

const NONE: u32 = 16;

fn map(hall: &mut Hall, index: usize) -> [u32; 8] {
    hall.process(index)[104..112].try_into().unwrap()
}

#[test]
fn r01_pages() {
    for (size, pages) in [(512, 1), (8192, 1), (8704, 2), (16384, 2), (16896, 3), (57344, 7), (57856, 8), (65024, 8)] {
        let mut hall = Hall::new(&[[0, 0, 0, 1, 1, 0, 0, 0]], 1);
        hall.done(0, BUILD, [size, 0, 0]);
        for first in 0..9 {
            let mut hall = hall.clone();
            let error = hall.error(0, REMAP, [0, first, NONE]);
            assert_eq!(error, if first + pages <= 8 { XOK } else { XvrtMmCfl }, "{size} from page {first} on");
            let expected: Vec<u32> =
                (0..8).map(|page| u32::from(error == XOK && (first..first + pages).contains(&page))).collect();
            assert_eq!(map(&mut hall, 0).to_vec(), expected);
        }
    }
}

#[test]
fn r02_well_formed_maps() {
    let mut hall = mapped();
    hall.process(0)[104..112].copy_from_slice(&[3, 0, 1, 3, 1, 2, 0, 3]);
    assert!(hall.good(), "pages may lie anywhere");
    hall.done(0, REMAP, [NONE, 0, 2]);
    assert_eq!(map(&mut hall, 0), [0, 0, 1, 0, 1, 2, 0, 0], "every page of it leaves");
    for bad in [4, 16, 17, u32::MAX] {
        hall.process(0)[104] = bad;
        assert!(!hall.good(), "{bad}: no filled entry");
    }
    let mut hall = mapped();
    hall.process(1)[104] = 1;
    assert!(!hall.good(), "not live");
}

#[test]
fn r03_remap_in_order() {
    let mut hall = mapped();
    hall.done(0, RELEASE_SEGMENT, [0; 3]);
    // Process 2's entry is stale now; its own empty entries are 1 to 15.
    for (arguments, error) in [
        ([17, 0, 17], XnSgDes),
        ([1, 0, 17], XnSgDes), // 8 before 9, also where the incoming entry is empty
        ([17, 0, 1], XnSgDes),
        ([1, 0, 1], XbSgDes),
        ([0, 0, 1], XbSgDes), // 9 of the outgoing before 11 of the incoming
        ([0, 99, 0], XbSgSd), // 11 before 30
        ([0, 99, NONE], XbSgSd),
        ([NONE, 0, 0], XoutSgAldUmp),
    ] {
        assert_eq!(hall.error(2, REMAP, arguments), error, "{arguments:?}");
    }
    let mut hall = mapped();
    hall.done(0, REMAP, [0, 7, NONE]);
    for (arguments, error) in [
        ([0, 99, 1], XoutSgAldUmp),   // 30 before 31
        ([0, 99, NONE], XinSgAldMap), // 31 before 32
        ([1, 7, NONE], XvrtMmCfl),
        ([1, 6, NONE], XvrtMmCfl),
        ([2, 0, NONE], XvrtMmCfl),
        ([1, 8, NONE], XvrtMmCfl),
        ([1, u32::MAX, NONE], XvrtMmCfl), // never 8, and no sum that wraps
        ([1, u32::MAX - 1, NONE], XvrtMmCfl),
        ([2, 1, 0], XvrtMmCfl),
    ] {
        assert_eq!(hall.error(0, REMAP, arguments), error, "{arguments:?}");
        assert_eq!(map(&mut hall, 0), [0, 0, 0, 0, 0, 0, 0, 1]);
    }
    assert_eq!(hall.done(0, REMAP, [NONE, 99, NONE]), (0, 0));
    assert_eq!(hall.done(0, REMAP, [2, 0, 0]), (0, 0), "the outgoing one leaves first");
    assert_eq!(map(&mut hall, 0), [3; 8]);
    assert_eq!(hall.done(0, REMAP, [NONE, 99, 2]), (0, 0), "without an incoming one the page is ignored");
    assert_eq!(map(&mut hall, 0), [0; 8]);
}

#[test]
fn r04_a_segment_moves() {
    let mut hall = mapped();
    assert_eq!(hall.error(0, REMAP, [1, 0, 1]), XoutSgAldUmp);
    hall.done(0, REMAP, [1, 0, NONE]);
    hall.done(0, REMAP, [1, 1, 1]);
    assert_eq!(map(&mut hall, 0), [0, 2, 2, 0, 0, 0, 0, 0], "over its own old pages");
    hall.done(0, REMAP, [1, 6, 1]);
    assert_eq!(hall.error(0, REMAP, [1, 7, 1]), XvrtMmCfl);
    assert_eq!(map(&mut hall, 0), [0, 0, 0, 0, 0, 0, 2, 2], "a refusal leaves it where it was");
}

#[test]
fn r05_stale_pages() {
    let mut hall = mapped();
    hall.done(2, REMAP, [0, 3, NONE]);
    hall.done(0, RELEASE_SEGMENT, [0; 3]);
    assert_eq!(map(&mut hall, 2), [0, 0, 0, 1, 0, 0, 0, 0], "nobody's map is touched");
    assert_eq!(hall.error(2, PAGE_ACCESS, [3, 0, 0]), XbSgSd);
    assert_eq!(hall.done(2, BUILD, [512, 0o600, 0]).1, 1);
    assert_eq!(hall.error(2, REMAP, [1, 3, NONE]), XvrtMmCfl, "its page stays used");
    assert_eq!(hall.done(2, REMAP, [1, 3, 0]), (0, 0), "until it goes out");
    assert_eq!(map(&mut hall, 2), [0, 0, 0, 2, 0, 0, 0, 0]);
    hall.done(2, RELEASE_SEGMENT, [1, 0, 0]);
    assert_eq!(map(&mut hall, 2), [0; 8], "or is given up");
}

#[test]
fn r06_no_access_is_asked() {
    let mut hall = mapped();
    hall.done(0, SET_ACCESS, [1, 0, 0]);
    hall.segment(1)[4] = 0;
    hall.done(0, REMAP, [1, 2, NONE]);
    assert_eq!(hall.done(0, PAGE_ACCESS, [3, 0, 0]), (0, 0));
    hall.done(0, REMAP, [0, 0, NONE]);
    assert_eq!(hall.done(0, PAGE_ACCESS, [0, 0, 0]), (384, 0));
    hall.segment(0)[4] = 0o444;
    assert_eq!(hall.done(0, PAGE_ACCESS, [0, 0, 0]), (256, 0), "as call 18, by today's bits");
    for page in [8, 9, u32::MAX] {
        assert_eq!(hall.error(0, PAGE_ACCESS, [page, 0, 0]), XbParam);
    }
    assert_eq!(hall.error(0, PAGE_ACCESS, [1, 0, 0]), XbSgDes);
    hall.done(0, SPAWN, [0, 0, 0]);
    assert_eq!(map(&mut hall, 1), [0; 8], "a child's map is empty");
    hall.done(0, RELEASE, [0; 3]);
    assert_eq!(map(&mut hall, 0), [0; 8]);
}

#[test]
fn r14_shared_segments_are_fixed() {
    let mut hall = Hall::two_levels();
    let shared = hall.done(0, BUILD, [512, 0o644, 1]).0;
    let own = hall.done(0, BUILD, [512, 0o644, 0]).0;
    assert_eq!(hall.error(0, SET_BITS, [shared, 512, 0]), XbParam);
    assert_eq!(hall.error(0, SET_BITS, [shared + 1, 0o600, 0]), XbSgSd);
    assert_eq!(hall.error(3, SET_BITS, [shared, 0o600, 0]), XnoAcc);
    hall.done(0, SPAWN, [5, 5, 0]);
    assert_eq!(hall.error(1, SET_BITS, [shared, 0o600, 0]), XnoOwner, "14 before 33");
    assert_eq!(hall.error(0, SET_BITS, [shared, 0o600, 0]), XshSg, "though nobody else holds it");
    assert_eq!(hall.error(0, SET_BITS, [shared, 0o644, 0]), XshSg, "though they would not change");
    assert_eq!(hall.error(0, SET_BITS, [own, 0o600, 0]), XOK);
    assert_eq!(hall.done(0, ACCESS, [1, 0, 0]), (384, 0));
    hall.done(0, SET_BITS, [own, 0o277, 0]);
    assert_eq!(hall.done(0, ACCESS, [1, 0, 0]), (128, 0), "judged anew, also here");
}

#[test]
fn r17_views() {
    let mut hall = Hall::two_levels();
    hall.done(0, CREATE, [0o640, 3, 0]);
    hall.done(0, CREATE, [0o640, 3, 0]);
    hall.done(0, CREATE, [0o640, 2, 0]);
    hall.write(0, 1, 1, 7);
    hall.done(3, OPEN, [file(1, 1), 1, 0]);
    let view = |hall: &Hall, caller, a, b| {
        let (before, shown) = (hall.clone(), plain::view(&hall.table, &hall.store, caller, a, b));
        assert_eq!(*hall, before);
        shown.map(|part| (part.as_ptr().addr() - hall.store.as_ptr().addr(), part.to_vec()))
    };
    // The bytes where they stand, in the own cell and from above: file 1 has blocks 2 and 3 of the store.
    for (caller, descriptor) in [(0, 1), (3, 0)] {
        assert_eq!(view(&hall, caller, descriptor, 0), Ok((2 * 512, vec![0; 512])));
        assert_eq!(view(&hall, caller, descriptor, 1), Ok((3 * 512, vec![7; 512])));
    }
    // In order: 1, 2, 10, 20, 12, 16, 22, 23.
    for a in [3, 15, 16, u32::MAX] {
        assert_eq!(view(&hall, 0, a, 9), Err(XbadOd));
    }
    assert_eq!(view(&hall, 0, 2, 9), Err(XnotReadable));
    assert_eq!(view(&hall, 0, 0, 2), Err(XbadBlockNo), "22 before 23");
    assert_eq!(view(&hall, 0, 0, 1), Err(XendOfFile));
    hall.done(0, SET_BITS, [file(1, 1), 0o077, 0]);
    assert_eq!(view(&hall, 3, 0, 9), Err(XdapViol), "16 before 22, by today's bits");
    hall.done(0, CLOSE, [1, 0, 0]);
    assert_eq!(view(&hall, 3, 0, 9), Err(XnoObj), "stale, and 12 before 16");
    assert_eq!(view(&hall, 1, 99, 9), Err(XbPrSd), "not live");
    assert_eq!(view(&hall, 6, 99, 9), Err(XbPrSd));
    hall.table[7] = 1;
    assert_eq!(view(&hall, 6, 99, 9), Err(XbTab));
}

#[test]
fn r09_bits_of_processes() {
    let mut hall = Hall::two_levels();
    assert_eq!(hall.process(0)[6], 438, "a first process");
    for arguments in [[0, 0, 512], [0, 0, u32::MAX]] {
        assert_eq!(hall.error(0, SPAWN, arguments), XbParam);
    }
    let child = hall.done(0, SPAWN, [5, 6, 511]).0;
    assert_eq!(hall.process(1)[6], 511);
    assert_eq!(hall.error(1, SPAWN, [0, 0, 512]), XbParam, "4 before 15");
    assert_eq!(hall.error(1, SPAWN, [0, 0, 0]), XnoPriv);
    hall.done(0, SPAWN, [0, 0, 0]);
    assert_eq!(hall.process(2)[6], 0, "there is no default");
    assert_eq!(hall.error(0, SPAWN, [0, 0, 512]), XbParam, "4 before 27");
    assert_eq!(hall.status(0, child).unwrap()[6..8], [1, 0xff]);
    hall.done(1, RELEASE, [0; 3]);
    assert_eq!(hall.process(1)[..8], [0, 1, 0, 0, 0, 0, 0, 0]);
    // Well formed: at most 511, and the word behind them is zero.
    hall.process(0)[6] = 511;
    assert!(hall.good());
    hall.process(0)[6] = 512;
    assert!(!hall.good());
    hall.process(0)[6] = 0;
    hall.process(0)[7] = 1;
    assert!(!hall.good());
    hall.process(0)[7] = 0;
    hall.process(1)[6] = 1;
    assert!(!hall.good(), "not live");
}

#[test]
fn r10_posts_ask_the_receiver() {
    // Owner 0 and group 0 post to owner 5 and group 0, then to owner 5 and group 6.
    for (group, bits, error) in [
        (0, 0o020, XOK),
        (0, 0o757, XdapViol), // the group's bits hold, not those of all
        (0, 0o602, XdapViol),
        (6, 0o002, XOK),
        (6, 0o775, XdapViol), // neither owner 0 nor a parent has a way round it
    ] {
        let mut hall = Hall::two_levels();
        let child = hall.done(0, SPAWN, [5, group, bits]).0;
        assert_eq!(hall.post(0, child, &[7; 12]), error, "{bits:o}");
    }
    // Oneself is judged too, by the owner's bits alone.
    let mut hall = Hall::two_levels();
    hall.done(0, SET_BITS, [0, 0o577, 0]);
    assert_eq!(hall.post(0, 0, &[7; 12]), XdapViol);
    hall.done(0, SET_BITS, [0, 0o200, 0]);
    assert_eq!(hall.post(0, 0, &[7; 12]), XOK);
    // 2 before 16 before 28, and judged at the post, not at the receive.
    assert_eq!(hall.post(0, process(0, 2), &[7; 12]), XbPrSd);
    for _ in 1..8 {
        assert_eq!(hall.post(0, 0, &[7; 12]), XOK);
    }
    assert_eq!(hall.post(0, 0, &[7; 12]), XpostEh);
    hall.done(0, SET_BITS, [0, 0, 0]);
    assert_eq!(hall.post(0, 0, &[7; 12]), XdapViol);
    assert!(hall.receive(0).is_ok(), "what was delivered stays");
    // Upward it is dropped without a word.
    hall.done(3, SET_BITS, [0, 0o400, 0]);
    let before = hall.clone();
    assert_eq!(hall.post(0, process(3, 1), &[7; 12]), XOK);
    assert_eq!(hall, before);
    hall.done(3, SET_BITS, [0, 0o200, 0]);
    assert_eq!(hall.post(0, process(3, 1), &[7; 12]), XOK);
    assert_eq!(hall.process(3)[5], 1, "owner 0 of another cell is the owner too");
}

#[test]
fn r11_set_bits_of_a_process() {
    let mut hall = Hall::two_levels();
    let child = hall.done(0, SPAWN, [5, 5, 0]).0;
    assert_eq!(hall.error(0, SET_BITS, [child, 512, 0]), XbParam);
    assert_eq!(hall.error(0, SET_BITS, [process(9, 1), 0, 0]), XbPrSd);
    assert_eq!(hall.error(0, SET_BITS, [process(3, 1), 0, 0]), XnoAcc);
    assert_eq!(hall.error(3, SET_BITS, [process(0, 1), 0, 0]), XnoAcc, "a lower cell");
    assert_eq!(hall.error(0, SET_BITS, [child + 1, 0, 0]), XbPrSd);
    assert_eq!(hall.error(0, SET_BITS, [child, 0, 0]), XnoOwner);
    hall.done(1, SET_BITS, [child, 0o666, 0]);
    assert_eq!(hall.process(1)[..8], [1, 1, 5, 5, process(0, 1), 0, 0o666, 0]);
    hall.done(1, SET_BITS, [0, 0o111, 0]);
    assert_eq!(hall.process(1)[6], 0o111, "seid 0 is the caller");
    // Nothing else asks them.
    assert_eq!(hall.status(0, child).unwrap()[6..8], [0, 0o111]);
    hall.done(0, SET_BITS, [0, 0, 0]);
    hall.done(0, RELEASE, [0; 3]);
}

#[test]
fn r12_a_bigger_hall() {
    // One cell with all 256 of each kind: the last slots are used as any.
    let mut hall = Hall::new(&[[0, 0, 0, 256, 256, 256, 0, 0]], 1);
    for index in 0..255 {
        hall.process(index)[1] = 9;
        hall.segment(index)[1] = 9;
        hall.file(index)[1] = 9;
    }
    assert_eq!(hall.done(0, SPAWN, [0, 0, 0o600]).0, process(255, 1));
    assert_eq!(hall.done(255, BUILD, [512, 0o600, 1]).0, segment(255, 1));
    assert_eq!(hall.done(255, CREATE, [0o600, 3, 0]).0, file(255, 1));
    assert_eq!(hall.write(255, 0, 0, 7), XOK);
    assert_eq!(hall.store[255 * 512..], [7; 512]);
    assert_eq!(hall.done(0, OPEN, [file(255, 1), 1, 0]), (0, 0));
    assert_eq!(hall.done(0, RENDEZVOUS, [segment(255, 1), 256, 0]), (0, 0));
    assert_eq!(hall.post(0, process(255, 1), &[7; 12]), XOK);
    assert_eq!(hall.error(256, STATUS, [0; 3]), XbPrSd);
    // One designator of slot 191 and one of slot 255 are two.
    hall.segment(191).copy_from_slice(&[1, 9, 0, 0, 0, 0, 512, 1]);
    hall.process(0)[42..44].copy_from_slice(&[segment(191, 9), 0]);
    assert!(hall.good());
    // The last cell of many.
    let cells: Vec<Cell> = (0..16).map(|cell| [cell, 0, 0, 16, 16, 16, 0, 0]).collect();
    let mut hall = Hall::new(&cells, 2);
    assert_eq!(hall.status(240, 0).unwrap()[1], 15);
    hall.process(241)[1] = 65535;
    assert_eq!(hall.done(240, SPAWN, [0, 0, 0]).0, process(242, 1));
    // One more is too many, in a table that is right for it.
    for kind in 0..3 {
        let mut cell = [0, 0, 0, 1, 1, 1, 0, 0];
        cell[3 + kind] = 257;
        let mut hall = Hall::unset(&[cell], 1);
        assert_eq!(plain::setup(&mut hall.table, hall.store.len()), XbParam);
        assert!(!hall.good());
    }
}

/// Three cells, security 1, 3 and 2, of which the second is the guard's: processes 0, 2 and 4 are their first, files 0, 2 and 4 too. B
/// is 3. Process 2 has file 0, which process 0 made, open for reading at descriptor 0.
fn desk() -> Hall {
    let mut hall = Hall::guarded(&[[1, 0, 0, 2, 0, 2, 5, 6], [3, 0, 0, 2, 0, 2, 5, 6], [2, 0, 0, 2, 0, 2, 5, 6]], 3, 2);
    for byte in &mut hall.store {
        *byte = 0xee;
    }
    hall.done(0, CREATE, [0o640, 3, 0]);
    hall.done(2, OPEN, [file(0, 1), 1, 0]);
    hall
}

fn regrade(hall: &mut Hall, caller: u32, arguments: [u32; 3], buffer: &[u8]) -> (plain::Error, u32, u32) {
    let mut after = buffer.to_vec();
    let answer = hall.with(caller, REGRADE, arguments, &mut after);
    assert_eq!(after, buffer, "the buffer is only read");
    (answer.error, answer.first, answer.second)
}

const OWNER_AND_GROUP: [u8; 4] = [0x12, 0x34, 0xff, 0xfe];

#[test]
fn r18_the_guard() {
    for (guard, good) in [(0, true), (1, true), (2, true), (3, false), (17, false), (u32::MAX, false)] {
        let mut hall = Hall::unset(&[[1, 0, 0, 1, 0, 1, 0, 0], [3, 0, 0, 1, 0, 1, 0, 0]], 1);
        hall.table[5] = guard;
        let before = hall.clone();
        assert_eq!(plain::setup(&mut hall.table, hall.store.len()), if good { XOK } else { XbParam });
        assert_eq!(hall.good(), good);
        assert!(good || hall == before);
        if guard < 128 {
            let input = [2, 2, 0, 2, 1, guard as u8, 0, 1, 0, 0, 1, 0, 1, 0, 0, 3, 0, 0, 1, 0, 1, 0, 0];
            let listing = if good { "n error first second\n" } else { "bad configuration\n" };
            assert_eq!(String::from_utf8(plain::replay(&input)).unwrap(), listing);
        }
    }
    // 34 is all that anyone else gets: before 5, with wild arguments, and where there is no guard.
    let mut hall = desk();
    for caller in [0, 4] {
        assert_eq!(regrade(&mut hall, caller, [0, 0, 0], &OWNER_AND_GROUP).0, XnoSPriv);
        assert_eq!(regrade(&mut hall, caller, [99, 99, 999], &[]).0, XnoSPriv);
    }
    hall.table[5] = 0;
    assert_eq!(regrade(&mut hall, 2, [0, 0, 0], &OWNER_AND_GROUP).0, XnoSPriv);
    assert_eq!(regrade(&mut hall, 3, [0, 0, 0], &OWNER_AND_GROUP).0, XbPrSd, "not live");
}

#[test]
fn r18_r19_refusals_in_order() {
    let mut hall = desk();
    for length in [0, 3, 5, 12, 16, 512] {
        assert_eq!(regrade(&mut hall, 2, [99, 3, 512], &vec![0; length]).0, XbSz, "5 before 4");
    }
    for (b, c) in [(3, 0), (u32::MAX, 0), (0, 512), (0, u32::MAX)] {
        assert_eq!(regrade(&mut hall, 2, [99, b, c], &OWNER_AND_GROUP).0, XbParam, "4 before 10");
    }
    for a in [1, 15, 16, u32::MAX] {
        assert_eq!(regrade(&mut hall, 2, [a, 0, 0], &OWNER_AND_GROUP).0, XbadOd);
    }
    // Open for writing alone, in the own cell, with a bit that lets nobody read: 20 before 16.
    hall.done(2, CREATE, [0, 2, 0]);
    assert_eq!(regrade(&mut hall, 2, [1, 0, 0], &OWNER_AND_GROUP).0, XnotReadable);
    // Today's bits, for the caller as the file's owner.
    hall.done(0, SET_BITS, [file(0, 1), 0o377, 0]);
    assert_eq!(regrade(&mut hall, 2, [0, 0, 0], &OWNER_AND_GROUP).0, XdapViol);
    hall.done(0, SET_BITS, [file(0, 1), 0o400, 0]);
    // 26 is of the named cell alone.
    for index in 0..2 {
        assert_eq!(regrade(&mut hall, 2, [0, 2, 0], &OWNER_AND_GROUP), (XOK, file(4 + index, 1), 0));
    }
    assert_eq!(regrade(&mut hall, 2, [0, 2, 0], &OWNER_AND_GROUP).0, XnoSpace);
    hall.done(0, SET_BITS, [file(0, 1), 0, 0]);
    assert_eq!(regrade(&mut hall, 2, [0, 2, 0], &OWNER_AND_GROUP).0, XdapViol, "16 before 26");
    hall.done(0, CLOSE, [0; 3]);
    assert_eq!(regrade(&mut hall, 2, [0, 2, 0], &OWNER_AND_GROUP).0, XnoObj, "stale, and 12 before 16");
}

#[test]
fn r19_r20_regrades() {
    let mut hall = desk();
    hall.write(0, 0, 1, 7);
    assert_eq!(hall.file(0)[..8], [1, 1, 5, 6, 0o640, 0, 2, 1]);
    // Into each cell: below, the guard's own, beside; the caller needs no free descriptor.
    for _ in 1..16 {
        hall.done(2, OPEN, [file(0, 1), 1, 0]);
    }
    let before = hall.clone();
    for (cell, index) in [(0, 1), (1, 2), (2, 4)] {
        assert_eq!(regrade(&mut hall, 2, [0, cell, 0o751], &OWNER_AND_GROUP), (XOK, file(index, 1), 0));
        assert_eq!(hall.file(index as usize)[..8], [1, 1, 0x1234, 0xfffe, 0o751, 1, 2, 0]);
        let stretch = &hall.store[index as usize * 3 * 512..][..3 * 512];
        assert_eq!(stretch[..512], [0; 512], "the hole that the write filled");
        assert_eq!(stretch[512..1024], [7; 512]);
        assert_eq!(stretch[1024..], [0xee; 512], "past the size it stays as the slot's last file left it");
    }
    assert_eq!((before.clone().process(2), before.clone().file(0)), (hall.clone().process(2), hall.clone().file(0)));
    // The copy is a file like any other: its owner is who the buffer said.
    assert_eq!(hall.error(4, OPEN, [file(4, 1), 1, 0]), XdapViol);
    hall.process(4)[2..4].copy_from_slice(&[0x1234, 0xfffe]);
    assert_eq!(hall.done(4, OPEN, [file(4, 1), 3, 0]), (0, 0));
    assert_eq!(hall.read(4, 0, 1), Ok([7; 512]));
    hall.done(4, UNLINK, [file(4, 1), 0, 0]);
    hall.done(4, CLOSE, [0; 3]);
    assert_eq!(hall.file(4)[..8], [0, 1, 0, 0, 0, 0, 0, 0]);
}

/// Nothing past the source's size comes across, and a file of size 0 carries no byte.
#[test]
fn r20_no_more_than_the_size() {
    let mut hall = desk();
    hall.store[..3 * 512].fill(0x55); // file 0 has size 0
    assert_eq!(regrade(&mut hall, 2, [0, 2, 0], &[0; 4]), (XOK, file(4, 1), 0));
    assert_eq!(hall.file(4)[..8], [1, 1, 0, 0, 0, 1, 0, 0]);
    assert!(hall.store[4 * 3 * 512..].iter().all(|&byte| byte == 0xee));
    hall.write(0, 0, 0, 7);
    assert_eq!(regrade(&mut hall, 2, [0, 2, 0], &[0; 4]).1, file(5, 1));
    assert_eq!(hall.store[5 * 3 * 512..][..512], [7; 512]);
    assert!(hall.store[5 * 3 * 512 + 512..].iter().all(|&byte| byte == 0xee));
    // The least used slot of the named cell, the lowest among equals.
    let mut hall = desk();
    hall.file(4)[1] = 3;
    assert_eq!(regrade(&mut hall, 2, [0, 2, 0], &[0; 4]).1, file(5, 1));
    assert_eq!(regrade(&mut hall, 2, [0, 2, 0], &[0; 4]).1, file(4, 4));
    // A slot that is worn out is none.
    let mut hall = desk();
    (hall.file(4)[1], hall.file(5)[1]) = (65535, 65535);
    assert_eq!(regrade(&mut hall, 2, [0, 2, 0], &[0; 4]).0, XnoSpace);
    // A copy of a copy, by the guard's own descriptor; the source's slot is not the copy's.
    let mut hall = desk();
    let first = regrade(&mut hall, 2, [0, 1, 0o777], &[0; 4]).1;
    assert_eq!(hall.done(2, OPEN, [first, 1, 0]), (1, 0));
    assert_eq!(regrade(&mut hall, 2, [1, 1, 0o777], &[0; 4]), (XOK, file(3, 1), 0));
}
