//! The readings of document 01, by their numbers: what each says that a call can show.

use crate::common::*;
use plain::Error::*;
use plain::{replay, setup};

/// One cell with plenty of room; its first process has owner 7 and group 7.
fn one_cell() -> Hall {
    Hall::new(&[[0, 0, 0, 4, 20, 20, 7, 7]], 3)
}

#[test]
fn r01_seid_0_is_the_caller() {
    let mut hall = Hall::two_levels();
    assert_eq!(hall.status(0, 0).unwrap()[..2], [4, 0]);
    assert_eq!(hall.post(0, 0, b"note to self"), XOK);
    assert_eq!(hall.receive(0).unwrap()[..4], process(0, 1).to_be_bytes());
    assert_eq!(hall.post(0, process(0, 1), b"by real seid"), XOK);
    assert_eq!(hall.error(0, RENDEZVOUS, [0, 256, 0]), XbSgSd);
    assert_eq!(hall.error(0, OPEN, [0, 1, 0]), XnoObj);
    assert_eq!(hall.error(0, LINK, [0; 3]), XnoObj);
    assert_eq!(hall.error(0, UNLINK, [0; 3]), XnoObj);
    hall.done(0, SET_BITS, [0, 0o600, 0]);
    assert_eq!(hall.process(0)[6], 0o600);
    hall.done(0, RELEASE, [0; 3]);
    assert_eq!(hall.process(0)[..8], [0, 1, 0, 0, 0, 0, 0, 0]);
    assert_eq!(hall.error(0, STATUS, [0; 3]), XbPrSd);
    hall.done(3, RELEASE, [process(3, 1), 0, 0]);
}

#[test]
fn r02_form_then_level_then_liveness() {
    let mut hall = Hall::two_levels();
    // From below: the form is judged first, then the level of a slot that is not even live.
    assert_eq!(hall.error(0, OPEN, [file(6, 1), 1, 0]), XnoObj, "index out of range");
    assert_eq!(hall.error(0, OPEN, [file(3, 0), 1, 0]), XnoObj, "serial 0");
    assert_eq!(hall.error(0, OPEN, [file(3, 1), 1, 0]), XnoAcc, "higher, not live");
    assert_eq!(hall.error(3, OPEN, [file(0, 1), 1, 0]), XnoObj, "lower, not live");
    let seid = hall.done(0, CREATE, [420, 1, 0]).0;
    assert_eq!(hall.error(0, OPEN, [seid + 1, 1, 0]), XnoObj, "a serial above the slot's");
    // A table of size 0.
    let mut bare = Hall::new(&[[0, 0, 0, 1, 0, 0, 0, 0]], 64);
    assert_eq!(bare.error(0, OPEN, [file(0, 1), 1, 0]), XnoObj);
    assert_eq!(bare.error(0, RENDEZVOUS, [segment(0, 1), 256, 0]), XbSgSd);
    assert_eq!(bare.status(0, segment(0, 1)), Err(XbSgSd));
}

#[test]
fn r03_absent_goes_by_class() {
    let mut hall = Hall::two_levels();
    assert_eq!(hall.error(0, SET_BITS, [segment(0, 1), 0, 0]), XbSgSd);
    assert_eq!(hall.error(0, SET_BITS, [file(0, 1), 0, 0]), XnoObj);
    assert_eq!(hall.error(0, SET_BITS, [process(1, 1), 0, 0]), XbPrSd);
    assert_eq!(hall.status(0, process(1, 1)), Err(XbPrSd));
    assert_eq!(hall.status(0, segment(0, 1)), Err(XbSgSd));
    assert_eq!(hall.status(0, file(0, 1)), Err(XnoObj));
    for class in [1, 3, 6, 128, 130, 255] {
        assert_eq!(hall.status(0, class << 24 | 1), Err(XnoObj));
        assert_eq!(hall.error(0, SET_BITS, [class << 24 | 1, 0, 0]), XnoObj);
    }
    // Another class gives the wanted kind's number.
    assert_eq!(hall.error(0, RELEASE, [file(0, 1), 0, 0]), XbPrSd);
    assert_eq!(hall.error(0, RENDEZVOUS, [process(0, 1), 256, 0]), XbSgSd);
    assert_eq!(hall.error(0, LINK, [segment(0, 1), 0, 0]), XnoObj);
    assert_eq!(hall.post(0, file(0, 1), &[0; 12]), XbPrSd);
}

#[test]
fn r04_own() {
    let mut hall = Hall::two_levels();
    let lower = hall.done(0, CREATE, [0o777, 3, 0]).0;
    assert_eq!(hall.error(3, LINK, [lower, 0, 0]), XnoAcc, "a lower cell");
    assert_eq!(hall.error(0, RELEASE, [process(3, 1), 0, 0]), XnoAcc, "a higher cell");
    assert_eq!(hall.error(0, RELEASE, [process(4, 1), 0, 0]), XnoAcc, "not live there");
    let child = hall.done(0, SPAWN, [9, 9, 0]).0;
    assert_eq!(hall.error(0, RELEASE, [child, 0, 0]), XnoOwner, "neither owner 0 nor a parent may");
    assert_eq!(hall.error(1, LINK, [lower, 0, 0]), XnoOwner);
    assert_eq!(hall.error(1, RELEASE, [0; 3]), XOK);
    assert_eq!(hall.error(0, RELEASE, [child, 0, 0]), XbPrSd, "gone");
}

#[test]
fn r05_spawn() {
    let mut hall = one_cell();
    assert_eq!(hall.error(0, SPAWN, [65536, 7, 0]), XbParam);
    assert_eq!(hall.error(0, SPAWN, [7, 65536, 0]), XbParam);
    assert_eq!(hall.error(0, SPAWN, [8, 7, 0]), XnoPriv);
    assert_eq!(hall.error(0, SPAWN, [7, 8, 0]), XnoPriv);
    hall.done(0, CREATE, [420, 1, 0]);
    assert_eq!(hall.done(0, SPAWN, [7, 7, 9]), (process(1, 1), 0));
    let mut expected = vec![1, 1, 7, 7, process(0, 1), 0, 9];
    expected.resize(112, 0);
    assert_eq!(hall.process(1), expected);
    // Owner 0 may give any; the order is 4, 15, 27.
    let mut hall = Hall::new(&[[0, 0, 0, 2, 0, 0, 0, 3]], 1);
    assert_eq!(hall.error(0, SPAWN, [65535, 65535, 0]), XOK);
    assert_eq!(hall.error(1, SPAWN, [65536, 0, 0]), XbParam);
    assert_eq!(hall.error(1, SPAWN, [0, 0, 0]), XnoPriv);
    assert_eq!(hall.error(1, SPAWN, [65535, 65535, 0]), XnoProc);
}

#[test]
fn r06_release() {
    let mut hall = one_cell();
    let child = hall.done(0, SPAWN, [7, 7, 0o600]).0;
    let grandchild = hall.done(1, SPAWN, [7, 7, 0o600]).0;
    let seid = hall.done(1, CREATE, [420, 1, 0]).0;
    hall.done(1, OPEN, [seid, 1, 0]);
    hall.done(0, OPEN, [seid, 1, 0]);
    let memory = hall.done(1, BUILD, [512, 420, 1]).0;
    let shared = hall.done(0, BUILD, [1024, 420, 1]).0;
    hall.done(1, RENDEZVOUS, [shared, 256, 0]);
    assert_eq!(hall.post(1, grandchild, b"left behind!"), XOK);
    assert_eq!(hall.post(0, child, b"lost with it"), XOK);
    assert_eq!((hall.file(0)[7], hall.segment(1)[7]), (3, 2));
    hall.done(0, RELEASE, [child, 0, 0]);
    assert!(hall.process(1).iter().enumerate().all(|(at, &word)| word == u32::from(at == 1)));
    assert_eq!(hall.file(0)[7], 1, "two opens of three were its own");
    assert_eq!(hall.segment(0), [0, 1, 0, 0, 0, 0, 0, 0], "freed: {memory}");
    assert_eq!(hall.segment(1)[7], 1);
    assert_eq!(hall.process(2)[4], child, "a stale parent stays");
    assert_eq!(hall.receive(2).unwrap()[..4], child.to_be_bytes(), "a message that it sent stays");
    hall.done(2, RELEASE, [0; 3]);
    hall.done(0, RELEASE, [0; 3]);
    assert!(hall.good(), "a cell may have no live process");
    assert_eq!(hall.file(0), [0, 1, 0, 0, 0, 0, 0, 0, 0]);
}

#[test]
fn r07_build() {
    let mut hall = one_cell();
    assert_eq!(hall.error(0, BUILD, [513, 512, 0]), XbParam, "4 before 6");
    assert_eq!(hall.error(0, BUILD, [513, 0, 2]), XbParam);
    assert_eq!(hall.done(0, BUILD, [1024, 0o277, 1]), (segment(0, 1), 0));
    assert_eq!(hall.segment(0), [1, 1, 7, 7, 0o277, 1, 1024, 1]);
    assert_eq!(hall.process(0)[40..42], [segment(0, 1), 128], "write-only");
    for place in 1..16 {
        assert_eq!(hall.done(0, BUILD, [512, 0, 0]).1, place);
    }
    assert_eq!(hall.error(0, BUILD, [512, 0, 0]), XodSpace);
    let mut full = Hall::new(&[[0, 0, 0, 1, 0, 0, 0, 0]], 1);
    assert_eq!(full.error(0, BUILD, [512, 0, 0]), XnoSpace);
}

#[test]
fn r08_rendezvous() {
    let mut hall = Hall::two_levels();
    let seid = hall.done(0, BUILD, [512, 0o644, 1]).0;
    for access in [0, 1, 64, 127, 255, 383, 385, 512, u32::MAX] {
        assert_eq!(hall.error(0, RENDEZVOUS, [seid, access, 0]), XbParam, "{access}");
    }
    for access in [128, 384] {
        assert_eq!(hall.error(3, RENDEZVOUS, [seid, access, 0]), XnoAcc);
        assert_eq!(hall.error(3, RENDEZVOUS, [segment(1, 1), access, 0]), XnoAcc, "even if absent there");
    }
    assert_eq!(hall.error(3, RENDEZVOUS, [segment(1, 1), 256, 0]), XbSgSd);
    assert_eq!(hall.error(0, RENDEZVOUS, [segment(3, 1), 256, 0]), XnoAcc, "flow is needed");
    let private = hall.done(0, BUILD, [512, 0, 0]).0;
    assert_eq!(hall.error(0, RENDEZVOUS, [private, 256, 0]), XsgNoAcc, "17 before 16");
    hall.done(0, SPAWN, [5, 5, 0]);
    assert_eq!(hall.error(1, RENDEZVOUS, [seid, 384, 0]), XdapViol, "every bit is needed");
    assert_eq!(hall.done(1, RENDEZVOUS, [seid, 256, 0]), (0, 0));
    assert_eq!(hall.error(1, RENDEZVOUS, [seid, 256, 0]), XdupSg);
    assert_eq!(hall.error(1, RENDEZVOUS, [seid, 128, 0]), XdapViol, "16 before 18");
    assert_eq!(hall.segment(0)[7], 2);
    // From above; then the lower one goes, and its next use is another segment.
    assert_eq!(hall.done(3, RENDEZVOUS, [seid, 256, 0]), (0, 0));
    hall.done(1, RELEASE_SEGMENT, [0; 3]);
    hall.done(0, RELEASE_SEGMENT, [0; 3]);
    hall.segment(2)[1] = 9;
    let next = hall.done(0, BUILD, [512, 0o644, 1]).0;
    assert_eq!(next, seid + 1);
    assert_eq!(hall.done(3, RENDEZVOUS, [next, 256, 0]), (1, 0), "held is this exact seid");
    assert_eq!(hall.error(3, RELEASE_SEGMENT, [0; 3]), XOK, "stale succeeds");
}

#[test]
fn r09_set_access() {
    let mut hall = Hall::two_levels();
    let seid = hall.done(0, BUILD, [512, 0o644, 1]).0;
    hall.done(3, RENDEZVOUS, [seid, 256, 0]);
    assert_eq!(hall.error(0, SET_ACCESS, [16, 1, 0]), XbParam);
    assert_eq!(hall.error(0, SET_ACCESS, [16, 0, 0]), XnSgDes);
    assert_eq!(hall.error(0, SET_ACCESS, [15, 0, 0]), XbSgDes);
    hall.done(0, SET_ACCESS, [0, 0, 0]);
    assert_eq!(hall.error(0, SET_ACCESS, [0, 384, 0]), XOK, "the stored access is not asked");
    // A sharable segment's bits don't change by calls: here they are others from the start.
    hall.segment(0)[4] = 0o400;
    assert_eq!(hall.error(0, SET_ACCESS, [0, 384, 0]), XdapViol);
    assert_eq!(hall.error(3, SET_ACCESS, [0, 128, 0]), XnoAcc);
    hall.segment(0)[4] = 0;
    assert_eq!(hall.error(0, SET_ACCESS, [0, 0, 0]), XOK, "0 lacks nothing");
    assert_eq!(hall.error(3, SET_ACCESS, [0, 256, 0]), XdapViol);
    hall.done(0, RELEASE_SEGMENT, [0; 3]);
    assert_eq!(hall.error(3, SET_ACCESS, [0, 128, 0]), XbSgSd, "11 before 13");
}

#[test]
fn r10_own_cell_entries_count() {
    let mut hall = Hall::two_levels();
    let seid = hall.done(0, CREATE, [0o666, 1, 0]).0;
    hall.done(0, OPEN, [seid, 3, 0]);
    hall.done(3, OPEN, [seid, 1, 0]);
    assert_eq!(hall.file(0)[7], 2);
    assert_eq!(hall.process(0)[8..12], [seid, 1, seid, 3], "stored modes are b");
    assert_eq!(hall.process(3)[8..10], [seid, 1]);
}

#[test]
fn r11_open() {
    let mut hall = Hall::two_levels();
    for modes in [0, 4, 5, 6, 7, 8, 9, 10, 12, 13, 14, 16, 17, 19, 257, u32::MAX] {
        assert_eq!(hall.error(0, OPEN, [1, modes, 0]), XbadModes, "{modes}: 7 comes first");
        assert_eq!(hall.error(0, CREATE, [0, modes, 0]), XbadModes, "{modes}");
    }
    assert_eq!(hall.error(0, CREATE, [512, 9, 0]), XbParam, "4 before 7");
    let seid = hall.done(0, CREATE, [0o640, 3, 0]).0;
    for modes in [2, 3, 11, 15] {
        assert_eq!(hall.error(3, OPEN, [seid, modes, 0]), XnoAcc, "writing a lower cell");
        assert_eq!(hall.error(3, OPEN, [seid + 1, modes, 0]), XnoAcc, "13 before 12");
    }
    assert_eq!(hall.error(0, OPEN, [file(3, 1), 1, 0]), XnoAcc, "reading a higher one");
    assert_eq!(hall.error(0, OPEN, [seid, 11, 0]), Xbusy, "one's own descriptor clashes");
    hall.done(0, SPAWN, [5, 0, 0]);
    assert_eq!(hall.error(1, OPEN, [seid, 1, 0]), XOK, "the group may read");
    assert_eq!(hall.error(1, OPEN, [seid, 15, 0]), XdapViol, "16 before 19");
    hall.done(0, SET_BITS, [seid, 0o222, 0]);
    assert_eq!(hall.error(1, OPEN, [seid, 2, 0]), XOK, "write alone asks no read bit");
    // 25 comes last.
    let mut hall = one_cell();
    let seid = hall.done(0, CREATE, [0o600, 15, 0]).0;
    for _ in 1..16 {
        hall.done(0, CREATE, [0, 1, 0]);
    }
    assert_eq!(hall.error(0, OPEN, [seid, 1, 0]), Xbusy);
    hall.done(0, CLOSE, [0; 3]);
    let seid = hall.done(0, CREATE, [0o600, 1, 0]).0;
    assert_eq!(hall.error(0, OPEN, [seid, 1, 0]), XodSpace);
    assert_eq!(hall.error(0, CREATE, [0, 1, 0]), XodSpace, "25 before 26");
}

#[test]
fn r12_r13_links_and_freeing() {
    let mut hall = one_cell();
    let seid = hall.done(0, CREATE, [0o600, 3, 0]).0;
    assert_eq!(hall.write(0, 0, 2, 9), XOK);
    let store = hall.store.clone();
    assert_eq!(hall.error(0, UNLINK, [seid, 0, 0]), XbadLink);
    hall.done(0, LINK, [seid, 0, 0]);
    hall.done(0, UNLINK, [seid, 0, 0]);
    assert_eq!(hall.file(0)[0], 1, "still open");
    hall.done(0, LINK, [seid, 0, 0]);
    hall.done(0, CLOSE, [0; 3]);
    assert_eq!(hall.file(0), [1, 1, 7, 7, 0o600, 1, 3, 0, 0]);
    hall.done(0, UNLINK, [seid, 0, 0]);
    assert_eq!(hall.file(0), [0, 1, 0, 0, 0, 0, 0, 0, 0]);
    assert_eq!(hall.store, store, "freeing never touches the store");
    assert_eq!(hall.error(0, LINK, [seid, 0, 0]), XnoObj);
    assert_eq!(hall.error(0, CLOSE, [0; 3]), XbadOd);
    assert_eq!(hall.error(0, CLOSE, [16, 0, 0]), XbadOd);
}

#[test]
fn r14_blocks() {
    let mut hall = Hall::two_levels();
    hall.store.fill(0xaa);
    let seid = hall.done(0, CREATE, [0o644, 3, 0]).0;
    hall.done(3, OPEN, [seid, 1, 0]);
    let mut seven = [7; 511];
    assert_eq!(hall.with(0, READ, [99, 99, 0], &mut seven).error, XbSz);
    assert_eq!(hall.with(0, WRITE, [99, 99, 0], &mut seven).error, XbSz);
    assert_eq!(hall.read(0, 16, 9), Err(XbadOd));
    assert_eq!(hall.read(0, 1, 9), Err(XbadOd));
    assert_eq!(hall.read(0, 0, 2), Err(XbadBlockNo), "22 before 23");
    assert_eq!(hall.read(0, 0, 0), Err(XendOfFile));
    assert_eq!(hall.write(3, 0, 9, 1), XnotWritable);
    assert_eq!(hall.write(0, 0, 1, 1), XOK);
    assert_eq!(hall.store[..512], [0; 512], "the block between became zero");
    assert_eq!(hall.store[512..1024], [1; 512]);
    assert!(hall.store[1024..].iter().all(|&byte| byte == 0xaa), "only this file's blocks");
    assert_eq!(hall.file(0)[6], 2);
    assert_eq!(hall.write(0, 0, 0, 2), XOK);
    assert_eq!(hall.file(0)[6], 2);
    assert_eq!(hall.read(3, 0, 1), Ok([1; 512]));
    hall.done(0, SET_BITS, [seid, 0, 0]);
    assert_eq!(hall.write(0, 0, 2, 1), XdapViol, "16 before 22");
    assert_eq!(hall.read(3, 0, 2), Err(XdapViol));
    hall.done(0, CLOSE, [0; 3]);
    assert_eq!(hall.read(3, 0, 2), Err(XnoObj), "stale");
    hall.file(1)[1] = 9;
    hall.file(2)[1] = 9;
    assert_eq!(hall.done(0, CREATE, [0o644, 2, 0]).0, seid + 1);
    assert_eq!(hall.read(0, 0, 0), Err(XnotReadable));
    assert_eq!(hall.read(3, 0, 0), Err(XnoObj), "the slot's next use is another file");
}

#[test]
fn r15_post_and_receive() {
    let mut hall = Hall::two_levels();
    assert_eq!(hall.with(0, POST, [1, 0, 0], &mut [0; 11]).error, XbSz);
    assert_eq!(hall.post(3, process(9, 1), &[0; 12]), XbPrSd);
    assert_eq!(hall.post(3, process(0, 0), &[0; 12]), XbPrSd);
    assert_eq!(hall.post(3, process(0, 1), &[0; 12]), XnoAcc, "down");
    assert_eq!(hall.post(3, process(1, 1), &[0; 12]), XnoAcc, "down, not live");
    assert_eq!(hall.post(0, process(1, 1), &[0; 12]), XbPrSd, "same cell, not live");
    assert_eq!(hall.post(0, process(0, 2), &[0; 12]), XbPrSd, "same cell, other serial");
    assert_eq!(hall.post(0, process(3, 1), b"abcdefghijkl"), XOK);
    assert_eq!(hall.post(3, 0, b"mnopqrstuvwx"), XOK);
    assert_eq!(hall.process(3)[5], 2);
    assert_eq!(hall.process(3)[72..76], [process(0, 1), 0x61626364, 0x65666768, 0x696a6b6c]);
    assert_eq!(hall.with(3, RECEIVE, [0; 3], &mut [0; 12]).error, XbSz);
    assert_eq!(&hall.receive(3).unwrap()[4..], b"abcdefghijkl");
    assert_eq!(hall.process(3)[72..80], [process(3, 1), 0x6d6e6f70, 0x71727374, 0x75767778, 0, 0, 0, 0]);
    assert_eq!(&hall.receive(3).unwrap()[4..], b"mnopqrstuvwx");
    assert_eq!(hall.receive(3), Err(XbNoMes));
    assert_eq!(hall.with(3, RECEIVE, [0; 3], &mut [0; 17]).error, XbSz, "5 before 29");
}

#[test]
fn r16_status_and_access() {
    let mut hall = Hall::two_levels();
    let seid = hall.done(0, BUILD, [512, 0o600, 1]).0;
    assert_eq!(hall.status(3, seid).unwrap()[..8], [5, 0, 0, 0, 0, 0, 1, 0x80]);
    assert_eq!(hall.done(0, ACCESS, [0, 0, 0]), (384, 0));
    hall.segment(0)[4] = 0o277;
    assert_eq!(hall.done(0, ACCESS, [0, 0, 0]), (128, 0), "limited by today's bits");
    hall.done(0, SET_ACCESS, [0, 0, 0]);
    hall.segment(0)[4] = 0o777;
    assert_eq!(hall.done(0, ACCESS, [0, 0, 0]), (0, 0), "and by what is stored");
    assert_eq!(hall.status(3, seid).unwrap()[6..8], [1, 0xff], "no bits are judged");
    assert_eq!(hall.error(0, ACCESS, [16, 0, 0]), XnSgDes);
    assert_eq!(hall.error(0, ACCESS, [1, 0, 0]), XbSgDes);
    hall.done(3, RENDEZVOUS, [seid, 256, 0]);
    hall.done(0, RELEASE_SEGMENT, [0; 3]);
    assert_eq!(hall.error(3, ACCESS, [0, 0, 0]), XbSgSd);
}

#[test]
fn r17_buffers_are_judged_only_where_named() {
    let mut hall = one_cell();
    for length in [0, 11, 12, 13, 15, 16, 17, 511, 512, 513] {
        let mut buffer = vec![0x5a; length];
        assert_eq!(hall.with(0, CREATE, [0, 1, 0], &mut buffer).error, XOK);
        assert_eq!(hall.with(0, CLOSE, [0, 9, 9], &mut buffer).error, XOK);
        assert_eq!(hall.with(1, 99, [0; 3], &mut buffer).error, XbPrSd);
        for (code, asked) in [(READ, 512), (WRITE, 512), (POST, 12), (RECEIVE, 16), (STATUS, 16)] {
            let error = hall.with(0, code, [1, 0, 0], &mut buffer).error;
            assert_eq!(error == XbSz, length != asked, "call {code} with {length}");
        }
        assert!(buffer.iter().all(|&byte| byte == 0x5a));
    }
}

#[test]
fn r18_r22_r23_what_is_well_formed() {
    let mut hall = Hall::two_levels();
    // A stale parent whose serial no slot has reached, a stale sender of the own cell, opens that clash, access beyond the bits.
    hall.process(0)[4] = process(2, 65535);
    assert!(hall.good());
    hall.process(1)[1] = 9;
    hall.process(0)[5] = 1;
    hall.process(0)[72] = process(1, 3);
    assert!(hall.good());
    hall.process(0)[72] = process(1, 10);
    assert!(!hall.good(), "newer than its slot");
    hall.process(0)[72] = process(1, 9);
    hall.file(0).copy_from_slice(&[1, 4, 0, 0, 0, 0, 2, 2, 0]);
    hall.process(0)[8..12].copy_from_slice(&[file(0, 4), 15, file(0, 4), 15]);
    assert!(hall.good());
    hall.segment(0).copy_from_slice(&[1, 4, 0, 0, 0, 0, 512, 1]);
    hall.process(0)[40..42].copy_from_slice(&[segment(0, 4), 384]);
    assert!(hall.good());
    // A higher cell may hold what is gone, more than one use of it.
    hall.process(3)[40..44].copy_from_slice(&[segment(0, 2), 256, segment(0, 3), 0]);
    assert!(hall.good());
    hall.process(3)[44..46].copy_from_slice(&[segment(0, 2), 256]);
    assert!(!hall.good(), "one seid twice");
    // No live process anywhere.
    let mut hall = Hall::two_levels();
    hall.process(0).fill(0);
    hall.process(3).fill(0);
    assert!(hall.good());
}

#[test]
fn r19_r20_r24_setup() {
    let good = [[1, 0, 0, 1, 1, 1, 3, 4], [1, 0, 1, 2, 0, 1, 65535, 65535]];
    let mut hall = Hall::unset(&good, 64);
    let records = 8 + 8 * 2;
    for word in &mut hall.table[records..] {
        *word = 0xdead_beef;
    }
    hall.store.fill(0x77);
    assert_eq!(setup(&mut hall.table, 2 * 64 * 512), XOK);
    assert_eq!(hall.process(0)[..7], [1, 1, 3, 4, 0, 0, 438]);
    assert_eq!(hall.process(1)[..7], [1, 1, 65535, 65535, 0, 0, 438]);
    let rest: Vec<u32> = [&hall.table[records + 7..records + 112], &hall.table[records + 112 + 7..]].concat();
    assert!(rest.iter().all(|&word| word == 0), "every other record word is 0");
    assert!(hall.store.iter().all(|&byte| byte == 0x77), "the store isn't touched");
    assert!(hall.good());

    let refused = |change: &dyn Fn(&mut Hall)| {
        let mut hall = Hall::unset(&good, 64);
        change(&mut hall);
        let before = hall.table.clone();
        assert_eq!(setup(&mut hall.table, hall.store.len()), XbParam);
        assert_eq!(hall.table, before, "nothing changes");
    };
    for (word, values) in [
        (0, &[0, 1, 3, 17][..]),
        (1, &[0, 2, 4, 257]),
        (2, &[0, 2, 257]),
        (3, &[1, 3, 257]),
        (4, &[0, 63, 65]),
        (5, &[3, 17, u32::MAX]),
        (6, &[1, 17, u32::MAX]),
        (7, &[1]),
        (8, &[16]),
        (9, &[16]),
        (10, &[1]), // equal levels
        (11, &[0, 2, u32::MAX]),
        (12, &[0, 2]),
        (13, &[0, 2]),
        (14, &[65536]),
        (15, &[65536]),
    ] {
        for &value in values {
            refused(&|hall| hall.table[word] = value);
        }
    }
    refused(&|hall| hall.table.push(0));
    refused(&|hall| hall.table.truncate(hall.table.len() - 1));
    refused(&|hall| hall.store.push(0));
    refused(&|hall| hall.store.truncate(hall.store.len() - 1));
    refused(&|hall| hall.table.clear());
    // Sums are true sums: 2^32 - 1 and 4 make 3 only modulo 2^32.
    refused(&|hall| (hall.table[11], hall.table[19]) = (u32::MAX, 4));
    // B counts also where there are no files.
    let mut bare = Hall::unset(&[[0, 0, 0, 1, 0, 0, 0, 0]], 0);
    assert_eq!(setup(&mut bare.table, 0), XbParam);
    bare.table[4] = 64;
    assert_eq!(setup(&mut bare.table, 0), XOK);
}

#[test]
fn r25_r26_replay() {
    let bad = b"bad configuration\n".to_vec();
    let heading = b"n error first second\n".to_vec();
    // One cell, one process, no segments, one file, B 1, no guard, no subtypes.
    let configuration = [1, 1, 0, 1, 1, 0, 0, 0, 0, 0, 1, 0, 1, 0, 0];
    assert_eq!(replay(&[]), bad);
    assert_eq!(replay(&configuration), heading);
    for cut in 0..configuration.len() {
        assert_eq!(replay(&configuration[..cut]), bad);
    }
    let with = |script: &[u8]| String::from_utf8(replay(&[&configuration, script].concat())).unwrap();
    let body = |script: &[u8]| with(script).strip_prefix("n error first second\n").unwrap().to_string();
    let create = [0, 7, 128, 3, 3, 0, 0]; // bits 384, modes 3
    assert_eq!(body(&create), "1 XOK 2164260865 0\n");
    for cut in 1..create.len() {
        assert_eq!(body(&create[..cut]), "bad script\n", "cut at {cut}");
        assert_eq!(body(&[&create[..], &create[..cut]].concat()), "1 XOK 2164260865 0\nbad script\n");
    }
    // A number with a last group 0; one of 2^32; a length of 513 for a call that takes no buffer.
    assert_eq!(body(&[128, 0, 7]), "bad script\n");
    assert_eq!(body(&[255, 255, 255, 255, 16]), "bad script\n");
    assert_eq!(body(&[&[0, 7, 128, 3, 3, 0, 129, 4][..], &[0; 513]].concat()), "bad script\n");
    assert_eq!(body(&[&[0, 7, 128, 3, 3, 0, 128, 4][..], &[0; 512]].concat()), "1 XOK 2164260865 0\n");
    assert_eq!(body(&[0, 16, 0, 0, 0, 12, 1, 2, 3]), "bad script\n", "the bytes are cut");
    // Hex after a successful 17; no hex and no space after refusals.
    let status = [&[0, 17, 0, 0, 0, 16][..], &[9; 16]].concat();
    assert_eq!(body(&status), "1 XOK 0 0 04000000000001b60000000000000000\n");
    assert_eq!(body(&[&[0, 16, 0, 0, 0, 16][..], &[9; 16]].concat()), "1 XbNoMes 0 0\n");
    // A write and a read of the block; then the store of zeros beyond.
    let block = |code: u8, byte: u8| [&[0, code, 0, 0, 0, 128, 4][..], &[byte; 512]].concat();
    let listing = body(&[&create[..], &block(14, 0xa5), &block(13, 0)].concat());
    assert_eq!(listing, format!("1 XOK 2164260865 0\n2 XOK 0 0\n3 XOK 0 0 {}\n", "a5".repeat(512)));
    // Files x B is at most 64, also where 01's table would take more.
    let many = |files: u8, blocks: u8| replay(&[1, 1, 0, files, blocks, 0, 0, 0, 0, 0, 1, 0, files, 0, 0]);
    assert_eq!(many(64, 1), heading);
    assert_eq!(many(1, 64), heading);
    assert_eq!(many(0, 64), heading);
    assert_eq!(many(64, 2), bad);
    assert_eq!(many(33, 2), bad);
    assert_eq!(many(1, 65), bad);
    assert_eq!(many(0, 65), bad);
    assert_eq!(many(65, 1), bad);
    // 64 slots of a kind are as many as replay takes, though set-up takes more.
    let slots = |processes: u8, segments: u8| {
        replay(&[1, processes, segments, 1, 1, 0, 0, 0, 0, 0, processes, segments, 1, 0, 0])
    };
    assert_eq!(slots(64, 64), heading);
    assert_eq!(slots(65, 64), bad);
    assert_eq!(slots(64, 65), bad);
}
