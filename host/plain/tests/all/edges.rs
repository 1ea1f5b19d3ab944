//! The vectors of document 01: the listing, the error table, the edges, the faults it calls tempting.

use crate::common::*;
use plain::Error::*;
use plain::{Error, Level, clash, granted, number, replay, valid_modes};

fn script(words: &[u32]) -> Vec<u8> {
    let mut bytes = Vec::new();
    for &word in words {
        let mut rest = word;
        while rest > 127 {
            bytes.push((rest & 127 | 128) as u8);
            rest >>= 7;
        }
        bytes.push(rest as u8);
    }
    bytes
}

/// The configuration of the listing: two cells, security 1 and 3, two process and two file slots each, B 1, no guard, no
/// subtypes.
fn listing_configuration() -> Vec<u8> {
    script(&[2, 4, 0, 4, 1, 0, 0, 1, 0, 0, 2, 0, 2, 0, 0, 3, 0, 0, 2, 0, 2, 0, 0])
}

#[test]
fn the_listing() {
    let mut input = listing_configuration();
    let that = 2164260865;
    for call in [
        [0, 7, 420, 3, 0, 0],
        [2, 8, that, 1, 0, 0],
        [0, 7, 420, 1, 0, 0],
        [0, 7, 420, 1, 0, 0],
        [0, 9, 0, 0, 0, 0],
        [2, 13, 0, 0, 0, 512],
        [0, 7, 420, 3, 0, 0],
        [2, 13, 0, 0, 0, 512],
    ] {
        input.extend(script(&call));
        input.resize(input.len() + call[5] as usize, 0);
    }
    let expected = "n error first second
1 XOK 2164260865 0
2 XOK 0 0
3 XOK 2164326401 1
4 XnoSpace 0 0
5 XOK 0 0
6 XnoObj 0 0
7 XOK 2164260866 0
8 XnoObj 0 0
";
    assert_eq!(String::from_utf8(replay(&input)).unwrap(), expected);
}

#[test]
fn error_names() {
    let names = "XOK XbTab XbPrSd XbdKcl XbParam XbSz XbSgSz XbadModes XnSgDes XbSgDes XbadOd XbSgSd XnoObj XnoAcc XnoOwner \
                 XnoPriv XdapViol XsgNoAcc XdupSg Xbusy XnotReadable XnotWritable XbadBlockNo XendOfFile XbadLink XodSpace \
                 XnoSpace XnoProc XpostEh XbNoMes XoutSgAldUmp XinSgAldMap XvrtMmCfl XshSg XnoSPriv XbadStCap \
                 XbadSubtypeMatch";
    let errors = [
        XOK,
        XbTab,
        XbPrSd,
        XbdKcl,
        XbParam,
        XbSz,
        XbSgSz,
        XbadModes,
        XnSgDes,
        XbSgDes,
        XbadOd,
        XbSgSd,
        XnoObj,
        XnoAcc,
        XnoOwner,
        XnoPriv,
        XdapViol,
        XsgNoAcc,
        XdupSg,
        Xbusy,
        XnotReadable,
        XnotWritable,
        XbadBlockNo,
        XendOfFile,
        XbadLink,
        XodSpace,
        XnoSpace,
        XnoProc,
        XpostEh,
        XbNoMes,
        XoutSgAldUmp,
        XinSgAldMap,
        XvrtMmCfl,
        XshSg,
        XnoSPriv,
        XbadStCap,
        XbadSubtypeMatch,
    ];
    assert_eq!(names.split_whitespace().count(), errors.len());
    for (at, (name, error)) in names.split_whitespace().zip(errors).enumerate() {
        assert_eq!((format!("{error:?}").as_str(), error as usize), (name, at));
    }
}

#[test]
fn levels() {
    let level = |security, integrity, compartments| Level { security, integrity, compartments };
    assert!(level(1, 0, 0).flows_to(level(3, 0, 0)) && !level(3, 0, 0).flows_to(level(1, 0, 0)));
    assert!(level(0, 5, 0).flows_to(level(0, 3, 0)) && !level(0, 3, 0).flows_to(level(0, 5, 0)));
    assert!(!level(0, 0, 5).flows_to(level(15, 0, 4)) && level(0, 0, 4).flows_to(level(0, 0, 5)));
    assert!(level(2, 3, 9).flows_to(level(2, 3, 9)));
}

#[test]
fn seids_bits_and_modes() {
    assert_eq!(process(3, 7), 67305479);
    assert_eq!(granted(4, true, true), 0);
    assert_eq!(granted(420, false, false), 256);
    assert_eq!(granted(0o060, false, true), 384);
    assert_eq!((0..70).filter(|&modes| valid_modes(modes)).collect::<Vec<u32>>(), [1, 2, 3, 11, 15]);
    // Among the valid: 15 clashes with all, 11 with every writer.
    for x in [1, 2, 3, 11, 15] {
        for y in [1, 2, 3, 11, 15] {
            let expected = x == 15 || y == 15 || (x == 11 && y != 1) || (y == 11 && x != 1);
            assert_eq!(clash(x, y), expected, "{x} {y}");
        }
    }
}

#[test]
fn numbers() {
    let read = |mut bytes: &[u8]| number(&mut bytes).map(|value| (value, bytes.len()));
    assert_eq!(read(&[172, 2]), Some((300, 0)));
    assert_eq!(read(&[0, 9]), Some((0, 1)));
    assert_eq!(read(&[127]), Some((127, 0)));
    assert_eq!(read(&[128, 1]), Some((128, 0)));
    assert_eq!(read(&[255, 255, 255, 255, 15]), Some((u32::MAX, 0)));
    for bad in [&[][..], &[128], &[128, 0], &[129, 128, 0], &[255, 255, 255, 255, 16], &[255, 255, 255, 255, 143, 0]] {
        assert_eq!(read(bad), None, "{bad:?}");
    }
}

#[test]
fn free_serial_65535_is_passed_over() {
    let mut hall = Hall::two_levels();
    hall.process(1)[1] = 65535;
    hall.file(0)[1] = 65535;
    hall.segment(0)[1] = 65534;
    assert_eq!(hall.done(0, SPAWN, [0, 0, 0]), (process(2, 1), 0));
    assert_eq!(hall.error(0, SPAWN, [0, 0, 0]), XnoProc);
    assert_eq!(hall.done(0, CREATE, [420, 1, 0]), (file(1, 1), 0));
    hall.segment(1)[1] = 65535;
    hall.segment(2)[1] = 65535;
    assert_eq!(hall.done(0, BUILD, [512, 384, 0]), (segment(0, 65535), 0));
    hall.done(0, RELEASE_SEGMENT, [0; 3]);
    assert_eq!(hall.error(0, BUILD, [512, 384, 0]), XnoSpace);
}

#[test]
fn post_up_to_an_absent_process() {
    let mut hall = Hall::two_levels();
    let before = hall.clone();
    for absent in [process(4, 1), process(3, 2), process(3, 65535), process(5, 9)] {
        assert_eq!(hall.post(0, absent, b"twelve bytes"), XOK);
        assert_eq!(hall, before);
    }
}

#[test]
fn segment_sizes() {
    let mut hall = Hall::new(&[[0, 0, 0, 1, 4, 0, 7, 7]], 1);
    for size in [512, 65024] {
        assert_eq!(hall.error(0, BUILD, [size, 0, 0]), XOK, "{size}");
    }
    for size in [0, 513, 65536] {
        assert_eq!(hall.error(0, BUILD, [size, 0, 0]), XbSgSz, "{size}");
    }
}

#[test]
fn ninth_message() {
    let mut hall = Hall::two_levels();
    let neighbour = hall.done(0, SPAWN, [0, 0, 0o600]).0;
    for k in 0..8 {
        assert_eq!(hall.post(0, neighbour, &[k; 12]), XOK);
    }
    assert_eq!(hall.post(0, neighbour, &[8; 12]), XpostEh);
    // "A message with k ahead comes out at its receiver's receive k+1."
    for k in 0..8 {
        let mut expected = [k; 16];
        expected[..4].copy_from_slice(&process(0, 1).to_be_bytes());
        assert_eq!(hall.receive(1), Ok(expected));
    }
    assert_eq!(hall.receive(1), Err(XbNoMes));
    assert!(hall.process(1)[72..].iter().all(|&word| word == 0));
}

#[test]
fn link_256() {
    let mut hall = Hall::two_levels();
    let seid = hall.done(0, CREATE, [420, 1, 0]).0;
    for _ in 0..255 {
        hall.done(0, LINK, [seid, 0, 0]);
    }
    assert_eq!(hall.error(0, LINK, [seid, 0, 0]), XbadLink);
    assert_eq!(hall.file(0)[5], 255);
}

#[test]
fn block_b() {
    let mut hall = Hall::two_levels();
    hall.done(0, CREATE, [420, 3, 0]);
    assert_eq!(hall.write(0, 0, 2, 7), XbadBlockNo);
    assert_eq!(hall.read(0, 0, 2), Err(XbadBlockNo));
    assert_eq!(hall.write(0, 0, 1, 7), XOK);
    assert_eq!(hall.read(0, 0, 1), Ok([7; 512]));
}

#[test]
fn tempting_a_higher_reader_is_not_counted() {
    let mut hall = Hall::two_levels();
    let seid = hall.done(0, CREATE, [420, 3, 0]).0;
    let lower = hall.file(0).to_vec();
    hall.done(3, OPEN, [seid, 1, 0]);
    assert_eq!(hall.file(0), lower);
    let held = hall.done(0, BUILD, [512, 0o644, 1]).0;
    let lower = hall.segment(0).to_vec();
    hall.done(3, RENDEZVOUS, [held, 256, 0]);
    assert_eq!(hall.segment(0), lower);
    // It neither keeps the file nor is asked when it goes, and it does not block an exclusive open.
    hall.done(0, CLOSE, [0; 3]);
    assert_eq!(hall.file(0), [0, 1, 0, 0, 0, 0, 0, 0, 0]);
    let seid = hall.done(0, CREATE, [420, 3, 0]).0;
    hall.done(3, OPEN, [seid, 1, 0]);
    hall.done(0, LINK, [seid, 0, 0]);
    hall.done(0, CLOSE, [0; 3]);
    assert_eq!(hall.done(0, OPEN, [seid, 15, 0]), (0, 0));
    assert_eq!(hall.error(3, OPEN, [seid, 1, 0]), XOK, "nor is it blocked");
    assert_eq!(hall.error(0, OPEN, [seid, 1, 0]), Xbusy);
}

#[test]
fn tempting_a_full_higher_queue_is_not_told() {
    let mut hall = Hall::two_levels();
    for k in 0..8 {
        assert_eq!(hall.post(0, process(3, 1), &[k; 12]), XOK);
    }
    let before = hall.clone();
    assert_eq!(hall.post(0, process(3, 1), &[8; 12]), XOK);
    assert_eq!(hall, before);
}

#[test]
fn tempting_bits_are_judged_anew() {
    let mut hall = Hall::two_levels();
    let seid = hall.done(0, CREATE, [0o600, 3, 0]).0;
    hall.done(0, SET_BITS, [seid, 0o200, 0]);
    assert_eq!(hall.read(0, 0, 0), Err(XdapViol));
    assert_eq!(hall.write(0, 0, 0, 1), XOK);
    hall.done(0, SET_BITS, [seid, 0o400, 0]);
    assert_eq!(hall.write(0, 0, 0, 2), XdapViol);
    assert_eq!(hall.read(0, 0, 0), Ok([1; 512]));
}

#[test]
fn tempting_all_bits_do_not_help_an_owner() {
    let mut hall = Hall::two_levels();
    let seid = hall.done(0, CREATE, [0o066, 1, 0]).0;
    assert_eq!(hall.error(0, OPEN, [seid, 1, 0]), XdapViol);
    assert_eq!(hall.read(0, 0, 0), Err(XdapViol));
    let same_group = hall.done(0, SPAWN, [5, 0, 0]).0;
    hall.done(0, SET_BITS, [seid, 0o006, 0]);
    assert_eq!(hall.error(1, OPEN, [seid, 1, 0]), XdapViol, "nor one of the group: {same_group}");
    hall.done(0, SPAWN, [5, 5, 0]);
    assert_eq!(hall.error(2, OPEN, [seid, 1, 0]), XOK);
}

#[test]
fn order_for_all_calls() {
    let mut hall = Hall::two_levels();
    for code in [0, 22, 23, u32::MAX] {
        assert_eq!(hall.error(0, code, [0; 3]), XbdKcl);
        assert_eq!(hall.error(1, code, [0; 3]), XbPrSd, "not live");
        assert_eq!(hall.error(6, code, [0; 3]), XbPrSd, "out of range");
    }
    for code in 0..23 {
        let mut short = hall.clone();
        short.table.pop();
        assert_eq!(short.error(9, code, [0; 3]), XbTab);
        let mut long = hall.clone();
        long.store.push(0);
        assert_eq!(long.error(0, code, [0; 3]), XbTab);
    }
}

#[test]
fn status_bytes() {
    let mut hall = Hall::new(&[[1, 7, 0x80000001, 1, 1, 1, 258, 772], [3, 2, 0x80000003, 1, 0, 0, 5, 6]], 1);
    let file = hall.done(0, CREATE, [0o604, 1, 0]).0;
    let segment = hall.done(0, BUILD, [512, 0o777, 1]).0;
    let level = [1, 7, 0x80, 0, 0, 1, 0, 0];
    let status = |class, bits: [u8; 2]| [&[class, 0, 1, 2, 3, 4], &bits[..], &level].concat();
    for caller in [0, 1] {
        assert_eq!(hall.status(caller, file).unwrap().to_vec(), status(129, [1, 0x84]));
        assert_eq!(hall.status(caller, segment).unwrap().to_vec(), status(5, [1, 0xff]));
        assert_eq!(hall.status(caller, process(0, 1)).unwrap().to_vec(), status(4, [1, 0xb6]));
    }
    assert_eq!(hall.status(1, 0).unwrap(), [4, 1, 0, 5, 0, 6, 1, 0xb6, 3, 2, 0x80, 0, 0, 3, 0, 0]);
    assert_eq!(hall.status(0, process(1, 1)), Err(XnoAcc));
    let wrong: Error = hall.with(0, STATUS, [0; 3], &mut [0; 15]).error;
    assert_eq!(wrong, XbSz);
}
