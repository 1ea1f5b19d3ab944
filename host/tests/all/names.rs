//! The names and numbers of calls, refusals, modes, accesses and identifiers are those of documents 01 and 02.

use monitor::{Access, Code, Error, Kind, Modes, Seid};

const TABLE: &str = "
| 0 XOK | 1 XbTab | 2 XbPrSd | 3 XbdKcl |
| 4 XbParam | 5 XbSz | 6 XbSgSz | 7 XbadModes |
| 8 XnSgDes | 9 XbSgDes | 10 XbadOd | 11 XbSgSd |
| 12 XnoObj | 13 XnoAcc | 14 XnoOwner | 15 XnoPriv |
| 16 XdapViol | 17 XsgNoAcc | 18 XdupSg | 19 Xbusy |
| 20 XnotReadable | 21 XnotWritable | 22 XbadBlockNo | 23 XendOfFile |
| 24 XbadLink | 25 XodSpace | 26 XnoSpace | 27 XnoProc |
| 28 XpostEh | 29 XbNoMes | | |
| 30 XoutSgAldUmp | 31 XinSgAldMap | 32 XvrtMmCfl | 33 XshSg |
| 34 XnoSPriv | 35 XbadStCap | 36 XbadSubtypeMatch | |
";

#[test]
fn errors_of_the_documents() {
    let mut listed = Vec::new();
    for entry in TABLE.split('|').map(str::trim).filter(|entry| !entry.is_empty()).skip(1) {
        let (number, name) = entry.split_once(' ').unwrap();
        let number: u32 = number.parse().unwrap();
        let error = Error::of(number).unwrap();
        assert_eq!((error.number(), error.name()), (number, name));
        assert_eq!(error.to_string(), format!("{name}: {}", error.meaning()));
        listed.push(error);
    }
    assert_eq!(listed, Error::ALL);
    assert_eq!((Error::of(0), Error::of(listed.len() as u32 + 1), Error::of(u32::MAX)), (None, None, None));
}

/// No code stands twice, and none but those listed is one.
#[test]
fn codes() {
    let listed: Vec<u32> = Code::ALL.iter().map(|code| code.number()).collect();
    assert!(listed.is_sorted_by(|one, next| one < next));
    for number in (0..1024).chain([u32::MAX]) {
        assert_eq!(Code::of(number).map(Code::number), listed.contains(&number).then_some(number));
    }
    let mut names: Vec<&str> = Code::ALL.iter().map(|code| code.name()).collect();
    names.sort();
    assert!(names.is_sorted_by(|one, next| one < next));
}

#[test]
fn numbers_and_words() {
    for number in 0..1024 {
        assert_eq!(Modes::of(number).map(Modes::number), [1, 2, 3, 11, 15].contains(&number).then_some(number));
        assert_eq!(Access::of(number).map(Access::number), (number & !384 == 0).then_some(number));
    }
    for (word, text) in [
        (67305479, "process 3 (use 7)"),
        (0x05ff_ffff, "segment 255 (use 65535)"),
        (2164260865, "file 0 (use 1)"),
        (0x060f_0001, "subtype 15"),
        (0x0600_0002, "subtype 0 (use 2)"),
        (0, "itself"),
        (1, "an object of class 0 (word 1)"),
        (u32::MAX, "an object of class 255 (word 4294967295)"),
    ] {
        let seid = Seid::from(word);
        assert_eq!((seid.to_string().as_str(), u32::from(seid)), (text, word));
        if let Some(kind) = seid.kind() {
            assert_eq!(Seid::new(kind, seid.slot() as u8, seid.serial() as u16), seid);
        }
    }
    assert_eq!(Kind::ALL.map(Kind::class), [4, 5, 129, 6]);
    assert_eq!(u32::from(Seid::subtype(15)), 0x060f_0001);
    assert_eq!(monitor::Bits(0o644).to_string(), "rw-r--r--");
    assert_eq!(monitor::Bits(0o137).to_string(), "--x-wxrwx");
}
