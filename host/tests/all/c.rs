//! The C side: the header as C99 and as C++, its names and numbers, and the programs of c/, linked with the archive and run.

use monitor::layout::*;
use monitor::{Access, Bits, Code, Error, Kind, Modes};
use std::collections::BTreeMap;
use std::path::{Path, PathBuf};
use std::process::Command;

fn here() -> PathBuf {
    PathBuf::from(env!("CARGO_MANIFEST_DIR"))
}

/// Compiles a program with the header, links it with the archive, runs it, and gives what it writes.
fn run(compiler: &str, words: &[&str], source: &Path, name: &str) -> String {
    let program = PathBuf::from(env!("CARGO_TARGET_TMPDIR")).join(name);
    let mut command = Command::new(compiler);
    command.args(words).args(["-Wall", "-Wextra", "-pedantic", "-Werror", "-O2", "-I"]).arg(here());
    command.arg(source).args(["-x", "none", "-o"]).arg(&program);
    command.arg("-L").arg(env!("MONITOR_LIB_DIR")).arg("-lmonitor");
    let compiled = command.status().unwrap_or_else(|error| panic!("{compiler}: {error}"));
    assert!(compiled.success(), "{command:?}");
    let output = Command::new(&program).output().expect("the program runs");
    assert!(output.status.success());
    String::from_utf8(output.stdout).expect("it writes text")
}

const FIRST_CALL: &str = "set-up: XOK
well formed: yes
spawn, owner 17, group 18: XOK, seid 67174401
spawn once more: XnoProc
create a file: XOK, seid 2164260865, descriptor 0
write its block 0: XOK
read it: XOK, \"quiet\"
view it: XOK, \"quiet\"
";

#[test]
fn first_call_in_c99() {
    assert_eq!(run("gcc", &["-std=c99"], &here().join("c/first_call.c"), "first_call"), FIRST_CALL);
}

#[test]
fn first_call_in_cpp() {
    let words = ["-std=c++11", "-x", "c++"];
    assert_eq!(run("g++", &words, &here().join("c/first_call.c"), "first_call_cpp"), FIRST_CALL);
}

const SUNDAY: &str = "with a byte less: XbSz
written: XOK
create a file: XOK, seid 2164260865
cut: XbParam
reload: XOK
create a file: XOK, seid 2164260865
";

#[test]
fn sunday_in_c99_and_cpp() {
    let source = here().join("c/sunday.c");
    let length = table_words(1, 1, 0, 1, 0) + store_bytes(1, 1) + 1; // every word of this hall is below 128, but 438, the first process's bits
    let expected = format!("the image has {length} bytes\n{SUNDAY}");
    assert_eq!(run("gcc", &["-std=c99"], &source, "sunday"), expected);
    assert_eq!(run("g++", &["-std=c++11", "-x", "c++"], &source, "sunday_cpp"), expected);
}

const TRAY: &str = "the tray: XOK, 40 bytes a record
record 0: XOK
record 1: XOK
record 2: XOK
record 3: XbSz
read back: \"quiet\"
too long: XbParam
";

#[test]
fn a_tray_in_c99_and_cpp() {
    assert_eq!(run("gcc", &["-std=c99"], &here().join("c/tray.c"), "tray"), TRAY);
    assert_eq!(run("g++", &["-std=c++11", "-x", "c++"], &here().join("c/tray.c"), "tray_cpp"), TRAY);
}

const QUICK: &str = "the working slice has 8 words
filled: XOK
first tray: XOK, the file is in slot 0
second tray: XOK, the file is in slot 1
third tray: XOK, the file is in slot 0
after a call: XbTab
filled again: XOK
fourth tray: XOK, the file is in slot 0
one word short: XbSz
";

#[test]
fn quick_trays_in_c99_and_cpp() {
    assert_eq!(run("gcc", &["-std=c99"], &here().join("c/quick.c"), "quick"), QUICK);
    assert_eq!(run("g++", &["-std=c++11", "-x", "c++"], &here().join("c/quick.c"), "quick_cpp"), QUICK);
}

const DESK: &str = "set-up: XOK
the clerk posts: XOK
the desk receives: XOK, \"which files?\" from slot 0
status: XOK, class 4 of cell 0, owner 10, group 20, bits 0666; security 1, integrity 0, compartments 00000000
status: XOK, class 4 of cell 1, owner 30, group 40, bits 0666; security 3, integrity 0, compartments 80000001
status: XnoAcc
the desk posts: XnoAcc
the clerk regrades: XnoSPriv
the desk regrades: XOK, seid 2164260865
status: XOK, class 129 of cell 0, owner 10, group 20, bits 0640; security 1, integrity 0, compartments 00000000
the clerk reads: XOK, \"all clear\"
";

#[test]
fn the_desk_in_c99_and_cpp() {
    assert_eq!(run("gcc", &["-std=c99"], &here().join("c/desk.c"), "desk"), DESK);
    assert_eq!(run("g++", &["-std=c++11", "-x", "c++"], &here().join("c/desk.c"), "desk_cpp"), DESK);
}

const DIRECTORY: &str = "set-up: XOK
the manager spawns a clerk: XOK
the manager opens the subtype: XOK
the clerk opens the subtype: XdapViol
the manager makes a directory: XOK
the clerk opens it: XbadStCap
the manager opens it: XbadStCap
the manager opens it with its subtype: XOK
the manager closes the subtype: XOK
the directory is seid 2164260865, in slot 0
";

#[test]
fn the_directory_in_c99_and_cpp() {
    assert_eq!(run("gcc", &["-std=c99"], &here().join("c/directory.c"), "directory"), DIRECTORY);
    assert_eq!(run("g++", &["-std=c++11", "-x", "c++"], &here().join("c/directory.c"), "directory_cpp"), DIRECTORY);
}

/// A name in capitals with words parted: `CreateFile` is CREATE_FILE.
fn capitals(name: &str) -> String {
    let mut out = String::new();
    for (at, letter) in name.char_indices() {
        if at > 0 && letter.is_uppercase() {
            out.push('_');
        }
        out.push(letter.to_ascii_uppercase());
    }
    out
}

#[test]
fn the_header_says_what_the_crate_says() {
    let header = std::fs::read_to_string(here().join("monitor.h")).expect("the header is there");
    // The lines of the two enums.
    let entries: Vec<(String, u32, String)> = header
        .lines()
        .filter_map(|line| {
            let (name, rest) = line.trim().strip_prefix("MONITOR_")?.split_once(" = ")?;
            let (number, comment) = rest.split_once(", /* ")?;
            Some((name.to_string(), number.parse().ok()?, comment.strip_suffix(" */")?.to_string()))
        })
        .collect();
    let codes = Code::ALL.iter().map(|code| (capitals(&format!("{code:?}")), code.number(), code.arguments()));
    let errors = Error::ALL.iter().map(|error| (error.name().to_string(), error.number(), error.meaning()));
    let expected: Vec<(String, u32, String)> = codes
        .chain([("XOK".to_string(), 0, "done")])
        .chain(errors)
        .map(|(name, number, comment)| (name, number, comment.to_string()))
        .collect();
    assert_eq!(entries, expected);

    let sizes: BTreeMap<&str, usize> = header
        .lines()
        .filter_map(|line| {
            let (name, number) = line.strip_prefix("#define MONITOR_")?.split_once(' ')?;
            Some((name, number.parse().ok()?))
        })
        .collect();
    let class = |kind: Kind| usize::from(kind.class());
    let expected = BTreeMap::from([
        ("MAX_CELLS", MAX_CELLS),
        ("MAX_SLOTS", MAX_SLOTS),
        ("MAX_BLOCKS", MAX_BLOCKS),
        ("MAX_SUBTYPES", MAX_SUBTYPES),
        ("HEADER_WORDS", HEADER_WORDS),
        ("CELL_WORDS", CELL_WORDS),
        ("SUBTYPE_WORDS", SUBTYPE_WORDS),
        ("PROCESS_WORDS", PROCESS_WORDS),
        ("SEGMENT_WORDS", SEGMENT_WORDS),
        ("FILE_WORDS", FILE_WORDS),
        ("BLOCK_BYTES", BLOCK_BYTES),
        ("TEXT_BYTES", TEXT_BYTES),
        ("MESSAGE_BYTES", MESSAGE_BYTES),
        ("STATUS_BYTES", STATUS_BYTES),
        ("IDENTITY_BYTES", IDENTITY_BYTES),
        ("HEADER_GUARD", header::GUARD),
        ("HEADER_SUBTYPES", header::SUBTYPES),
        ("PAGES", PAGES),
        ("PAGE_BYTES", PAGE_BYTES),
        ("CLASS_PROCESS", class(Kind::Process)),
        ("CLASS_SEGMENT", class(Kind::Segment)),
        ("CLASS_FILE", class(Kind::File)),
        ("CLASS_SUBTYPE", class(Kind::Subtype)),
        ("TRAY_RECORDS", monitor::TRAY_RECORDS),
        ("MODE_READ", Modes::Read as usize),
        ("MODE_WRITE", Modes::Write as usize),
        ("MODE_EXCLUSIVE_READ", 4),
        ("MODE_EXCLUSIVE_WRITE", 8),
        ("ACCESS_NONE", Access::None as usize),
        ("ACCESS_WRITE", Access::Write as usize),
        ("ACCESS_READ", Access::Read as usize),
        ("BITS_OWNER_READ", 0o400),
        ("BITS_OWNER_WRITE", 0o200),
        ("BITS_OWNER_EXECUTE", 0o100),
        ("BITS_GROUP_READ", 0o40),
        ("BITS_GROUP_WRITE", 0o20),
        ("BITS_GROUP_EXECUTE", 0o10),
        ("BITS_ALL_READ", 0o4),
        ("BITS_ALL_WRITE", 0o2),
        ("BITS_ALL_EXECUTE", 0o1),
        ("BITS_FIRST", usize::from(Bits::FIRST.0)),
        ("NO_DESIGNATOR", ENTRIES),
        ("NO_SUBTYPE", 0),
    ]);
    assert_eq!(sizes, expected);
}

/// What the header computes: the names of errors, the lengths, seids and a slot, what names a descriptor, modes and an access.
#[test]
fn the_header_computes_what_the_crate_computes() {
    let source = PathBuf::from(env!("CARGO_TARGET_TMPDIR")).join("computes.c");
    let program = "#include \"monitor.h\"
#include <stdio.h>
int main(void)
{
    uint32_t error;
    for (error = 0; error < 64; error++)
        printf(\"%s\\n\", monitor_error_name(error));
    printf(\"%zu %zu\\n\", MONITOR_TABLE_WORDS(3, 5, 7, 11, 13), MONITOR_STORE_BYTES(11, 13));
    printf(\"%lu\\n\", (unsigned long)MONITOR_SEID(MONITOR_CLASS_FILE, 2, 65535));
    printf(\"%lu\\n\", (unsigned long)MONITOR_SEID_SUBTYPE(15));
    printf(\"%lu\\n\", (unsigned long)MONITOR_SUBTYPE_AT(15));
    printf(\"%zu\\n\", MONITOR_IMAGE_BYTES(7, 11));
    printf(\"%zu\\n\", MONITOR_WORK_WORDS(3, 5, 7, 11));
    printf(\"%lu\\n\", (unsigned long)MONITOR_SEID_SLOT(MONITOR_SEID(MONITOR_CLASS_FILE, 255, 65535)));
    printf(\"%d %d %d\\n\", MONITOR_MODES_READ_WRITE, MONITOR_MODES_SOLE_WRITER, MONITOR_MODES_ALONE);
    printf(\"%d\\n\", MONITOR_ACCESS_READ_WRITE);
    return 0;
}
";
    std::fs::write(&source, program).expect("the program can be written");
    let told = run("gcc", &["-std=c99"], &source, "computes");
    let name = |number| match number {
        0 => "XOK",
        _ => Error::of(number).map_or("?", Error::name),
    };
    let mut expected: String = (0..64).map(|number| name(number).to_string() + "\n").collect();
    expected += &format!("{} {}\n", table_words(3, 5, 7, 11, 13), store_bytes(11, 13));
    expected += &format!("{}\n", u32::from(monitor::Seid::new(Kind::File, 2, 65535)));
    expected += &format!("{}\n16\n", u32::from(monitor::Seid::subtype(15)));
    expected += &format!("{}\n{}\n", image_bytes(7, 11), work_words(3, 5, 7, 11));
    expected += "255\n";
    let modes = [Modes::ReadWrite, Modes::SoleWriter, Modes::Alone].map(Modes::number);
    expected += &format!("{} {} {}\n{}\n", modes[0], modes[1], modes[2], Access::ReadWrite.number());
    assert_eq!(told, expected);
}
