//! The page that a host developer reads first: its C program and its build line are tried as they stand. Its Rust program is tried
//! with the documentation's (src/lib.rs).

use std::fs;
use std::os::unix::fs::symlink;
use std::path::PathBuf;
use std::process::Command;

/// The blocks of the page in a language.
fn blocks(language: &str) -> Vec<String> {
    let page = fs::read_to_string(concat!(env!("CARGO_MANIFEST_DIR"), "/README.md")).expect("the page is there");
    let opening = format!("```{language}\n");
    page.split(&opening).skip(1).map(|rest| rest.split("```").next().unwrap_or_default().to_string()).collect()
}

/// A folder that looks like the repository's root: with host/, and the library in target/staticlib.
fn root(name: &str) -> PathBuf {
    let root = PathBuf::from(env!("CARGO_TARGET_TMPDIR")).join(name);
    let _ = fs::remove_dir_all(&root);
    fs::create_dir_all(root.join("target")).expect("the folder can be made");
    symlink(env!("CARGO_MANIFEST_DIR"), root.join("host")).expect("a link can be made");
    let library = fs::canonicalize(env!("MONITOR_LIB_DIR")).expect("the library is there");
    symlink(library, root.join("target/staticlib")).expect("a link can be made");
    root
}

fn run(root: &PathBuf, line: &str) -> String {
    let output = Command::new("sh").args(["-c", line]).current_dir(root).output().expect("a shell runs");
    assert!(output.status.success(), "{line}: {}", String::from_utf8_lossy(&output.stderr));
    String::from_utf8(output.stdout).expect("it writes text")
}

#[test]
fn the_build_line() {
    let lines = blocks("sh").join("");
    let line = lines.lines().find(|line| line.starts_with("cc ")).expect("there is a line to build with");
    let told = run(&root("build_line"), line);
    assert!(told.starts_with("set-up: XOK\n") && told.ends_with("view it: XOK, \"quiet\"\n"), "{told}");
}

#[test]
fn the_c_program() {
    let root = root("c_program");
    let [program] = &blocks("c")[..] else { panic!("there is one program in C") };
    fs::write(root.join("first.c"), program).expect("the program can be written");
    let build =
        "gcc -std=c99 -Wall -Wextra -pedantic -Werror -Ihost -o first first.c -Ltarget/staticlib -lmonitor && ./first";
    assert_eq!(run(&root, build), "set-up: XOK\ncreate: XOK, seid 2164260865, descriptor 0\n");
}
