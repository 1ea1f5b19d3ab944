//! Replay in ordinary Rust: document 01's input from standard input, its listing to standard output.

use std::io::{Read, Write};

fn main() -> std::io::Result<()> {
    let mut input = Vec::new();
    std::io::stdin().read_to_end(&mut input)?;
    std::io::stdout().write_all(&plain::replay(&input))
}
