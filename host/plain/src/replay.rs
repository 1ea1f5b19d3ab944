//! The replay program's work: from the input of document 01 to its listing.

use crate::calls::{Request, call};
use crate::errors::Error::XOK;
use crate::table::*;
use std::io::Write;

/// Replay's own limits: slots of each kind in all, and blocks of the whole store.
const MAX_REPLAY_SLOTS: u32 = 64;
const MAX_STORE_BLOCKS: u32 = 64;
const MAX_BUFFER: usize = 512;
/// The words of the header that stand in the input: all but its zero.
pub const HEADER_NUMBERS: usize = 7;

/// One number in seven-bit groups, low group first, in its shortest form and below 2^32. None if it is cut or bad.
pub fn number(input: &mut &[u8]) -> Option<u32> {
    let mut value = 0;
    for group in 0..5 {
        let (&byte, rest) = input.split_first()?;
        *input = rest;
        let digit = u32::from(byte & 127);
        if group == 4 && digit > 15 {
            return None;
        }
        value |= digit << (7 * group);
        if byte < 128 {
            let shortest = group == 0 || byte != 0;
            return shortest.then_some(value);
        }
    }
    None
}

/// The table after set-up, and its store.
fn configure(input: &mut &[u8]) -> Option<(Vec<u32>, Vec<u8>)> {
    let mut table = vec![0; HEADER_WORDS];
    for word in &mut table[..HEADER_NUMBERS] {
        *word = number(input)?;
    }
    let [cells, processes, segments, files, blocks, _, subtypes, _] = table[..] else {
        return None;
    };
    let small = |count| count <= MAX_REPLAY_SLOTS;
    let sizes_good = cells as usize <= MAX_CELLS
        && subtypes as usize <= MAX_SUBTYPES
        && small(processes)
        && small(segments)
        && small(files);
    if !sizes_good || files.checked_mul(blocks).is_none_or(|all| all > MAX_STORE_BLOCKS) {
        return None;
    }
    for _ in 0..CELL_WORDS * cells as usize + SUBTYPE_WORDS * subtypes as usize {
        table.push(number(input)?);
    }
    let records = PROCESS_WORDS * processes as usize + SEGMENT_WORDS * segments as usize + FILE_WORDS * files as usize;
    table.resize(table.len() + records, 0);
    let store = vec![0; (files * blocks) as usize * BLOCK_BYTES];
    (setup(&mut table, store.len()) == XOK).then_some((table, store))
}

/// A call and its buffer's bytes, or None if the script is at fault here.
fn next_call<'a>(input: &mut &'a [u8]) -> Option<(Request, &'a [u8])> {
    let request = Request {
        caller: number(input)?,
        code: number(input)?,
        a: number(input)?,
        b: number(input)?,
        c: number(input)?,
    };
    let length = number(input)? as usize;
    if length > MAX_BUFFER {
        return None;
    }
    let (bytes, rest) = input.split_at_checked(length)?;
    *input = rest;
    Some((request, bytes))
}

pub fn replay(mut input: &[u8]) -> Vec<u8> {
    let Some((mut table, mut store)) = configure(&mut input) else {
        return b"bad configuration\n".to_vec();
    };
    let mut listing = b"n error first second\n".to_vec();
    let mut buffer = [0; MAX_BUFFER];
    let mut line = 0u64;
    while !input.is_empty() {
        let Some((request, bytes)) = next_call(&mut input) else {
            listing.extend_from_slice(b"bad script\n");
            break;
        };
        let buffer = &mut buffer[..bytes.len()];
        buffer.copy_from_slice(bytes);
        let answer = call(&mut table, &mut store, &request, buffer);
        line += 1;
        write!(listing, "{line} {:?} {} {}", answer.error, answer.first, answer.second)
            .expect("a vector takes every write");
        if answer.error == XOK && matches!(request.code, 13 | 16 | 17) {
            listing.push(b' ');
            hex(buffer, &mut listing);
        }
        listing.push(b'\n');
    }
    listing
}

fn hex(bytes: &[u8], listing: &mut Vec<u8>) {
    const DIGITS: &[u8; 16] = b"0123456789abcdef";
    for &byte in bytes {
        listing.push(DIGITS[usize::from(byte >> 4)]);
        listing.push(DIGITS[usize::from(byte & 15)]);
    }
}
