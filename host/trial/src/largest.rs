//! The largest store, 256 files of 64 blocks, and calls that come to its very end: drawing comes there too seldom.

use crate::calls::{Call, REGRADE};
use crate::rng::Rng;
use crate::tables::World;
use plain::table::{BLOCK_BYTES, MAX_BLOCKS, MAX_SLOTS};
use plain::{Kind, Request};

const LAST_FILE: usize = MAX_SLOTS - 1;
const LAST_BLOCK: u32 = MAX_BLOCKS - 1;

/// The guard of the hall, whose cell has all files but the last, and a clerk of a lower cell, which has the last one. Each cell has one
/// process, so that these are the numbers of the cells too.
const GUARD: u32 = 0;
const CLERK: u32 = 1;

/// The hall after set-up, with anything in its store.
pub fn hall(rng: &mut Rng) -> World {
    let header = [2, 2, 0, MAX_SLOTS as u32, MAX_BLOCKS, 1 + GUARD, 0, 0];
    let guards = [1, 0, 0, 1, 0, MAX_SLOTS as u32 - 1, 0, 0];
    let clerks = [0, 0, 0, 1, 0, 1, 0, 0];
    let mut world = World::configured(&[header, guards, clerks].concat());
    rng.bytes(&mut world.store);
    plain::setup(&mut world.table, world.store.len());
    world
}

fn call(caller: u32, code: u32, [a, b, c]: [u32; 3], buffer: Vec<u8>) -> Call {
    Call { request: Request { caller, code, a, b, c }, buffer }
}

fn block(rng: &mut Rng) -> Vec<u8> {
    let mut block = vec![0; BLOCK_BYTES];
    rng.bytes(&mut block);
    block
}

/// All that can be done with the last block of the last file, in a hall as it is after set-up.
pub fn calls(rng: &mut Rng) -> Vec<Call> {
    let file = |index: usize, serial: u32| Kind::File.seid(index, serial);
    let read =
        |caller: u32, descriptor: u32, block: u32| call(caller, 13, [descriptor, block, 0], vec![0; BLOCK_BYTES]);
    let mut write = |block_number: u32| call(CLERK, 14, [0, block_number, 0], block(rng));
    vec![
        call(CLERK, 7, [0o666, 3, 0], vec![]),
        write(LAST_BLOCK), // the file was empty: all others become zero
        read(CLERK, 0, LAST_BLOCK),
        read(CLERK, 0, LAST_BLOCK - 1),
        write(LAST_BLOCK + 1),
        read(CLERK, 0, LAST_BLOCK + 1),
        write(LAST_BLOCK - 1),
        write(0),
        call(GUARD, 8, [file(LAST_FILE, 1), 1, 0], vec![]),
        read(GUARD, 0, LAST_BLOCK),
        call(GUARD, REGRADE, [0, GUARD, 0o666], vec![0; 4]), // out of the last file
        call(GUARD, 8, [file(0, 1), 1, 0], vec![]),
        read(GUARD, 1, LAST_BLOCK),
        call(CLERK, 9, [0, 0, 0], vec![]),                   // nothing keeps it
        call(GUARD, REGRADE, [1, CLERK, 0o666], vec![0; 4]), // into the last file
        call(CLERK, 8, [file(LAST_FILE, 2), 3, 0], vec![]),
        read(CLERK, 0, LAST_BLOCK),
        write(LAST_BLOCK),
        read(CLERK, 0, LAST_BLOCK),
    ]
}

/// Whether a block of a file is the last of all.
pub fn is_last(file: usize, block: u32) -> bool {
    (file, block) == (LAST_FILE, LAST_BLOCK)
}

/// Whether a file is the last of all, and has as many blocks as a file can have.
pub fn is_last_and_whole(file: usize, blocks: usize) -> bool {
    (file, blocks) == (LAST_FILE, MAX_BLOCKS as usize)
}
