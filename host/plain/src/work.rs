//! The working slice, which has what a table's slots and descriptors have in another order, and trays that are run with it. It is made
//! anew for each question: what a quick tray leaves is told here as simply as can be, and no time is saved.

use crate::errors::Error::{self, *};
use crate::seid::{Kind, Seid};
use crate::table::*;
use crate::tray::{MOST_RECORDS, Record, tray};

/// The words of a working slice; None if the table is bad.
fn made(table: &[u32], store_bytes: usize) -> Option<Vec<u32>> {
    let shape = check(table, store_bytes)?;
    let mut words = Vec::new();
    for kind in Kind::ALL {
        for cell in 0..shape.cells {
            push_free(&mut words, &shape, table, kind, cell);
        }
    }
    for cell in 0..shape.cells {
        for process in shape.run(Kind::Process, cell) {
            push_opens(&mut words, &shape, table, process, cell);
        }
    }
    Some(words)
}

/// The free slots of a cell that have a serial left: how many, then serial and index of each, falling, then zeros.
fn push_free(words: &mut Vec<u32>, shape: &Shape, table: &[u32], kind: Kind, cell: usize) {
    let slots = shape.run(kind, cell);
    let mut keys = vec![0; slots.len()];
    let mut count = 0;
    for index in slots {
        let record = &table[shape.record(kind, index)];
        if record[LIVE] == 0 && record[SERIAL] < MAX_SERIAL {
            keys[count] = record[SERIAL] * MAX_SLOTS as u32 + index as u32;
            count += 1;
        }
    }
    keys[..count].sort_by(|one, other| other.cmp(one));
    words.push(count as u32);
    words.extend(keys);
}

/// For each file of a process's cell the descriptors of the process that hold it, one in each bit.
fn push_opens(words: &mut Vec<u32>, shape: &Shape, table: &[u32], process: usize, cell: usize) {
    let at = shape.at(Kind::Process, process);
    let (descriptors, _) = table[at + DESCRIPTORS..at + DESIGNATORS].as_chunks();
    let files = shape.run(Kind::File, cell);
    let mut masks = vec![0; files.len()];
    for (descriptor, &[word, _]) in descriptors.iter().enumerate() {
        let seid = Seid::of(word);
        if seid.class == Kind::File.class() && files.contains(&seid.index) {
            masks[seid.index - files.start] |= 1 << descriptor;
        }
    }
    words.extend(masks);
}

/// How many words the working slice of a table has; 0 if the table is bad.
pub fn work_length(table: &[u32], store_bytes: usize) -> usize {
    made(table, store_bytes).map_or(0, |words| words.len())
}

/// Fills a working slice.
pub fn work(table: &[u32], store_bytes: usize, out: &mut [u32]) -> Error {
    let Some(words) = made(table, store_bytes) else {
        return XbTab;
    };
    if out.len() != words.len() {
        return XbSz;
    }
    out.copy_from_slice(&words);
    XOK
}

/// A tray beside a working slice, which must be the table's; afterwards it is again.
pub fn quick_tray(
    table: &mut [u32],
    store: &mut [u8],
    records: &mut [Record],
    bytes: &mut [u8],
    slice: &mut [u32],
) -> Error {
    if records.len() > MOST_RECORDS {
        return XbParam;
    }
    let Some(words) = made(table, store.len()) else {
        return XbTab;
    };
    if slice != words {
        return XbTab;
    }
    let answer = tray(table, store, records, bytes);
    work(table, store.len(), slice);
    answer
}
