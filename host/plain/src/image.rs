//! The evening image and the morning reload: every word of the table in the seven-bit groups of the replay input, then the store.

use crate::errors::Error::{self, XOK, XbParam, XbSz, XbTab};
use crate::replay::number;
use crate::table::check;

/// The bytes that a number takes.
fn groups(value: u32) -> usize {
    (32 - (value | 1).leading_zeros() as usize).div_ceil(7)
}

/// The length of the image of a table and a store of that length; 0 if the table is bad.
pub fn image_length(table: &[u32], store_bytes: usize) -> usize {
    match check(table, store_bytes) {
        Some(_) => table.iter().map(|&word| groups(word)).sum::<usize>() + store_bytes,
        None => 0,
    }
}

/// Writes the image to the front of `out`.
pub fn image(table: &[u32], store: &[u8], out: &mut [u8]) -> Error {
    let length = image_length(table, store.len());
    if length == 0 {
        return XbTab;
    }
    let Some(out) = out.get_mut(..length) else {
        return XbSz;
    };
    let (words, bytes) = out.split_at_mut(length - store.len());
    let mut places = words.iter_mut();
    let mut put = |byte: u32| *places.next().expect("the length is exact") = byte as u8;
    for &word in table {
        let mut rest = word;
        while rest > 127 {
            put(rest & 127 | 128);
            rest >>= 7;
        }
        put(rest);
    }
    bytes.copy_from_slice(store);
    XOK
}

/// Table and store as an image has them; a refusal touches neither.
pub fn reload(table: &mut [u32], store: &mut [u8], image: &[u8]) -> Error {
    let mut rest = image;
    let mut words = Vec::with_capacity(table.len());
    for _ in 0..table.len() {
        let Some(word) = number(&mut rest) else {
            return XbParam;
        };
        words.push(word);
    }
    if rest.len() != store.len() || check(&words, store.len()).is_none() {
        return XbParam;
    }
    table.copy_from_slice(&words);
    store.copy_from_slice(&rest[..store.len()]);
    XOK
}
