//! Calls by the tray: the table is judged once, and the records are run in order.

use crate::calls::{Request, judged};
use crate::errors::Error::{self, *};
use crate::table::check;

/// A longer tray is refused.
pub const MOST_RECORDS: usize = 1_024;

/// A call whose buffer is a part of the bytes lent with the tray, and room for its answer.
#[derive(Clone, Copy, Debug, Default, PartialEq, Eq)]
#[repr(C)]
pub struct Record {
    pub caller: u32,
    pub code: u32,
    pub a: u32,
    pub b: u32,
    pub c: u32,
    pub offset: u32,
    pub length: u32,
    pub error: u32,
    pub first: u32,
    pub second: u32,
}

pub fn tray(table: &mut [u32], store: &mut [u8], records: &mut [Record], bytes: &mut [u8]) -> Error {
    if records.len() > MOST_RECORDS {
        return XbParam;
    }
    let Some(shape) = check(table, store.len()) else {
        return XbTab;
    };
    for record in records {
        let &mut Record { caller, code, a, b, c, offset, length, .. } = record;
        let end = u64::from(offset) + u64::from(length);
        let inside = end <= bytes.len() as u64;
        let part = if inside { Some(&mut bytes[offset as usize..end as usize]) } else { None };
        let answer = judged(&shape, table, store, &Request { caller, code, a, b, c }, part);
        (record.error, record.first, record.second) = (answer.error as u32, answer.first, answer.second);
    }
    XOK
}
