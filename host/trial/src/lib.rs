//! Random well-formed tables, damaged ones, random calls and replay scripts; and the trials made with them: one monitor against
//! another, the invariants, what an observer may learn. A trial takes any `Monitor`, so the plain one is tried as the proved one is;
//! behind a pointer, so that each trial is compiled once and not for every monitor anew.

pub mod absences;
pub mod calls;
pub mod counts;
pub mod damage;
pub mod differ;
pub mod findings;
pub mod images;
pub mod largest;
pub mod listings;
pub mod quick;
pub mod rng;
pub mod scripts;
pub mod secrecy;
pub mod shrink;
pub mod subtypes;
pub mod tables;
pub mod tally;
pub mod trays;

pub use calls::Call;
pub use rng::Rng;
pub use tables::World;

use std::fs;
use std::path::Path;

/// A monitor under trial, with the shape of the C functions.
pub trait Monitor {
    fn setup(&self, table: &mut [u32], store_bytes: usize) -> u32;
    fn check(&self, table: &[u32], store_bytes: usize) -> u32;
    /// Error, first and second.
    fn call(&self, table: &mut [u32], store: &mut [u8], request: &plain::Request, buffer: &mut [u8]) -> [u32; 3];

    /// A view by a caller, of a descriptor and a block: error, first byte and count.
    fn view(&self, table: &[u32], store: &[u8], caller: u32, descriptor: u32, block: u32) -> (u32, usize, usize);

    /// The tray's own answer; the records have theirs.
    fn tray(&self, table: &mut [u32], store: &mut [u8], records: &mut [plain::Record], bytes: &mut [u8]) -> u32;

    fn work_length(&self, table: &[u32], store_bytes: usize) -> usize;
    fn work(&self, table: &[u32], store_bytes: usize, work: &mut [u32]) -> u32;

    /// The tray's own answer; the records have theirs.
    fn quick_tray(
        &self,
        table: &mut [u32],
        store: &mut [u8],
        records: &mut [plain::Record],
        bytes: &mut [u8],
        work: &mut [u32],
    ) -> u32;

    fn image_length(&self, table: &[u32], store_bytes: usize) -> usize;
    fn image(&self, table: &[u32], store: &[u8], out: &mut [u8]) -> u32;
    fn reload(&self, table: &mut [u32], store: &mut [u8], image: &[u8]) -> u32;

    /// A call's name in scripts, if it has one.
    fn name(&self, _code: u32) -> Option<String> {
        None
    }

    /// What a call asks, in words, if there are any.
    fn words(&self, _request: &plain::Request) -> Option<String> {
        None
    }
}

/// The plain monitor.
pub struct Plain;

impl Monitor for Plain {
    fn setup(&self, table: &mut [u32], store_bytes: usize) -> u32 {
        plain::setup(table, store_bytes) as u32
    }

    fn check(&self, table: &[u32], store_bytes: usize) -> u32 {
        u32::from(plain::check(table, store_bytes).is_none())
    }

    fn call(&self, table: &mut [u32], store: &mut [u8], request: &plain::Request, buffer: &mut [u8]) -> [u32; 3] {
        let answer = plain::call(table, store, request, buffer);
        [answer.error as u32, answer.first, answer.second]
    }

    fn view(&self, table: &[u32], store: &[u8], caller: u32, descriptor: u32, block: u32) -> (u32, usize, usize) {
        shown(store, plain::view(table, store, caller, descriptor, block).map_err(|error| error as u32))
    }

    fn tray(&self, table: &mut [u32], store: &mut [u8], records: &mut [plain::Record], bytes: &mut [u8]) -> u32 {
        plain::tray(table, store, records, bytes) as u32
    }

    fn work_length(&self, table: &[u32], store_bytes: usize) -> usize {
        plain::work_length(table, store_bytes)
    }

    fn work(&self, table: &[u32], store_bytes: usize, work: &mut [u32]) -> u32 {
        plain::work(table, store_bytes, work) as u32
    }

    fn quick_tray(
        &self,
        table: &mut [u32],
        store: &mut [u8],
        records: &mut [plain::Record],
        bytes: &mut [u8],
        work: &mut [u32],
    ) -> u32 {
        plain::quick_tray(table, store, records, bytes, work) as u32
    }

    fn image_length(&self, table: &[u32], store_bytes: usize) -> usize {
        plain::image_length(table, store_bytes)
    }

    fn image(&self, table: &[u32], store: &[u8], out: &mut [u8]) -> u32 {
        plain::image(table, store, out) as u32
    }

    fn reload(&self, table: &mut [u32], store: &mut [u8], image: &[u8]) -> u32 {
        plain::reload(table, store, image) as u32
    }
}

/// What a view has shown, by its place in the store; a refusal shows an empty part.
pub fn shown(store: &[u8], part: Result<&[u8], u32>) -> (u32, usize, usize) {
    match part {
        Ok(part) => (0, part.as_ptr().addr() - store.as_ptr().addr(), part.len()),
        Err(error) => (error, 0, 0),
    }
}

/// Writes a file that may stand there already. It is taken away first: some file systems bring a file that is cut and written again to
/// the disk at once, and a trial would wait for that more than for anything else.
pub(crate) fn write_anew(path: &Path, bytes: &[u8]) {
    drop(fs::remove_file(path));
    fs::write(path, bytes).expect("the file can be written");
}

/// A number from the environment, or the one given.
pub fn setting(name: &str, otherwise: u64) -> u64 {
    match std::env::var(name) {
        Ok(text) => text.parse().unwrap_or_else(|_| panic!("{name} is not a number: {text}")),
        Err(_) => otherwise,
    }
}
