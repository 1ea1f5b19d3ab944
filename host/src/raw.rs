//! The library's functions over lent slices.

use crate::error::Error;

/// The C boundary, as in monitor.h. Neither compiler nor linker compares these declarations with the library; the tests call each of
/// them.
mod c {
    use super::{Answer, Part, Record};

    unsafe extern "C" {
        pub fn monitor_setup(table: *mut u32, words: usize, store_bytes: usize) -> u32;
        pub fn monitor_check(table: *const u32, words: usize, store_bytes: usize) -> u32;
        pub fn monitor_call(
            table: *mut u32,
            words: usize,
            store: *mut u8,
            bytes: usize,
            caller: u32,
            code: u32,
            a: u32,
            b: u32,
            c: u32,
            buffer: *mut u8,
            length: usize,
        ) -> Answer;
        pub fn monitor_view(
            table: *const u32,
            words: usize,
            store: *const u8,
            bytes: usize,
            caller: u32,
            a: u32,
            b: u32,
        ) -> Part;
        pub fn monitor_tray(
            table: *mut u32,
            words: usize,
            store: *mut u8,
            bytes: usize,
            records: *mut Record,
            count: usize,
            buffers: *mut u8,
            length: usize,
        ) -> u32;
        pub fn monitor_work_length(table: *const u32, words: usize, store_bytes: usize) -> usize;
        pub fn monitor_work(
            table: *const u32,
            words: usize,
            store_bytes: usize,
            work: *mut u32,
            work_words: usize,
        ) -> u32;
        pub fn monitor_quick_tray(
            table: *mut u32,
            words: usize,
            store: *mut u8,
            bytes: usize,
            records: *mut Record,
            count: usize,
            buffers: *mut u8,
            buffer_bytes: usize,
            work: *mut u32,
            work_words: usize,
        ) -> u32;
        pub fn monitor_image_length(table: *const u32, words: usize, store_bytes: usize) -> usize;
        pub fn monitor_image(
            table: *const u32,
            words: usize,
            store: *const u8,
            bytes: usize,
            out: *mut u8,
            length: usize,
        ) -> u32;
        pub fn monitor_reload(
            table: *mut u32,
            words: usize,
            store: *mut u8,
            bytes: usize,
            image: *const u8,
            length: usize,
        ) -> u32;
    }
}

/// What a call answers, as it comes over the boundary.
#[derive(Clone, Copy, Debug, Default, PartialEq, Eq)]
#[repr(C)]
pub struct Answer {
    /// 0, or the number of the refusal.
    pub error: u32,
    /// The first result; 0 in a refusal.
    pub first: u32,
    /// The second result; 0 in a refusal.
    pub second: u32,
}

/// What a view shows, as it comes over the boundary: a part of the store.
#[derive(Clone, Copy, Debug, Default, PartialEq, Eq)]
#[repr(C)]
pub struct Part {
    /// 0, or the number of the refusal.
    pub error: u32,
    /// Its first byte; 0 in a refusal.
    pub from: usize,
    /// How many bytes it has; 0 in a refusal.
    pub count: usize,
}

/// A call by the tray, as it goes over the boundary: its numbers, its buffer as a part of the bytes that are lent with the tray, and
/// room for its answer.
#[derive(Clone, Copy, Debug, Default, PartialEq, Eq)]
#[repr(C)]
pub struct Record {
    /// The slot of the process that makes the call.
    pub caller: u32,
    /// The call's code.
    pub code: u32,
    /// The first argument.
    pub a: u32,
    /// The second argument.
    pub b: u32,
    /// The third argument.
    pub c: u32,
    /// Where the call's part of the bytes begins.
    pub offset: u32,
    /// How long it is.
    pub length: u32,
    /// What the call answers; what stood here before is not looked at.
    pub answer: Answer,
}

impl Answer {
    /// The two results, or the refusal.
    pub fn result(self) -> Result<(u32, u32), Error> {
        Error::told(self.error)?;
        Ok((self.first, self.second))
    }
}

/// Makes the table of the header, cell and subtype words that stand in it. Refused with XbParam, it has changed nothing.
pub fn setup(table: &mut [u32], store_bytes: usize) -> Result<(), Error> {
    // SAFETY: pointer and length are those of a slice that is lent to this call alone; any length and contents are allowed.
    Error::told(unsafe { c::monitor_setup(table.as_mut_ptr(), table.len(), store_bytes) })
}

/// Whether a table is well formed beside a store of that length.
pub fn well_formed(table: &[u32], store_bytes: usize) -> bool {
    // SAFETY: pointer and length are those of a slice; the library only reads it.
    unsafe { c::monitor_check(table.as_ptr(), table.len(), store_bytes) == 0 }
}

/// One call by the process in slot `caller`, with its code and its arguments a, b and c: any numbers.
pub fn call(
    table: &mut [u32],
    store: &mut [u8],
    caller: u32,
    code: u32,
    [a, b, c]: [u32; 3],
    buffer: &mut [u8],
) -> Answer {
    // SAFETY: the pointers and lengths are those of three slices that are lent to this call alone, so they do not overlap; any
    // lengths and contents are allowed.
    unsafe {
        c::monitor_call(
            table.as_mut_ptr(),
            table.len(),
            store.as_mut_ptr(),
            store.len(),
            caller,
            code,
            a,
            b,
            c,
            buffer.as_mut_ptr(),
            buffer.len(),
        )
    }
}

/// The block that a read would copy, as a part of the store: by the process in slot `caller`, with its descriptor and the block's
/// number. The refusals are those of a read, but for the buffer's length; nothing is changed.
pub fn view<'a>(table: &[u32], store: &'a [u8], caller: u32, descriptor: u32, block: u32) -> Result<&'a [u8], Error> {
    let Part { error, from, count } = view_part(table, store, caller, descriptor, block);
    Error::told(error)?;
    Ok(&store[from..from + count])
}

/// The same by its place in the store, for hosts that keep it elsewhere.
pub fn view_part(table: &[u32], store: &[u8], caller: u32, descriptor: u32, block: u32) -> Part {
    // SAFETY: the pointers and lengths are those of two slices, which the library only reads; any lengths and contents are allowed.
    unsafe { c::monitor_view(table.as_ptr(), table.len(), store.as_ptr(), store.len(), caller, descriptor, block) }
}

/// The most records of a tray.
pub const TRAY_RECORDS: usize = 1024;

/// Runs the records in order, on a table that is judged once, and leaves each answer in its record. A tray of more than
/// [`TRAY_RECORDS`] is refused with XbParam, then a bad table with XbTab, and then nothing is changed. A part that does not lie inside
/// the bytes answers XbSz in its record, after XbPrSd and XbdKcl and before the call's own list, and the tray goes on. Parts may
/// overlap: a record sees what those before it wrote.
pub fn tray(table: &mut [u32], store: &mut [u8], records: &mut [Record], buffers: &mut [u8]) -> Result<(), Error> {
    // SAFETY: the pointers and lengths are those of four slices that are lent to this call alone, so they do not overlap; any lengths
    // and contents are allowed, and a Record is ten words as in monitor.h.
    Error::told(unsafe {
        c::monitor_tray(
            table.as_mut_ptr(),
            table.len(),
            store.as_mut_ptr(),
            store.len(),
            records.as_mut_ptr(),
            records.len(),
            buffers.as_mut_ptr(),
            buffers.len(),
        )
    })
}

/// How many words the table's working slice has; None if the table is not well formed. No slice has more than
/// [`work_words`](crate::layout::work_words) tells.
pub fn work_length(table: &[u32], store_bytes: usize) -> Option<usize> {
    // SAFETY: pointer and length are those of a slice; the library only reads it.
    let length = unsafe { c::monitor_work_length(table.as_ptr(), table.len(), store_bytes) };
    (length != 0).then_some(length)
}

/// Fills a working slice, whatever stands in it: the free slots of each cell, and the open descriptors of each file. A bad table is
/// refused with XbTab, then a slice that is not exactly as long as [`work_length`] says with XbSz, and the slice stays as it was.
pub fn work(table: &[u32], store_bytes: usize, work: &mut [u32]) -> Result<(), Error> {
    // SAFETY: the pointers and lengths are those of two slices, of which the library only reads one; the other is lent to this call
    // alone. Any lengths and contents are allowed.
    Error::told(unsafe { c::monitor_work(table.as_ptr(), table.len(), store_bytes, work.as_mut_ptr(), work.len()) })
}

/// As [`tray`], with the table's working slice behind what that takes: the answers, the table, the store and the bytes are those of a
/// tray, and the slice is the table's again, ready for the next one. After the refusals of a tray a slice that is not the table's is
/// refused with XbTab too; a refusal changes nothing, the slice included. What changes the table otherwise, a single call say, may leave
/// the slice behind: [`work`] fills it anew.
pub fn quick_tray(
    table: &mut [u32],
    store: &mut [u8],
    records: &mut [Record],
    buffers: &mut [u8],
    work: &mut [u32],
) -> Result<(), Error> {
    // SAFETY: the pointers and lengths are those of five slices that are lent to this call alone, so they do not overlap; any lengths
    // and contents are allowed, and a Record is ten words as in monitor.h.
    Error::told(unsafe {
        c::monitor_quick_tray(
            table.as_mut_ptr(),
            table.len(),
            store.as_mut_ptr(),
            store.len(),
            records.as_mut_ptr(),
            records.len(),
            buffers.as_mut_ptr(),
            buffers.len(),
            work.as_mut_ptr(),
            work.len(),
        )
    })
}

/// The length of the image of a table and a store of that length; None if the table is not well formed.
pub fn image_length(table: &[u32], store_bytes: usize) -> Option<usize> {
    // SAFETY: pointer and length are those of a slice; the library only reads it.
    let length = unsafe { c::monitor_image_length(table.as_ptr(), table.len(), store_bytes) };
    (length != 0).then_some(length)
}

/// Writes the image of table and store to the front of `out`; what is past its length stays. A bad table is refused with XbTab,
/// then an `out` that is too short with XbSz, and `out` stays as it was.
pub fn image(table: &[u32], store: &[u8], out: &mut [u8]) -> Result<(), Error> {
    // SAFETY: the pointers and lengths are those of three slices, of which the library only reads two; the third is lent to this
    // call alone, so it overlaps neither. Any lengths and contents are allowed.
    Error::told(unsafe {
        c::monitor_image(table.as_ptr(), table.len(), store.as_ptr(), store.len(), out.as_mut_ptr(), out.len())
    })
}

/// Table and store as an image has them. One that is cut, has bytes over, breaks the number form, is not well formed, or is of
/// other lengths than the slices, is refused with XbParam, and nothing is touched.
///
/// A reload is no call: it takes history back. What is promised of identifiers and of levels holds between reloads.
///
/// # Stack
///
/// The words are judged on the stack before the table is written. However small the table, the room of the largest is taken there:
/// four bytes for each of its words, 132,896, and on x86-64 some 3 KiB more. A thread whose stack is smaller overruns it, and the process
/// is ended: no refusal tells of it. Rust's threads have 2 MiB unless they are given less; of the library's other functions none takes
/// 8 KiB.
pub fn reload(table: &mut [u32], store: &mut [u8], image: &[u8]) -> Result<(), Error> {
    // SAFETY: the pointers and lengths are those of three slices, of which the library only reads the last; the others are lent to
    // this call alone, so none overlaps another. Any lengths and contents are allowed.
    Error::told(unsafe {
        c::monitor_reload(table.as_mut_ptr(), table.len(), store.as_mut_ptr(), store.len(), image.as_ptr(), image.len())
    })
}
