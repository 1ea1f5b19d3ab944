//! A stand-in for the proved library: the plain monitor behind the C functions. It serves to try out the tests themselves,
//! sound and with faults put in (see faults.sh); it is no part of what is delivered.

use plain::{
    Record, Request, call, check, image, image_length, quick_tray, reload, setup, tray, view, work, work_length,
};
use std::slice::{from_raw_parts, from_raw_parts_mut};

#[repr(C)]
pub struct Answer {
    error: u32,
    first: u32,
    second: u32,
}

#[repr(C)]
pub struct Part {
    error: u32,
    from: usize,
    count: usize,
}

/// # Safety
/// As monitor.h says.
#[unsafe(no_mangle)]
pub unsafe extern "C" fn monitor_setup(table: *mut u32, words: usize, store_bytes: usize) -> u32 {
    setup(unsafe { from_raw_parts_mut(table, words) }, store_bytes) as u32
}

/// # Safety
/// As monitor.h says.
#[unsafe(no_mangle)]
pub unsafe extern "C" fn monitor_check(table: *const u32, words: usize, store_bytes: usize) -> u32 {
    u32::from(check(unsafe { from_raw_parts(table, words) }, store_bytes).is_none())
}

/// # Safety
/// As monitor.h says.
#[unsafe(no_mangle)]
pub unsafe extern "C" fn monitor_call(
    table: *mut u32,
    words: usize,
    store: *mut u8,
    bytes: usize,
    caller: u32,
    code: u32,
    a: u32,
    b: u32,
    c: u32,
    buffer: *mut u8,
    length: usize,
) -> Answer {
    let (table, store, buffer) = unsafe {
        (from_raw_parts_mut(table, words), from_raw_parts_mut(store, bytes), from_raw_parts_mut(buffer, length))
    };
    let answer = call(table, store, &Request { caller, code, a, b, c }, buffer);
    Answer { error: answer.error as u32, first: answer.first, second: answer.second }
}

/// # Safety
/// As monitor.h says.
#[unsafe(no_mangle)]
pub unsafe extern "C" fn monitor_view(
    table: *const u32,
    words: usize,
    store: *const u8,
    bytes: usize,
    caller: u32,
    a: u32,
    b: u32,
) -> Part {
    let (table, store) = unsafe { (from_raw_parts(table, words), from_raw_parts(store, bytes)) };
    match view(table, store, caller, a, b) {
        Ok(part) => Part { error: 0, from: part.as_ptr().addr() - store.as_ptr().addr(), count: part.len() },
        Err(error) => Part { error: error as u32, from: 0, count: 0 },
    }
}

/// # Safety
/// As monitor.h says.
#[unsafe(no_mangle)]
pub unsafe extern "C" fn monitor_image_length(table: *const u32, words: usize, store_bytes: usize) -> usize {
    image_length(unsafe { from_raw_parts(table, words) }, store_bytes)
}

/// # Safety
/// As monitor.h says.
#[unsafe(no_mangle)]
pub unsafe extern "C" fn monitor_image(
    table: *const u32,
    words: usize,
    store: *const u8,
    bytes: usize,
    out: *mut u8,
    length: usize,
) -> u32 {
    let (table, store) = unsafe { (from_raw_parts(table, words), from_raw_parts(store, bytes)) };
    image(table, store, unsafe { from_raw_parts_mut(out, length) }) as u32
}

/// # Safety
/// As monitor.h says.
#[unsafe(no_mangle)]
pub unsafe extern "C" fn monitor_reload(
    table: *mut u32,
    words: usize,
    store: *mut u8,
    bytes: usize,
    image: *const u8,
    length: usize,
) -> u32 {
    let (table, store) = unsafe { (from_raw_parts_mut(table, words), from_raw_parts_mut(store, bytes)) };
    reload(table, store, unsafe { from_raw_parts(image, length) }) as u32
}

/// # Safety
/// As monitor.h says.
#[unsafe(no_mangle)]
pub unsafe extern "C" fn monitor_tray(
    table: *mut u32,
    words: usize,
    store: *mut u8,
    bytes: usize,
    records: *mut Record,
    count: usize,
    buffers: *mut u8,
    length: usize,
) -> u32 {
    let (table, store) = unsafe { (from_raw_parts_mut(table, words), from_raw_parts_mut(store, bytes)) };
    let (records, buffers) = unsafe { (from_raw_parts_mut(records, count), from_raw_parts_mut(buffers, length)) };
    tray(table, store, records, buffers) as u32
}

/// # Safety
/// As monitor.h says.
#[unsafe(no_mangle)]
pub unsafe extern "C" fn monitor_work_length(table: *const u32, words: usize, store_bytes: usize) -> usize {
    work_length(unsafe { from_raw_parts(table, words) }, store_bytes)
}

/// # Safety
/// As monitor.h says.
#[unsafe(no_mangle)]
pub unsafe extern "C" fn monitor_work(
    table: *const u32,
    words: usize,
    store_bytes: usize,
    out: *mut u32,
    length: usize,
) -> u32 {
    work(unsafe { from_raw_parts(table, words) }, store_bytes, unsafe { from_raw_parts_mut(out, length) }) as u32
}

/// # Safety
/// As monitor.h says.
#[unsafe(no_mangle)]
pub unsafe extern "C" fn monitor_quick_tray(
    table: *mut u32,
    words: usize,
    store: *mut u8,
    bytes: usize,
    records: *mut Record,
    count: usize,
    buffers: *mut u8,
    buffer_bytes: usize,
    slice: *mut u32,
    slice_words: usize,
) -> u32 {
    let (table, store) = unsafe { (from_raw_parts_mut(table, words), from_raw_parts_mut(store, bytes)) };
    let (records, buffers) = unsafe { (from_raw_parts_mut(records, count), from_raw_parts_mut(buffers, buffer_bytes)) };
    quick_tray(table, store, records, buffers, unsafe { from_raw_parts_mut(slice, slice_words) }) as u32
}
