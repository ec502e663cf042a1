//! include/lnk100.h over the Rust linker: a static library that can be linked in place of the verified one.

use std::slice::{from_raw_parts, from_raw_parts_mut};

use compare::calls::*;
use compare::lent::Lent;

/// # Safety
/// In this and every call below, each pointer must be valid for its length, and what is written to not shared.
#[no_mangle]
pub unsafe extern "C" fn lnk100_load(
    state: *mut u64,
    state_len: usize,
    work: *mut u64,
    work_len: usize,
    file: *const u8,
    file_len: usize,
) -> LoadAnswer {
    let (state, work) = (from_raw_parts_mut(state, state_len), from_raw_parts_mut(work, work_len));
    Lent.load(state, work, from_raw_parts(file, file_len))
}

/// # Safety
/// As above.
#[no_mangle]
pub unsafe extern "C" fn lnk100_force(
    state: *mut u64,
    state_len: usize,
    name: *const u8,
    name_len: usize,
) -> CallAnswer {
    Lent.force(from_raw_parts_mut(state, state_len), from_raw_parts(name, name_len))
}

/// # Safety
/// As above.
#[no_mangle]
pub unsafe extern "C" fn lnk100_base(state: *mut u64, state_len: usize, address: u64) -> CallAnswer {
    Lent.base(from_raw_parts_mut(state, state_len), address)
}

/// # Safety
/// As above.
#[no_mangle]
pub unsafe extern "C" fn lnk100_reset(state: *mut u64, state_len: usize) -> CallAnswer {
    Lent.reset(from_raw_parts_mut(state, state_len))
}

/// # Safety
/// As above.
#[no_mangle]
pub unsafe extern "C" fn lnk100_memory(state: *const u64, state_len: usize) -> MemoryAnswer {
    Lent.memory(from_raw_parts(state, state_len))
}

/// # Safety
/// As above.
#[no_mangle]
pub unsafe extern "C" fn lnk100_symbols(state: *const u64, state_len: usize, index: u64) -> SymbolAnswer {
    Lent.symbols(from_raw_parts(state, state_len), index)
}

/// # Safety
/// As above.
#[no_mangle]
pub unsafe extern "C" fn lnk100_undefined(state: *const u64, state_len: usize, index: u64) -> UndefinedAnswer {
    Lent.undefined(from_raw_parts(state, state_len), index)
}

/// # Safety
/// As above.
#[no_mangle]
pub unsafe extern "C" fn lnk100_end(state: *mut u64, state_len: usize, out: *mut u8, out_len: usize) -> EndAnswer {
    Lent.end(from_raw_parts_mut(state, state_len), from_raw_parts_mut(out, out_len))
}

/// # Safety
/// As above.
#[no_mangle]
pub unsafe extern "C" fn lnk100_open(feed: *mut u64, feed_len: usize) -> CallAnswer {
    Lent.open(from_raw_parts_mut(feed, feed_len))
}

/// # Safety
/// As above.
#[no_mangle]
pub unsafe extern "C" fn lnk100_feed(
    feed: *mut u64,
    feed_len: usize,
    piece: *const u8,
    piece_len: usize,
) -> FeedAnswer {
    Lent.feed(from_raw_parts_mut(feed, feed_len), from_raw_parts(piece, piece_len))
}

/// # Safety
/// As above.
#[no_mangle]
pub unsafe extern "C" fn lnk100_close(
    feed: *mut u64,
    feed_len: usize,
    state: *mut u64,
    state_len: usize,
    work: *mut u64,
    work_len: usize,
) -> LoadAnswer {
    let (state, work) = (from_raw_parts_mut(state, state_len), from_raw_parts_mut(work, work_len));
    Lent.close(from_raw_parts_mut(feed, feed_len), state, work)
}

/// # Safety
/// As above.
#[no_mangle]
pub unsafe extern "C" fn lnk100_drop(feed: *mut u64, feed_len: usize) -> CallAnswer {
    Lent.drop(from_raw_parts_mut(feed, feed_len))
}
