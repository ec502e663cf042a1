//! The verified library through its C interface, include/lnk100.h. The only unsafe code of this project.

use crate::calls::*;

// Nothing checks these against the header: they are kept in its order and read side by side.
extern "C" {
    fn lnk100_load(
        state: *mut u64,
        state_len: usize,
        work: *mut u64,
        work_len: usize,
        file: *const u8,
        file_len: usize,
    ) -> LoadAnswer;
    fn lnk100_force(state: *mut u64, state_len: usize, name: *const u8, name_len: usize) -> CallAnswer;
    fn lnk100_base(state: *mut u64, state_len: usize, address: u64) -> CallAnswer;
    fn lnk100_reset(state: *mut u64, state_len: usize) -> CallAnswer;
    fn lnk100_memory(state: *const u64, state_len: usize) -> MemoryAnswer;
    fn lnk100_symbols(state: *const u64, state_len: usize, index: u64) -> SymbolAnswer;
    fn lnk100_undefined(state: *const u64, state_len: usize, index: u64) -> UndefinedAnswer;
    fn lnk100_end(state: *mut u64, state_len: usize, out: *mut u8, out_len: usize) -> EndAnswer;
    fn lnk100_open(feed: *mut u64, feed_len: usize) -> CallAnswer;
    fn lnk100_feed(feed: *mut u64, feed_len: usize, piece: *const u8, piece_len: usize) -> FeedAnswer;
    fn lnk100_close(
        feed: *mut u64,
        feed_len: usize,
        state: *mut u64,
        state_len: usize,
        work: *mut u64,
        work_len: usize,
    ) -> LoadAnswer;
    fn lnk100_drop(feed: *mut u64, feed_len: usize) -> CallAnswer;
}

/// The archive that was linked, so that a report can say whose answers it shows.
pub const ARCHIVE: &str = env!("LNK100_ARCHIVE");

/// The verified linker.
#[derive(Clone, Copy, Debug, Default)]
pub struct Verified;

// Safety of every call below: each pointer and its length come from one slice, borrowed for the whole call, mutably
// where the library may write; the library has no preconditions, keeps no pointer and lets no panic out.
impl Calls for Verified {
    fn load(&self, state: &mut [u64], work: &mut [u64], file: &[u8]) -> LoadAnswer {
        unsafe {
            lnk100_load(state.as_mut_ptr(), state.len(), work.as_mut_ptr(), work.len(), file.as_ptr(), file.len())
        }
    }

    fn force(&self, state: &mut [u64], name: &[u8]) -> CallAnswer {
        unsafe { lnk100_force(state.as_mut_ptr(), state.len(), name.as_ptr(), name.len()) }
    }

    fn base(&self, state: &mut [u64], address: u64) -> CallAnswer {
        unsafe { lnk100_base(state.as_mut_ptr(), state.len(), address) }
    }

    fn reset(&self, state: &mut [u64]) -> CallAnswer {
        unsafe { lnk100_reset(state.as_mut_ptr(), state.len()) }
    }

    fn memory(&self, state: &[u64]) -> MemoryAnswer {
        unsafe { lnk100_memory(state.as_ptr(), state.len()) }
    }

    fn symbols(&self, state: &[u64], index: u64) -> SymbolAnswer {
        unsafe { lnk100_symbols(state.as_ptr(), state.len(), index) }
    }

    fn undefined(&self, state: &[u64], index: u64) -> UndefinedAnswer {
        unsafe { lnk100_undefined(state.as_ptr(), state.len(), index) }
    }

    fn end(&self, state: &mut [u64], out: &mut [u8]) -> EndAnswer {
        unsafe { lnk100_end(state.as_mut_ptr(), state.len(), out.as_mut_ptr(), out.len()) }
    }

    fn open(&self, feed: &mut [u64]) -> CallAnswer {
        unsafe { lnk100_open(feed.as_mut_ptr(), feed.len()) }
    }

    fn feed(&self, feed: &mut [u64], piece: &[u8]) -> FeedAnswer {
        unsafe { lnk100_feed(feed.as_mut_ptr(), feed.len(), piece.as_ptr(), piece.len()) }
    }

    fn close(&self, feed: &mut [u64], state: &mut [u64], work: &mut [u64]) -> LoadAnswer {
        unsafe {
            lnk100_close(feed.as_mut_ptr(), feed.len(), state.as_mut_ptr(), state.len(), work.as_mut_ptr(), work.len())
        }
    }

    fn drop(&self, feed: &mut [u64]) -> CallAnswer {
        unsafe { lnk100_drop(feed.as_mut_ptr(), feed.len()) }
    }
}
