//! A safe wrapper of the proved linker's calls, over `target/staticlib/liblinker.a` (`scripts/build.sh linker`). It owns the memory that
//! the calls are lent and holds no linking logic. `examples/link.rs` and `examples/feed.rs` are whole programs.
//!
//! What each call promises stands in include/lnk100.h. `scripts/declarations.sh`, with which the gate begins, holds the declarations and
//! constants here, as those there, to the Rattle source. `Linker::load` needs 340 KB of stack, `Feed::close` 410 KB, a write to a `Feed`
//! 75 KB, each other call 9 KB (measured with an older kit: docs/PERFORMANCE.md).
#![allow(dead_code)]

use std::io::{self, Write};

pub const STATE_CELLS: usize = 8708;
pub const WORK_CELLS: usize = 65_536;
pub const FEED_CELLS: usize = 8193;
pub const FILE_BYTES: usize = 65_536;
pub const PIECE_BYTES: usize = 512;
pub const IMAGE_BYTES: usize = 45_061;

/// What `high` and the reference of `undefined` are where there is no address.
pub const NO_ADDRESS: u64 = 65_535;

/// The names of the answers, by number: document 01's, and from 17 on those of document 02's requests. No answer has the number 22.
pub const ANSWERS: [&str; 24] = [
    "DONE", "BUFFER", "DAMAGED", "RESET", "FROZEN", "TOO LONG", "LINE", "PLACE", "LIST", "ROOM", "OVERLAP", "ARG", "RANGE",
    "DUPLICATE", "TABLE", "NAME", "OUT", "FIELDS", "NUMBER", "SYMBOL", "MARKER", "TYPE", "", "FEED",
];

/// A refused call: its number, 1 to 23, and the line of the file and the line's column where they are named, else 0. A column, from 1, is
/// named with the faults of a line, 6 and 17 to 21.
#[derive(Debug, Clone, Copy, PartialEq, Eq)]
pub struct Refused {
    pub number: u64,
    pub line: u64,
    pub column: u64,
}

/// The first fault that reading a file will find, 6 to 8 or 17 to 21, told while the file is still coming.
#[derive(Debug, Clone, Copy, PartialEq, Eq)]
pub struct Advice {
    pub number: u64,
    pub line: u64,
    pub column: u64,
}

/// `value` is 0 where the symbol is not defined.
#[derive(Debug, Clone, PartialEq, Eq)]
pub struct Symbol {
    pub name: String,
    pub value: u16,
    pub defined: bool,
}

mod calls {
    #[repr(C)]
    pub struct Load { pub number: u64, pub line: u64, pub column: u64, pub rounds: u64 }
    #[repr(C)]
    pub struct Feed { pub number: u64, pub advice: u64, pub line: u64, pub column: u64 }
    #[repr(C)]
    pub struct Call { pub number: u64, pub line: u64 }
    #[repr(C)]
    pub struct Memory { pub number: u64, pub line: u64, pub high: u64 }
    #[repr(C)]
    pub struct Symbol { pub number: u64, pub line: u64, pub none: u64, pub name: u64, pub value: u64, pub defined: u64 }
    #[repr(C)]
    pub struct Undefined {
        pub number: u64, pub line: u64, pub none: u64, pub name: u64, pub value: u64, pub defined: u64, pub highest: u64,
    }
    #[repr(C)]
    pub struct End { pub number: u64, pub line: u64, pub length: u64 }

    extern "C" {
        pub fn lnk100_load(state: *mut u64, state_len: usize, work: *mut u64, work_len: usize, file: *const u8, file_len: usize) -> Load;
        pub fn lnk100_open(feed: *mut u64, feed_len: usize) -> Call;
        pub fn lnk100_feed(feed: *mut u64, feed_len: usize, piece: *const u8, piece_len: usize) -> Feed;
        pub fn lnk100_close(
            feed: *mut u64, feed_len: usize, state: *mut u64, state_len: usize, work: *mut u64, work_len: usize,
        ) -> Load;
        pub fn lnk100_drop(feed: *mut u64, feed_len: usize) -> Call;
        pub fn lnk100_force(state: *mut u64, state_len: usize, name: *const u8, name_len: usize) -> Call;
        pub fn lnk100_base(state: *mut u64, state_len: usize, address: u64) -> Call;
        pub fn lnk100_reset(state: *mut u64, state_len: usize) -> Call;
        pub fn lnk100_memory(state: *const u64, state_len: usize) -> Memory;
        pub fn lnk100_symbols(state: *const u64, state_len: usize, index: u64) -> Symbol;
        pub fn lnk100_undefined(state: *const u64, state_len: usize, index: u64) -> Undefined;
        pub fn lnk100_end(state: *mut u64, state_len: usize, out: *mut u8, out_len: usize) -> End;
    }
}

/// One link: a state, and work memory for its loads.
pub struct Linker {
    state: Vec<u64>,
    work: Vec<u64>,
}

fn done<T>(number: u64, line: u64, value: T) -> Result<T, Refused> {
    if number == 0 { Ok(value) } else { Err(Refused { number, line, column: 0 }) }
}

/// The rounds of a load or of a close.
fn loaded(a: calls::Load) -> Result<u64, Refused> {
    done(a.number, a.line, a.rounds).map_err(|refused| Refused { column: a.column, ..refused })
}

fn unpacked(name: u64) -> String {
    (0..6).rev().map(|k| (name >> (8 * k) & 255) as u8).filter(|&b| b != 0).map(char::from).collect()
}

impl Default for Linker {
    fn default() -> Self {
        Self::new()
    }
}

impl Linker {
    /// A fresh link.
    pub fn new() -> Self {
        let mut linker = Linker { state: vec![0; STATE_CELLS], work: vec![0; WORK_CELLS] };
        linker.reset();
        linker
    }

    /// Makes the link fresh: the only way on from a broken or a frozen one.
    pub fn reset(&mut self) {
        // The length is right, and RESET tests nothing else.
        unsafe { calls::lnk100_reset(self.state.as_mut_ptr(), self.state.len()) };
    }

    /// Loads a file, and gives the rounds of its library searches. Where the file is refused (6 to 14, 17 to 21) the link is broken.
    pub fn load(&mut self, file: &[u8]) -> Result<u64, Refused> {
        loaded(unsafe {
            calls::lnk100_load(
                self.state.as_mut_ptr(), self.state.len(), self.work.as_mut_ptr(), self.work.len(), file.as_ptr(), file.len(),
            )
        })
    }

    /// Names an undefined symbol, so that a library's module is taken for it. A name is 1 to 6 of A to Z, 0 to 9, `$` and `.`, the first a
    /// letter.
    pub fn force(&mut self, name: &str) -> Result<(), Refused> {
        let a = unsafe { calls::lnk100_force(self.state.as_mut_ptr(), self.state.len(), name.as_ptr(), name.len()) };
        done(a.number, a.line, ())
    }

    /// Sets the next address, 0 to 4,095.
    pub fn base(&mut self, address: u64) -> Result<(), Refused> {
        let a = unsafe { calls::lnk100_base(self.state.as_mut_ptr(), self.state.len(), address) };
        done(a.number, a.line, ())
    }

    /// HIGH, the highest address that holds a placed word; `NO_ADDRESS` where no word is placed.
    pub fn high(&self) -> Result<u64, Refused> {
        let a = unsafe { calls::lnk100_memory(self.state.as_ptr(), self.state.len()) };
        done(a.number, a.line, a.high)
    }

    /// The symbol at an index in table order, or none past the end.
    pub fn symbol(&self, index: u64) -> Result<Option<Symbol>, Refused> {
        let a = unsafe { calls::lnk100_symbols(self.state.as_ptr(), self.state.len(), index) };
        let found = Symbol { name: unpacked(a.name), value: a.value as u16, defined: a.defined == 1 };
        done(a.number, a.line, if a.none == 1 { None } else { Some(found) })
    }

    /// The undefined symbol at an index, with the highest address that refers to it, `NO_ADDRESS` if none does.
    pub fn undefined(&self, index: u64) -> Result<Option<(String, u64)>, Refused> {
        let a = unsafe { calls::lnk100_undefined(self.state.as_ptr(), self.state.len(), index) };
        done(a.number, a.line, if a.none == 1 { None } else { Some((unpacked(a.name), a.highest)) })
    }

    /// The image. It freezes the link, and may be asked again.
    pub fn end(&mut self) -> Result<Vec<u8>, Refused> {
        let mut out = vec![0; IMAGE_BYTES];
        let a = unsafe { calls::lnk100_end(self.state.as_mut_ptr(), self.state.len(), out.as_mut_ptr(), out.len()) };
        out.truncate(a.length as usize);
        done(a.number, a.line, out)
    }
}

/// A file that comes in pieces, in place of the one that `Linker::load` takes whole. What is written to it is fed, in pieces of 512 bytes
/// at most; `io::copy` does it too. Until it is closed no link is concerned. Dropped without a close, it loads nothing.
pub struct Feed {
    cells: Vec<u64>,
    advice: Option<Advice>,
}

impl Default for Feed {
    fn default() -> Self {
        Self::open()
    }
}

impl Feed {
    /// Opens a file of no bytes so far.
    pub fn open() -> Self {
        let mut feed = Feed { cells: vec![0; FEED_CELLS], advice: None };
        // The length is right and the memory zero, so this is not refused, and no piece, close or drop is for want of an open file.
        unsafe { calls::lnk100_open(feed.cells.as_mut_ptr(), feed.cells.len()) };
        feed
    }

    /// The advice that has come, if it was not taken before. A file brings one at most, with the line's end that shows its first fault.
    pub fn take_advice(&mut self) -> Option<Advice> {
        self.advice.take()
    }

    /// Loads what was written, as `Linker::load` of all of it.
    pub fn close(mut self, linker: &mut Linker) -> Result<u64, Refused> {
        let (feed, state, work) = (&mut self.cells, &mut linker.state, &mut linker.work);
        loaded(unsafe {
            calls::lnk100_close(feed.as_mut_ptr(), feed.len(), state.as_mut_ptr(), state.len(), work.as_mut_ptr(), work.len())
        })
    }
}

impl Write for Feed {
    /// One piece: the first 512 bytes, or all. It never fails; a file that is too long is told by the close.
    fn write(&mut self, bytes: &[u8]) -> io::Result<usize> {
        let piece = &bytes[..bytes.len().min(PIECE_BYTES)];
        let a = unsafe { calls::lnk100_feed(self.cells.as_mut_ptr(), self.cells.len(), piece.as_ptr(), piece.len()) };
        if a.advice != 0 {
            self.advice = Some(Advice { number: a.advice, line: a.line, column: a.column });
        }
        Ok(piece.len())
    }

    fn flush(&mut self) -> io::Result<()> {
        Ok(())
    }
}

impl Drop for Feed {
    fn drop(&mut self) {
        // Behind a close no file is open, and this is refused.
        unsafe { calls::lnk100_drop(self.cells.as_mut_ptr(), self.cells.len()) };
    }
}
