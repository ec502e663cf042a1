//! The public calls on lent memory, as the C interface has them.

/// An answer of LOAD or CLOSE. In every answer a refusal has 0 in each field but `number`, `line` and their `column`.
#[repr(C)]
#[derive(Clone, Copy, Debug, Default, PartialEq, Eq)]
pub struct LoadAnswer {
    pub number: u64,
    pub line: u64,
    /// From 1 with the faults of a line, 6 and 17 to 21.
    pub column: u64,
    pub rounds: u64,
}

/// An answer of FORCE, BASE, RESET, OPEN or DROP.
#[repr(C)]
#[derive(Clone, Copy, Debug, Default, PartialEq, Eq)]
pub struct CallAnswer {
    pub number: u64,
    pub line: u64,
}

/// An answer of FEED. `advice` is 0, or the number that the close will give if it comes to the reading; `line` and `column` are
/// then those of the fault. A refusal advises nothing.
#[repr(C)]
#[derive(Clone, Copy, Debug, Default, PartialEq, Eq)]
pub struct FeedAnswer {
    pub number: u64,
    pub advice: u64,
    pub line: u64,
    pub column: u64,
}

#[repr(C)]
#[derive(Clone, Copy, Debug, Default, PartialEq, Eq)]
pub struct MemoryAnswer {
    pub number: u64,
    pub line: u64,
    pub high: u64,
}

/// `none` is 1 past the end; `name` is packed.
#[repr(C)]
#[derive(Clone, Copy, Debug, Default, PartialEq, Eq)]
pub struct SymbolAnswer {
    pub number: u64,
    pub line: u64,
    pub none: u64,
    pub name: u64,
    pub value: u64,
    pub defined: u64,
}

#[repr(C)]
#[derive(Clone, Copy, Debug, Default, PartialEq, Eq)]
pub struct UndefinedAnswer {
    pub number: u64,
    pub line: u64,
    pub none: u64,
    pub name: u64,
    pub value: u64,
    pub defined: u64,
    pub highest: u64,
}

#[repr(C)]
#[derive(Clone, Copy, Debug, Default, PartialEq, Eq)]
pub struct EndAnswer {
    pub number: u64,
    pub line: u64,
    pub length: u64,
}

/// A linker on lent memory. Whatever is lent, each call ends with an answer.
pub trait Calls {
    fn load(&self, state: &mut [u64], work: &mut [u64], file: &[u8]) -> LoadAnswer;
    fn force(&self, state: &mut [u64], name: &[u8]) -> CallAnswer;
    fn base(&self, state: &mut [u64], address: u64) -> CallAnswer;
    fn reset(&self, state: &mut [u64]) -> CallAnswer;
    fn memory(&self, state: &[u64]) -> MemoryAnswer;
    fn symbols(&self, state: &[u64], index: u64) -> SymbolAnswer;
    fn undefined(&self, state: &[u64], index: u64) -> UndefinedAnswer;
    fn end(&self, state: &mut [u64], out: &mut [u8]) -> EndAnswer;
    fn open(&self, feed: &mut [u64]) -> CallAnswer;
    fn feed(&self, feed: &mut [u64], piece: &[u8]) -> FeedAnswer;
    fn close(&self, feed: &mut [u64], state: &mut [u64], work: &mut [u64]) -> LoadAnswer;
    fn drop(&self, feed: &mut [u64]) -> CallAnswer;
}
