//! What an object file holds.

use crate::name::Name;

/// Modules and library sections, in file order.
#[derive(Clone, Debug, PartialEq, Eq)]
pub enum Item {
    Module(Module),
    Section(Section),
}

#[derive(Clone, Debug, PartialEq, Eq)]
pub struct Section {
    /// The line of the LSB header.
    pub line: u64,
    pub modules: Vec<Module>,
}

#[derive(Clone, Debug, Default, PartialEq, Eq)]
pub struct Module {
    /// The line of the TITLE header.
    pub line: u64,
    /// Blocks 4 and 13 together.
    pub entries: Vec<Entry>,
    pub externals: Vec<Name>,
    pub words: Vec<CodeWord>,
    /// The largest offset plus count over the CODE blocks with at least one word.
    pub length: usize,
}

#[derive(Clone, Copy, Debug, PartialEq, Eq)]
pub struct Entry {
    pub name: Name,
    pub value: u16,
    /// Type 1: the module's base is added to the value.
    pub relocated: bool,
}

#[derive(Clone, Copy, Debug, PartialEq, Eq)]
pub struct CodeWord {
    /// The word's place from the module's base.
    pub offset: usize,
    pub quarters: [u16; 4],
    pub relocation: Relocation,
}

#[derive(Clone, Copy, Debug, PartialEq, Eq)]
pub enum Relocation {
    Plain,
    /// Type 5: the number of an external of the module, from 1.
    External(u16),
    /// Types 1 to 4 leave the word as written.
    Unread,
}
