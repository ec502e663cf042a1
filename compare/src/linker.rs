//! The linker with its own structures: a symbol table with a hash index, program words, the next address and a mark.

use std::cmp::Reverse;
use std::collections::{BinaryHeap, HashMap};

use crate::answer::{Reason, Refusal};
use crate::name::Name;
use crate::object::{Entry, Item, Module, Relocation, Section};
use crate::reader;

pub const PROGRAM_WORDS: usize = 4096;
pub const LARGEST_BASE: u64 = 4095;
pub const MOST_SYMBOLS: usize = 256;
pub const LONGEST_FILE: usize = 65_536;
/// HIGH where no word is placed, and the highest reference where there is none.
pub const NO_ADDRESS: u16 = 65_535;

const WORD_RECORD: u8 = 0x57;
const WORD_RECORD_LENGTH: usize = 11;
const END_RECORD: u8 = 0x45;
const END_RECORD_LENGTH: usize = 5;

#[derive(Clone, Debug, Default, PartialEq, Eq)]
pub struct Linker {
    pub(crate) table: Table,
    pub(crate) words: Words,
    pub(crate) next: usize,
    pub(crate) mark: Mark,
}

#[derive(Clone, Copy, Debug, Default, PartialEq, Eq)]
pub enum Mark {
    #[default]
    None,
    /// A load was refused for what is in its file; only a reset helps.
    Broken,
    /// An END was done.
    Frozen,
}

#[derive(Clone, Copy, Debug, PartialEq, Eq)]
pub struct Symbol {
    pub name: Name,
    /// `None` while it is undefined.
    pub value: Option<u16>,
}

/// An undefined symbol, with the highest address that refers to it.
#[derive(Clone, Copy, Debug, PartialEq, Eq)]
pub struct Undefined {
    pub name: Name,
    pub highest: u16,
}

impl Linker {
    pub fn new() -> Linker {
        Linker::default()
    }

    /// Loads a file whole or not at all, and tells the rounds of the library searches.
    pub fn load(&mut self, file: &[u8]) -> Result<u64, Refusal> {
        match self.clone().loaded(file) {
            Ok((loaded, rounds)) => {
                *self = loaded;
                Ok(rounds)
            }
            Err(refusal) => {
                if refusal.breaks() {
                    self.mark = Mark::Broken;
                }
                Err(refusal)
            }
        }
    }

    /// The linker after the load. It goes by value, so that a walk that is refused half-way leaves nothing behind.
    pub fn loaded(mut self, file: &[u8]) -> Result<(Linker, u64), Refusal> {
        self.refuse_broken()?;
        self.refuse_frozen()?;
        if file.len() > LONGEST_FILE {
            return Err(Reason::TooLong.into());
        }
        let rounds = self.walk(&reader::read(file)?)?;
        Ok((self, rounds))
    }

    pub fn force(&mut self, name: &[u8]) -> Result<(), Refusal> {
        self.refuse_broken()?;
        self.refuse_frozen()?;
        let name = Name::parse(name).ok_or(Reason::Name)?;
        if self.table.find(name).is_none() {
            if self.table.symbols.len() == MOST_SYMBOLS {
                return Err(Reason::Table.into());
            }
            self.table.mention(name);
        }
        Ok(())
    }

    pub fn base(&mut self, address: u64) -> Result<(), Refusal> {
        self.refuse_broken()?;
        self.refuse_frozen()?;
        if address > LARGEST_BASE {
            return Err(Reason::Range.into());
        }
        self.next = address as usize;
        Ok(())
    }

    pub fn reset(&mut self) {
        *self = Linker::new();
    }

    /// HIGH: the highest address that holds a placed word.
    pub fn high(&self) -> u16 {
        highest(&self.words.0, Option::is_some)
    }

    /// A symbol, by its place in the table.
    pub fn symbol(&self, index: u64) -> Option<Symbol> {
        self.table.symbols.get(usize::try_from(index).ok()?).copied()
    }

    /// An undefined symbol, by its place among the undefined ones.
    pub fn undefined(&self, index: u64) -> Option<Undefined> {
        let index = usize::try_from(index).ok()?;
        let (place, symbol) =
            self.table.symbols.iter().enumerate().filter(|(_, symbol)| symbol.value.is_none()).nth(index)?;
        let refers = |word: &Option<Word>| word.is_some_and(|word| word.symbol == Some(place as u16));
        Some(Undefined { name: symbol.name, highest: highest(&self.words.0, refers) })
    }

    /// Writes the image into the front of `out` and tells its length.
    pub fn end(&mut self, out: &mut [u8]) -> Result<usize, Refusal> {
        self.refuse_broken()?;
        let length = self.image_length();
        let image = out.get_mut(..length).ok_or(Reason::Out)?;
        self.write_image(image);
        self.mark = Mark::Frozen;
        Ok(length)
    }

    fn refuse_broken(&self) -> Result<(), Refusal> {
        if self.mark == Mark::Broken {
            return Err(Reason::Reset.into());
        }
        Ok(())
    }

    fn refuse_frozen(&self) -> Result<(), Refusal> {
        if self.mark == Mark::Frozen {
            return Err(Reason::Frozen.into());
        }
        Ok(())
    }

    fn image_length(&self) -> usize {
        self.words.0.iter().flatten().count() * WORD_RECORD_LENGTH + END_RECORD_LENGTH
    }

    fn write_image(&self, image: &mut [u8]) {
        let (records, end) = image.split_at_mut(image.len() - END_RECORD_LENGTH);
        let placed = self.words.0.iter().enumerate().filter_map(|(address, word)| Some((address, word.as_ref()?)));
        for (record, (address, word)) in records.chunks_exact_mut(WORD_RECORD_LENGTH).zip(placed) {
            record[0] = WORD_RECORD;
            record[1..3].copy_from_slice(&(address as u16).to_be_bytes());
            for (bytes, quarter) in record[3..].chunks_exact_mut(2).zip(self.completed(word)) {
                bytes.copy_from_slice(&quarter.to_be_bytes());
            }
        }
        end[0] = END_RECORD;
        end[1..3].copy_from_slice(&self.high().to_be_bytes());
        let undefined = self.table.symbols.iter().filter(|symbol| symbol.value.is_none()).count();
        end[3..5].copy_from_slice(&(undefined as u16).to_be_bytes());
    }

    /// A word's quarters with the value of its symbol in the fourth.
    fn completed(&self, word: &Word) -> [u16; 4] {
        let mut quarters = word.quarters;
        if let Some(symbol) = word.symbol {
            let value = self.table.symbols[usize::from(symbol)].value.unwrap_or(0);
            quarters[3] = quarters[3].wrapping_add(value);
        }
        quarters
    }
}

/// The walk over what a file holds. These methods change the linker as they go, and leave it half-changed on a refusal.
impl Linker {
    /// Tells the rounds, summed over the sections.
    pub fn walk(&mut self, items: &[Item]) -> Result<u64, Refusal> {
        let mut rounds = 0;
        for item in items {
            match item {
                Item::Module(module) => self.place(module)?,
                Item::Section(section) => rounds += self.search(section)?,
            }
        }
        Ok(rounds)
    }

    /// Takes the wanted modules of a library section and tells the rounds.
    ///
    /// Document 01 visits the untaken modules in file order, round after round. Here a queue holds just the wanted
    /// ones, by round and place: a name has one module in the section, so a module that is wanted stays so until it
    /// is taken. One that becomes wanted is met in the same round if it stands behind, and in the next if before.
    pub fn search(&mut self, section: &Section) -> Result<u64, Refusal> {
        let providers = providers(section)?;
        let undefined = self.table.symbols.iter().filter(|symbol| symbol.value.is_none());
        let mut queue = Queue::new(section.modules.len());
        for &place in undefined.filter_map(|symbol| providers.get(&symbol.name)) {
            queue.push(1, place);
        }
        let mut rounds = 1;
        while let Some((round, place)) = queue.pop() {
            let module = &section.modules[place];
            self.place(module)?;
            for name in &module.externals {
                if let Some(&provider) = providers.get(name) {
                    if self.table.is_undefined(*name) {
                        queue.push(if provider > place { round } else { round + 1 }, provider);
                    }
                }
            }
            rounds = round + 1;
        }
        Ok(rounds)
    }

    /// Places one module at the next address. The tests are each made over the whole module before the next one.
    pub fn place(&mut self, module: &Module) -> Result<(), Refusal> {
        let base = self.next;
        let fault = |reason| Refusal::at(reason, module.line);

        if base + module.length > PROGRAM_WORDS {
            return Err(fault(Reason::Room));
        }
        for word in &module.words {
            let slot = &mut self.words.0[base + word.offset];
            if slot.is_some() {
                return Err(fault(Reason::Overlap));
            }
            *slot = Some(Word { quarters: word.quarters, symbol: None });
        }
        let externals = 1..=module.externals.len();
        let wrong =
            |relocation| matches!(relocation, Relocation::External(arg) if !externals.contains(&usize::from(arg)));
        if module.words.iter().any(|word| wrong(word.relocation)) {
            return Err(fault(Reason::Arg));
        }
        if module.entries.iter().any(|entry| value_at(entry, base).is_none()) {
            return Err(fault(Reason::Range));
        }
        for entry in &module.entries {
            let symbol = self.table.mention(entry.name);
            let value = &mut self.table.symbols[symbol].value;
            if value.is_some() {
                return Err(fault(Reason::Duplicate));
            }
            *value = value_at(entry, base);
        }
        let symbols: Vec<usize> = module.externals.iter().map(|&name| self.table.mention(name)).collect();
        if self.table.symbols.len() > MOST_SYMBOLS {
            return Err(fault(Reason::Table));
        }

        for word in &module.words {
            if let (Relocation::External(arg), Some(placed)) = (word.relocation, &mut self.words.0[base + word.offset])
            {
                placed.symbol = Some(symbols[usize::from(arg) - 1] as u16);
            }
        }
        self.next += module.length;
        Ok(())
    }
}

/// The value of an entry in a module at `base`, if it is in range.
fn value_at(entry: &Entry, base: usize) -> Option<u16> {
    if entry.relocated {
        u16::try_from(usize::from(entry.value) + base).ok()
    } else {
        Some(entry.value)
    }
}

/// The module of a section that has a name as its entry; two entries of one name are refused.
fn providers(section: &Section) -> Result<HashMap<Name, usize>, Refusal> {
    let mut providers = HashMap::with_capacity(section.modules.iter().map(|module| module.entries.len()).sum());
    for (place, module) in section.modules.iter().enumerate() {
        for entry in &module.entries {
            if providers.insert(entry.name, place).is_some() {
                return Err(Refusal::at(Reason::Duplicate, section.line));
            }
        }
    }
    Ok(providers)
}

/// The wanted modules of a section by round and place. Each goes in once.
struct Queue {
    heap: BinaryHeap<Reverse<(u64, usize)>>,
    met: Vec<bool>,
}

impl Queue {
    fn new(modules: usize) -> Queue {
        Queue { heap: BinaryHeap::new(), met: vec![false; modules] }
    }

    fn push(&mut self, round: u64, place: usize) {
        if !std::mem::replace(&mut self.met[place], true) {
            self.heap.push(Reverse((round, place)));
        }
    }

    fn pop(&mut self) -> Option<(u64, usize)> {
        self.heap.pop().map(|Reverse(next)| next)
    }
}

/// The symbols in order of first mention, with an index by name.
#[derive(Clone, Debug, Default, PartialEq, Eq)]
pub(crate) struct Table {
    pub(crate) symbols: Vec<Symbol>,
    index: HashMap<Name, usize>,
}

impl Table {
    pub(crate) fn with_capacity(symbols: usize) -> Table {
        Table { symbols: Vec::with_capacity(symbols), index: HashMap::with_capacity(symbols) }
    }

    fn find(&self, name: Name) -> Option<usize> {
        self.index.get(&name).copied()
    }

    fn is_undefined(&self, name: Name) -> bool {
        self.find(name).is_some_and(|symbol| self.symbols[symbol].value.is_none())
    }

    /// The place of a name in the table, where it joins as undefined if it is new.
    pub(crate) fn mention(&mut self, name: Name) -> usize {
        *self.index.entry(name).or_insert_with(|| {
            self.symbols.push(Symbol { name, value: None });
            self.symbols.len() - 1
        })
    }
}

/// A placed word as written, and the symbol it refers to, by its place in the table.
#[derive(Clone, Copy, Debug, PartialEq, Eq)]
pub(crate) struct Word {
    pub(crate) quarters: [u16; 4],
    pub(crate) symbol: Option<u16>,
}

/// The program words by address; `None` where nothing is placed.
#[derive(Clone, Debug, PartialEq, Eq)]
pub(crate) struct Words(pub(crate) Vec<Option<Word>>);

impl Default for Words {
    fn default() -> Words {
        Words(vec![None; PROGRAM_WORDS])
    }
}

/// The highest address whose word is one of those looked for, or `NO_ADDRESS`.
pub(crate) fn highest<T>(words: &[T], is_one: impl Fn(&T) -> bool) -> u16 {
    words.iter().rposition(is_one).map_or(NO_ADDRESS, |address| address as u16)
}
