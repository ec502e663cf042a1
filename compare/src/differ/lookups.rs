//! Which names the loads and FORCEs of a run looked for in long tables, and which in sections of one remainder. It follows the
//! walk of document 01 on the names alone, so that it can be told what a run reached.

use std::collections::{BTreeMap, HashMap, HashSet};
use std::fmt;

use super::names::{closeness, Closeness, Order, SLOTS};
use crate::linker::MOST_SYMBOLS;
use crate::memory::{COUNT, NAMES, VALUES};
use crate::name::Name;
use crate::object::{Item, Module, Section};

/// A table is long from so many symbols on.
pub const LONG: usize = 100;
/// So many symbols that join in one load have an order.
const MANY_JOINED: usize = 20;
/// So many entries of a section that share a remainder are many.
const MANY_ALIKE: usize = 64;

/// Who looks for a name in a long table.
#[derive(Clone, Copy)]
enum Who {
    External,
    Entry,
    Duplicate,
    Wanted,
    ExternalTooMany,
    EntryTooMany,
    Force,
    ForceTooMany,
}

/// The rows of the table, with the places that each can have.
const WHO: [(&str, bool, bool); 8] = [
    ("external", true, true),
    ("entry", true, true),
    ("entry, 13", true, false),
    ("module taken", true, false),
    ("external, 14", false, true),
    ("entry, 14", false, true),
    ("FORCE", true, true),
    ("FORCE, 14", false, true),
];

/// Where the name stands among the names of the table: three places of a name that is there, then three of one that is not.
const PLACES: [&str; 6] = ["lowest", "middle", "highest", "below", "between", "above"];
const STARTS: [(&str, usize, usize); 4] =
    [("100 to 199", LONG, 199), ("200 to 254", 200, 254), ("255", 255, 255), ("256", 256, 256)];
const ORDERS: [&str; 3] = ["rising", "falling", "scattered"];
const CLOSE: [&str; 2] = ["last character", "length"];
const TOO_MANY: [&str; 2] = ["entry", "external"];
const AHEAD: [&str; 2] = ["behind the 257th", "before the 257th"];
const ALIKE: [&str; 2] = ["2 to 63 entries", "64 and more"];
const SEARCHED: [&str; 3] = ["unwanted", "wanted", "twice"];

#[derive(Clone, Debug, Default)]
pub struct Lookups {
    places: [[u64; PLACES.len()]; WHO.len()],
    /// Loads by the symbols that the table had before them.
    starts: [u64; STARTS.len()],
    /// The order of a long table before a load, and of the symbols that joined in one.
    orders: [[u64; ORDERS.len()]; 2],
    /// Names that were there and names that were not, beside a neighbour that parts from them in this alone.
    close: [[u64; CLOSE.len()]; 2],
    /// 14 with one symbol too many, by what mentions it.
    one_too_many: [u64; TOO_MANY.len()],
    /// 13 in a module that has too many symbols besides.
    ahead: [u64; AHEAD.len()],
    /// Sections with entries of one remainder.
    alike: [[u64; SEARCHED.len()]; ALIKE.len()],
}

impl Lookups {
    /// A load of this file that was answered 0, or refused in its walk.
    pub fn note_load(&mut self, before: &[u64], items: &[Item], number: u64, line: u64) {
        let mut walk = Walk { lookups: self, table: table_of(before), joined: Vec::new() };
        walk.start(&before[NAMES][..before[COUNT] as usize]);
        for item in items {
            let refused_here = number != 0 && line_of(item) == line;
            match item {
                Item::Module(module) if refused_here => return walk.refused(module, number),
                Item::Module(module) => walk.place(module),
                Item::Section(section) if refused_here => return walk.twice(section),
                Item::Section(section) => {
                    if let Some(module) = walk.search(section, if number == 0 { 0 } else { line }) {
                        return walk.refused(module, number);
                    }
                }
            }
        }
        if walk.joined.len() >= MANY_JOINED {
            if let Some(order) = Order::of(&walk.joined) {
                self.orders[1][order as usize] += 1;
            }
        }
    }

    /// A FORCE that was answered 0 or 14.
    pub fn note_force(&mut self, before: &[u64], name: Name, number: u64) {
        let table = table_of(before);
        self.note(if number == 0 { Who::Force } else { Who::ForceTooMany }, &table, name.packed());
    }

    fn note(&mut self, who: Who, table: &BTreeMap<u64, bool>, name: u64) {
        let (Some((&lowest, _)), Some((&highest, _))) = (table.first_key_value(), table.last_key_value()) else {
            return;
        };
        if table.len() < LONG {
            return;
        }
        let there = table.contains_key(&name);
        let place = match there {
            true if name == lowest => 0,
            true if name == highest => 2,
            true => 1,
            false if name < lowest => 3,
            false if name > highest => 5,
            false => 4,
        };
        self.places[who as usize][place] += 1;
        let neighbours = [table.range(..name).next_back(), table.range(name + 1..).next()];
        let close: Vec<Closeness> =
            neighbours.into_iter().flatten().filter_map(|(&other, _)| closeness(name, other)).collect();
        for kind in [Closeness::LastCharacter, Closeness::Length].into_iter().filter(|kind| close.contains(kind)) {
            self.close[usize::from(!there)][kind as usize] += 1;
        }
    }

    /// What a run should have met and did not.
    pub fn missing(&self) -> Vec<String> {
        let mut missing = Vec::new();
        for ((who, there, missed), counts) in WHO.iter().zip(&self.places) {
            for (at, (place, &count)) in PLACES.iter().zip(counts).enumerate() {
                if count == 0 && (if at < 3 { *there } else { *missed }) {
                    missing.push(format!("{who}: {place} of a long table"));
                }
            }
        }
        let mut look = |counts: &[u64], names: &[&str], what: &str| {
            for (name, _) in names.iter().zip(counts).filter(|(_, &count)| count == 0) {
                missing.push(format!("{what}: {name}"));
            }
        };
        look(&self.starts, &STARTS.map(|each| each.0), "a load from a table of so many symbols");
        look(&self.orders[0], &ORDERS, "a long table in order");
        look(&self.orders[1], &ORDERS, "many symbols that join in order");
        look(&self.close[0], &CLOSE, "a name that is there beside one of another");
        look(&self.close[1], &CLOSE, "a name that is not there beside one of another");
        look(&self.one_too_many, &TOO_MANY, "14 with one symbol too many, by an");
        look(&self.ahead, &AHEAD, "13 where there are too many symbols, by an entry");
        for (alike, counts) in ALIKE.iter().zip(&self.alike) {
            look(counts, &SEARCHED, &format!("a section with {alike} of one remainder"));
        }
        missing
    }
}

impl fmt::Display for Lookups {
    fn fmt(&self, f: &mut fmt::Formatter<'_>) -> fmt::Result {
        write!(f, "in tables of {LONG} and more")?;
        PLACES.iter().try_for_each(|place| write!(f, " {place:>8}"))?;
        writeln!(f)?;
        for ((who, there, missed), counts) in WHO.iter().zip(&self.places) {
            write!(f, "{who:>25}")?;
            for (at, count) in counts.iter().enumerate() {
                match (if at < 3 { *there } else { *missed }, count) {
                    (false, 0) => write!(f, " {:>8}", "-")?,
                    _ => write!(f, " {count:8}")?,
                }
            }
            writeln!(f)?;
        }
        let [there, not_there] = self.close;
        writeln!(f, "beside a close name ({}): there {there:?}, not there {not_there:?}", CLOSE.join(", "))?;
        let starts = STARTS.map(|each| each.0).join(", ");
        writeln!(f, "loads from a long table ({starts}): {:?}", self.starts)?;
        let [tables, joined] = self.orders;
        writeln!(f, "orders ({}): of long tables {tables:?}, of many that join {joined:?}", ORDERS.join(", "))?;
        writeln!(f, "14 with one symbol too many ({}): {:?}", TOO_MANY.join(", "), self.one_too_many)?;
        writeln!(f, "13 with too many symbols besides ({}): {:?}", AHEAD.join(", "), self.ahead)?;
        let [few, many] = self.alike;
        write!(f, "sections of one remainder ({}): {} {few:?}, {} {many:?}", SEARCHED.join(", "), ALIKE[0], ALIKE[1])
    }
}

/// The names of a sound state, and whether each is defined.
fn table_of(state: &[u64]) -> BTreeMap<u64, bool> {
    let count = state[COUNT] as usize;
    state[NAMES].iter().zip(&state[VALUES]).take(count).map(|(&name, &value)| (name, value != 0)).collect()
}

fn line_of(item: &Item) -> u64 {
    match item {
        Item::Module(module) => module.line,
        Item::Section(section) => section.line,
    }
}

/// A load on its way.
struct Walk<'a> {
    lookups: &'a mut Lookups,
    table: BTreeMap<u64, bool>,
    /// In order of first mention.
    joined: Vec<u64>,
}

impl Walk<'_> {
    fn start(&mut self, names: &[u64]) {
        if let Some(at) = STARTS.iter().position(|&(_, first, last)| (first..=last).contains(&names.len())) {
            self.lookups.starts[at] += 1;
        }
        if names.len() >= LONG {
            if let Some(order) = Order::of(names) {
                self.lookups.orders[0][order as usize] += 1;
            }
        }
    }

    fn mention(&mut self, who: Who, name: Name) {
        let name = name.packed();
        self.lookups.note(who, &self.table, name);
        if let std::collections::btree_map::Entry::Vacant(vacant) = self.table.entry(name) {
            vacant.insert(false);
            self.joined.push(name);
        }
    }

    fn place(&mut self, module: &Module) {
        for entry in &module.entries {
            self.mention(Who::Entry, entry.name);
            self.table.insert(entry.name.packed(), true);
        }
        module.externals.iter().for_each(|&name| self.mention(Who::External, name));
    }

    fn is_undefined(&self, name: Name) -> bool {
        self.table.get(&name.packed()) == Some(&false)
    }

    /// Searches a section; tells the taken module with this line, which the load was refused at.
    fn search<'b>(&mut self, section: &'b Section, refused: u64) -> Option<&'b Module> {
        let alike = alike(section);
        let largest = alike.values().copied().max().unwrap_or(0);
        let mut wanted = [false; ALIKE.len()];
        let mut untaken: Vec<&Module> = section.modules.iter().collect();
        loop {
            let before = untaken.len();
            let mut left = Vec::with_capacity(before);
            for module in untaken {
                let names: Vec<Name> =
                    module.entries.iter().map(|entry| entry.name).filter(|&name| self.is_undefined(name)).collect();
                if names.is_empty() {
                    left.push(module);
                    continue;
                }
                for name in names {
                    self.lookups.note(Who::Wanted, &self.table, name.packed());
                    if let Some(class) = class_of(alike[&(name.packed() % SLOTS)]) {
                        wanted[class] = true;
                    }
                }
                if module.line == refused {
                    return Some(module);
                }
                self.place(module);
            }
            if left.len() == before {
                break;
            }
            untaken = left;
        }
        for (class, wanted) in wanted.into_iter().enumerate() {
            self.lookups.alike[class][1] += u64::from(wanted);
        }
        if let (Some(class), [false, false]) = (class_of(largest), wanted) {
            self.lookups.alike[class][0] += 1;
        }
        None
    }

    /// A section that is refused since a name is an entry twice.
    fn twice(&mut self, section: &Section) {
        let alike = alike(section);
        let mut seen = HashSet::new();
        for entry in section.modules.iter().flat_map(|module| &module.entries) {
            if !seen.insert(entry.name) {
                if let Some(class) = class_of(alike[&(entry.name.packed() % SLOTS)]) {
                    self.lookups.alike[class][2] += 1;
                }
                return;
            }
        }
    }

    /// The module that a load was refused at.
    fn refused(&mut self, module: &Module, number: u64) {
        let mentions: Vec<(usize, Name)> = (module.entries.iter().map(|entry| (0, entry.name)))
            .chain(module.externals.iter().map(|&name| (1, name)))
            .collect();
        // Where the 257th symbol is mentioned, and how many symbols there would be in the end.
        let mut table = self.table.clone();
        let mut too_many = None;
        for (at, &(kind, name)) in mentions.iter().enumerate() {
            if table.len() == MOST_SYMBOLS && !table.contains_key(&name.packed()) && too_many.is_none() {
                too_many = Some(at);
                if number == 14 {
                    self.lookups.note([Who::EntryTooMany, Who::ExternalTooMany][kind], &table, name.packed());
                }
            }
            table.entry(name.packed()).or_insert(false);
        }
        match (number, too_many) {
            (14, Some(at)) if table.len() == MOST_SYMBOLS + 1 => self.lookups.one_too_many[mentions[at].0] += 1,
            (13, _) => {
                for (at, entry) in module.entries.iter().enumerate() {
                    if self.table.insert(entry.name.packed(), true) == Some(true) {
                        self.lookups.note(Who::Duplicate, &self.table, entry.name.packed());
                        if let Some(too_many) = too_many {
                            self.lookups.ahead[usize::from(at < too_many)] += 1;
                        }
                        return;
                    }
                }
            }
            _ => {}
        }
    }
}

/// How many different entries of a section have each remainder.
fn alike(section: &Section) -> HashMap<u64, usize> {
    let names: HashSet<u64> =
        section.modules.iter().flat_map(|module| &module.entries).map(|entry| entry.name.packed()).collect();
    let mut alike = HashMap::new();
    names.into_iter().for_each(|name| *alike.entry(name % SLOTS).or_insert(0) += 1);
    alike
}

fn class_of(alike: usize) -> Option<usize> {
    match alike {
        0 | 1 => None,
        _ => Some(usize::from(alike >= MANY_ALIKE)),
    }
}
