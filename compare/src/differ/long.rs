//! Cases that are hard on whoever looks for names: tables of many symbols, whose names lie close to each other and joined in
//! one order or another, and library sections whose names share a remainder.

use std::collections::HashSet;

use super::author::random_name;
use super::case::{Call, Case, Origin, Step};
use super::draft::Draft;
use super::lookups::LONG;
use super::names::{close_names, Alphabet, Order, SLOTS};
use super::rng::Rng;
use crate::linker::MOST_SYMBOLS;
use crate::memory::*;
use crate::name::Name;

const MOST_IN_MODULE: usize = 64;

/// Loads and FORCEs over a table that is long or becomes so.
pub fn table(rng: &mut Rng) -> Case {
    let size = *rng.pick(&[150, 250, 256, 257, 258, 300, 300, 300]);
    let mut names = close_names(size, rng);
    rng.pick(&Order::ALL).arrange(&mut names, rng);
    let mut table = Table { names, met: 0, defined: HashSet::new() };
    let most = size.min(MOST_SYMBOLS);
    let known = match rng.below(6) {
        0 | 1 => 0,
        2 => most.min(MOST_SYMBOLS - 1),
        3 => most,
        _ => rng.within(LONG..=most),
    };
    let mut steps: Vec<Step> = Vec::new();
    let mut state = fresh();
    if rng.percent(2) {
        steps.extend(table.names[..known].iter().map(|name| Step::from(Call::Force(name.clone().into()))));
        table.met = known;
    } else {
        state = table.start(known, rng);
    }
    for _ in 0..rng.within(1..=4) {
        if rng.percent(70) {
            steps.push(load(table.file(rng), rng));
        } else {
            steps.extend((0..rng.within(1..=4)).map(|_| Step::from(Call::Force(table.forced(rng).into()))));
        }
    }
    Case { label: "over a long table".into(), state, steps }
}

fn load(draft: Draft, rng: &mut Rng) -> Step {
    Call::Load { file: draft.laid_out(rng), work_cells: WORK_CELLS, origin: Origin::Whole }.into()
}

/// The names of a case in the order in which they join.
struct Table {
    names: Vec<String>,
    /// How many of them have joined, as long as nothing is refused.
    met: usize,
    defined: HashSet<String>,
}

impl Table {
    /// A sound state with the first names. A word refers to each of them, so that the image shows its value.
    fn start(&mut self, known: usize, rng: &mut Rng) -> Vec<u64> {
        let mut cells = fresh();
        let share_defined = *rng.pick(&[0, 50, 100]);
        for (i, name) in self.names[..known].iter().enumerate() {
            cells[NAMES.start + i] = Name::parse(name.as_bytes()).map_or(0, Name::packed);
            cells[TAGS.start + i] = REFERENCE + i as u64;
            if rng.percent(share_defined) {
                cells[VALUES.start + i] = DEFINED + rng.next() % DEFINED;
                self.defined.insert(name.clone());
            }
        }
        cells[COUNT] = known as u64;
        cells[NEXT] = known as u64;
        self.met = known;
        cells
    }

    /// Names that are not in the table yet, now and then as many as just fill it or one more.
    fn new_names(&mut self, rng: &mut Rng) -> Vec<String> {
        let room = MOST_SYMBOLS.saturating_sub(self.met);
        let count = match rng.below(4) {
            0 => rng.below(4),
            1 | 2 if room < 56 => room + *rng.pick(&[0, 1]),
            _ => rng.within(0..=56),
        };
        let end = (self.met + count.min(56)).min(self.names.len());
        let new = self.names[self.met..end].to_vec();
        self.met = end;
        new
    }

    /// A name of the table: the lowest, the highest or any.
    fn old_name(&self, rng: &mut Rng) -> Option<String> {
        let old = &self.names[..self.met];
        match rng.below(4) {
            0 => old.iter().min().cloned(),
            1 => old.iter().max().cloned(),
            _ if old.is_empty() => None,
            _ => Some(rng.pick(old).clone()),
        }
    }

    fn old_name_that(&self, is_defined: bool, rng: &mut Rng) -> Option<String> {
        (0..8).filter_map(|_| self.old_name(rng)).find(|name| self.defined.contains(name) == is_defined)
    }

    fn forced(&mut self, rng: &mut Rng) -> String {
        if rng.percent(50) && self.met < self.names.len() {
            self.met += 1;
            return self.names[self.met - 1].clone();
        }
        self.old_name(rng).unwrap_or_else(|| random_name(rng))
    }

    fn file(&mut self, rng: &mut Rng) -> Draft {
        let mut draft = Draft::default();
        for _ in 0..*rng.pick(&[1, 1, 2, 3, 6]) {
            draft.append(if rng.percent(70) { self.module(rng) } else { self.section(rng) });
        }
        draft
    }

    /// A module that brings new names, most often all as entries or all as externals so that they keep their order, and
    /// mentions old ones; now and then it defines one a second time.
    fn module(&mut self, rng: &mut Rng) -> Draft {
        let mut entries = self.new_names(rng);
        let any = rng.within(0..=entries.len());
        let kept = *rng.pick(&[0, entries.len(), any]);
        let mut externals = entries.split_off(kept);
        for _ in 0..rng.within(0..=8) {
            if let Some(name) = self.old_name(rng) {
                externals.insert(rng.within(0..=externals.len()), name);
            }
        }
        let old_entries = *rng.pick(&[0, 0, 1, 3]);
        self.defined.extend(entries.iter().cloned());
        for _ in 0..old_entries {
            if let Some(name) = self.old_name_that(false, rng) {
                self.defined.insert(name.clone());
                entries.insert(rng.within(0..=entries.len()), name);
            }
        }
        if rng.percent(if self.met > MOST_SYMBOLS { 25 } else { 8 }) {
            let twice = self.old_name_that(true, rng);
            twice.into_iter().for_each(|name| entries.insert(rng.within(0..=entries.len()), name));
        }
        module(&entries, &externals, rng)
    }

    /// A library of modules that are wanted for an old name, and others.
    fn section(&mut self, rng: &mut Rng) -> Draft {
        let mut modules: Vec<(Vec<String>, Vec<String>)> = Vec::new();
        for _ in 0..rng.within(0..=5) {
            if let Some(name) = self.old_name_that(false, rng) {
                let mut entries = vec![name];
                if rng.percent(30) {
                    entries.extend(self.new_names(rng));
                }
                self.defined.extend(entries.iter().cloned());
                let externals = (0..rng.below(4)).filter_map(|_| self.old_name(rng)).collect();
                modules.push((entries, externals));
            }
        }
        for _ in 0..rng.below(6) {
            let name = random_name(rng);
            if !self.names.contains(&name) && modules.iter().all(|(entries, _)| !entries.contains(&name)) {
                modules.push((vec![name], self.old_name(rng).into_iter().collect()));
            }
        }
        rng.shuffle(&mut modules);
        library(&modules, rng)
    }
}

/// A library where many names or a few share a remainder, some of them wanted; now and then one is an entry twice.
pub fn section(rng: &mut Rng) -> Case {
    let alike = Alphabet::WHOLE.of_remainder(rng.next() % SLOTS);
    let mut names: Vec<String> = alike.map(|name| name.to_string()).skip(rng.below(100)).take(400).collect();
    rng.shuffle(&mut names);
    names.truncate(if rng.percent(50) { rng.within(2..=8) } else { rng.within(64..=400) });
    rng.pick(&Order::ALL).arrange(&mut names, rng);
    let mut wanted: Vec<String> = (0..rng.below(4)).map(|_| rng.pick(&names).clone()).collect();
    if rng.percent(20) && names.len() > 2 {
        // a name that is wanted in vain
        wanted.push(names.remove(rng.below(names.len())));
    }
    if rng.percent(15) {
        let twice = rng.pick(&names).clone();
        names.insert(rng.within(0..=names.len()), twice);
    }
    let most = rng.within(1..=MOST_IN_MODULE).max(names.len().div_ceil(200));
    let modules: Vec<(Vec<String>, Vec<String>)> = (names.chunks(most))
        .map(|entries| {
            let needs = if rng.percent(20) { rng.within(1..=2) } else { 0 };
            (entries.to_vec(), (0..needs).map(|_| rng.pick(&names).clone()).collect())
        })
        .collect();
    let mut steps: Vec<Step> = Vec::new();
    let mut draft = Draft::default();
    if rng.percent(50) {
        steps.extend(wanted.iter().map(|name| Step::from(Call::Force(name.clone().into()))));
    } else {
        draft.append(module(&[], &wanted, rng));
    }
    draft.append(library(&modules, rng));
    steps.push(load(draft, rng));
    if rng.percent(30) {
        steps.push(load(library(&modules, rng), rng));
    }
    Case { label: "over a section of one remainder".into(), state: fresh(), steps }
}

fn library(modules: &[(Vec<String>, Vec<String>)], rng: &mut Rng) -> Draft {
    let mut draft = Draft::default();
    draft.line("6 ***LSB");
    modules.iter().for_each(|(entries, externals)| draft.append(module(entries, externals, rng)));
    draft.line("7 ***LEB");
    draft
}

/// A module of these entries and externals, with some words that refer to externals.
fn module(entries: &[String], externals: &[String], rng: &mut Rng) -> Draft {
    let mut draft = Draft::default();
    draft.line("3 ***TITLE");
    draft.line("L");
    if !entries.is_empty() {
        draft.line(format!("4 {:o} ***ENTRY", entries.len()));
    }
    for name in entries {
        let value = rng.below(32_768);
        draft.line(if rng.percent(50) { format!("{name} {value:o} 0") } else { format!("{name} {value:o} 1 0") });
    }
    if !externals.is_empty() {
        draft.line(format!("5 {:o} ***EXT", externals.len()));
        externals.iter().for_each(|name| draft.line(name));
        let words = rng.below(8);
        draft.line(format!("0 {words:o} 0 ***CODE"));
        (0..words).for_each(|_| draft.line(format!("* 0 0 0 0 0 5 {:o}", rng.within(1..=externals.len()))));
    }
    draft.line("1 ***END");
    draft.line("L");
    draft
}
