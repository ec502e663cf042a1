//! Writes random files that are meant to load: modules and libraries over a pool of names.

use std::collections::HashSet;

use super::draft::Draft;
use super::names::Alphabet;
use super::rng::Rng;

/// Writes the files of one case, which share their names so that they meet each other's symbols.
pub struct Author {
    pub names: Vec<String>,
    /// Names before this place have been used as entries.
    used: usize,
}

impl Author {
    pub fn new(rng: &mut Rng) -> Author {
        let size = *rng.pick(&[6, 20, 20, 80, 80, 400]);
        let mut seen = HashSet::new();
        let mut names = Vec::new();
        while names.len() < size {
            let name = random_name(rng);
            if seen.insert(name.clone()) {
                names.push(name);
            }
        }
        Author { names, used: 0 }
    }

    pub fn any_name(&self, rng: &mut Rng) -> String {
        rng.pick(&self.names).clone()
    }

    /// A name that is most likely no entry yet.
    fn entry_name(&mut self, rng: &mut Rng) -> String {
        if rng.percent(1) {
            return self.any_name(rng);
        }
        let name = self.names.get(self.used).cloned().unwrap_or_else(|| random_name(rng));
        self.used += 1;
        name
    }

    pub fn file(&mut self, rng: &mut Rng) -> Draft {
        let mut draft = Draft::default();
        for _ in 0..*rng.pick(&[0, 1, 1, 2, 3, 5]) {
            if rng.percent(15) {
                draft.append(self.chain(rng));
            } else if rng.percent(45) {
                draft.append(self.section(rng));
            } else {
                let entries = self.entry_names(rng);
                let externals = self.external_names(rng, &[]);
                draft.append(module(rng, &entries, &externals));
            }
        }
        draft
    }

    fn section(&mut self, rng: &mut Rng) -> Draft {
        let size = match rng.below(1000) {
            0..800 => rng.within(0..=6),
            800..980 => rng.within(7..=30),
            980..997 => rng.within(31..=120),
            _ => rng.within(254..=258),
        };
        // Entries first, so that the modules can need each other in any order.
        let entries: Vec<Vec<String>> = (0..size).map(|_| self.entry_names(rng)).collect();
        let inside: Vec<String> = entries.concat();
        let mut draft = Draft::default();
        draft.line("6 ***LSB");
        for entries in &entries {
            let externals = self.external_names(rng, &inside);
            draft.append(module(rng, entries, &externals));
        }
        draft.line("7 ***LEB");
        draft
    }

    /// A free module that wants the first of a chain, and a library where each module of the chain needs the next: backward,
    /// so that a round takes one, or in any order.
    fn chain(&mut self, rng: &mut Rng) -> Draft {
        let size = if rng.percent(92) { rng.within(1..=20) } else { rng.within(21..=150) };
        let names: Vec<String> = (0..size).map(|_| self.entry_name(rng)).collect();
        let mut modules: Vec<Draft> = Vec::new();
        for i in 0..size {
            let needs: &[String] = names.get(i + 1..i + 2).unwrap_or_default();
            // A long chain has nothing beside it, which might be refused before the chain is at its end.
            modules.push(if size > 20 { lean_module(&names[i], needs) } else { module(rng, &names[i..=i], needs) });
        }
        if rng.percent(60) {
            modules.reverse();
        } else {
            rng.shuffle(&mut modules);
        }
        let mut draft = module(rng, &[], &names[..1]);
        draft.line("6 ***LSB");
        modules.into_iter().for_each(|each| draft.append(each));
        draft.line("7 ***LEB");
        draft
    }

    fn entry_names(&mut self, rng: &mut Rng) -> Vec<String> {
        let count = if rng.below(1000) < 5 { rng.within(62..=66) } else { *rng.pick(&[0, 1, 1, 1, 1, 2, 3]) };
        (0..count).map(|_| self.entry_name(rng)).collect()
    }

    fn external_names(&self, rng: &mut Rng, preferred: &[String]) -> Vec<String> {
        let count = if rng.below(1000) < 5 { rng.within(62..=66) } else { *rng.pick(&[0, 0, 1, 1, 2, 3, 6]) };
        let mut name = || {
            if !preferred.is_empty() && rng.percent(60) {
                rng.pick(preferred).clone()
            } else {
                self.any_name(rng)
            }
        };
        (0..count).map(|_| name()).collect()
    }
}

/// Any name. Most have letters and digits alone, as in most shops; some have `$` and `.` all over.
pub fn random_name(rng: &mut Rng) -> String {
    let alphabet = *rng.pick(&[Alphabet::OLD, Alphabet::OLD, Alphabet::WHOLE, Alphabet::ENDS]);
    let length = rng.within(1..=6);
    let mut name = String::from(char::from(b'A' + rng.below(26) as u8));
    name.extend((1..length).map(|_| alphabet.any(rng)));
    name
}

/// An octal number, now and then with leading zeros.
fn octal(rng: &mut Rng, value: usize) -> String {
    let width = if rng.percent(5) { rng.within(1..=6) } else { 1 };
    format!("{value:0width$o}")
}

fn any_number(rng: &mut Rng) -> String {
    let value = match rng.below(4) {
        0 => 0,
        1 => rng.below(16),
        2 => 65535 - rng.below(4),
        _ => rng.below(65536),
    };
    octal(rng, value)
}

fn module(rng: &mut Rng, entries: &[String], externals: &[String]) -> Draft {
    let mut blocks = entry_blocks(rng, entries);
    blocks.extend(code_blocks(rng, externals.len()));
    if rng.percent(10) {
        blocks.extend(idle_blocks(rng));
    }
    // The order of externals counts, so their blocks keep it and are put among the others.
    rng.shuffle(&mut blocks);
    let mut place = 0;
    for block in external_blocks(rng, externals) {
        place = rng.within(place..=blocks.len());
        blocks.insert(place, block);
        place += 1;
    }

    let title = random_name(rng);
    let mut draft = Draft::default();
    draft.line("3 ***TITLE");
    draft.line(&title);
    blocks.into_iter().for_each(|block| draft.append(block));
    draft.line("1 ***END");
    draft.line(&title);
    draft
}

/// A module of one absolute entry.
fn lean_module(entry: &str, externals: &[String]) -> Draft {
    let mut draft = Draft::default();
    for line in ["3 ***TITLE", "T", "4 1 ***ENTRY", &format!("{entry} 0 0")] {
        draft.line(line);
    }
    if !externals.is_empty() {
        draft.line(format!("5 {:o} ***EXT", externals.len()));
    }
    externals.iter().for_each(|name| draft.line(name));
    draft.line("1 ***END");
    draft.line("T");
    draft
}

/// Parts a list into one or two, now and then with an empty one.
fn parted<'a>(rng: &mut Rng, list: &'a [String]) -> Vec<&'a [String]> {
    if rng.percent(20) {
        let (front, back) = list.split_at(rng.within(0..=list.len()));
        vec![front, back]
    } else if list.is_empty() {
        vec![]
    } else {
        vec![list]
    }
}

fn entry_blocks(rng: &mut Rng, entries: &[String]) -> Vec<Draft> {
    let mut blocks = Vec::new();
    for part in parted(rng, entries) {
        let mut block = Draft::default();
        let count = octal(rng, part.len());
        block.line(if rng.percent(70) { format!("4 {count} ***ENTRY") } else { format!("13 {count} ***AENTRY") });
        for name in part {
            if rng.percent(40) {
                block.line(format!("{name} {} {}", any_number(rng), octal(rng, 0)));
            } else {
                let value = if rng.percent(2) { 65535 - rng.below(300) } else { rng.below(300) };
                block.line(format!("{name} {} {} {}", octal(rng, value), octal(rng, 1), any_number(rng)));
            }
        }
        blocks.push(block);
    }
    blocks
}

fn external_blocks(rng: &mut Rng, externals: &[String]) -> Vec<Draft> {
    let mut blocks = Vec::new();
    for part in parted(rng, externals) {
        let mut block = Draft::default();
        block.line(format!("5 {} ***EXT", octal(rng, part.len())));
        part.iter().for_each(|name| block.line(name));
        blocks.push(block);
    }
    blocks
}

fn code_blocks(rng: &mut Rng, externals: usize) -> Vec<Draft> {
    let mut blocks = Vec::new();
    let mut end = 0;
    for _ in 0..*rng.pick(&[0, 1, 1, 1, 2, 3]) {
        let count = match rng.below(100) {
            0..90 => rng.within(0..=8),
            90..99 => rng.within(9..=40),
            _ => rng.within(41..=600),
        };
        let offset = match rng.below(1000) {
            0..800 => end,
            800..980 => end + rng.within(1..=5),
            980..985 => rng.below(65536),
            985..990 => rng.within(0..=end),
            _ => rng.below(1000),
        };
        end = end.max((offset + count).min(65535));
        let mut block = Draft::default();
        block.line(format!("0 {} {} ***CODE", octal(rng, count), octal(rng, offset.min(65535))));
        (0..count).for_each(|_| block.line(code_record(rng, externals)));
        blocks.push(block);
    }
    blocks
}

fn code_record(rng: &mut Rng, externals: usize) -> String {
    let quarters = (0..4).map(|_| any_number(rng)).collect::<Vec<_>>().join(" ");
    match rng.below(1000) {
        0..500 => quarters,
        500..502 => format!("* {quarters} 0 5 {}", octal(rng, externals + 1)),
        502..850 if externals > 0 => {
            let arg = rng.within(1..=externals);
            format!("* {quarters} {} {} {}", octal(rng, 0), octal(rng, 5), octal(rng, arg))
        }
        _ => format!("* {quarters} 0 {} {}", rng.within(1..=4), any_number(rng)),
    }
}

/// Blocks 10, 11 and 12, which have no effect.
fn idle_blocks(rng: &mut Rng) -> Vec<Draft> {
    let mut blocks = Vec::new();
    for _ in 0..rng.within(1..=3) {
        let count = rng.within(0..=3);
        let mut block = Draft::default();
        match rng.below(3) {
            0 => {
                block.line(format!("10 {} {} {} ***DBDB", octal(rng, count), random_name(rng), any_number(rng)));
                (0..count).for_each(|_| block.line(format!("{} {}", any_number(rng), any_number(rng))));
            }
            1 => {
                block.line(format!("11 {} ***DBIB", octal(rng, count)));
                for _ in 0..count {
                    block.line((0..5).map(|_| any_text(rng)).collect::<Vec<_>>().join(" "));
                }
            }
            _ => {
                block.line(format!("12 {} ***FPB", octal(rng, count)));
                for _ in 0..count {
                    let size = rng.within(0..=7);
                    block.line(format!("{} {} {}", any_number(rng), any_number(rng), octal(rng, size)));
                    (0..size).for_each(|_| block.line(format!("{} {}", any_number(rng), any_number(rng))));
                }
            }
        }
        blocks.push(block);
    }
    blocks
}

fn any_text(rng: &mut Rng) -> String {
    let length = rng.within(1..=8);
    (0..length).map(|_| char::from(rng.within(33..=126) as u8)).collect()
}
