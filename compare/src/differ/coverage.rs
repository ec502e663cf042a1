//! What a run reached: how often each call gave each answer, which faults of lines were told, how many rounds the accepted
//! loads had, where HIGH stood, which names were looked for, where names with `$` and `.` stood, and what was fed.
//! Document 01, with requests 3/14 and 5/14, says which answers a call can give at all; a run that is meant to reach them all names
//! those that it missed.

use std::fmt;

use super::case::{Call, Origin};
use super::faults::Faults;
use super::feeding::Feeding;
use super::lookups::Lookups;
use super::spelling::Spelling;
use crate::linker::NO_ADDRESS;

/// A column of the table: a call, and for LOAD where its file comes from.
#[derive(Clone, Copy, Debug, PartialEq, Eq)]
pub enum Column {
    Load(Origin),
    Force,
    Base,
    Reset,
    Memory,
    Symbols,
    Undefined,
    End,
    Open,
    Feed,
    Close,
    Drop,
}

use Column::*;

/// The answers have the numbers below this one.
pub const ANSWERS: usize = 24;

const COLUMNS: [(Column, &str); 15] = [
    (Load(Origin::Given), "given"),
    (Load(Origin::Whole), "whole"),
    (Load(Origin::Damaged), "damaged"),
    (Load(Origin::Odd), "odd"),
    (Force, "FORCE"),
    (Base, "BASE"),
    (Reset, "RESET"),
    (Memory, "MEMORY"),
    (Symbols, "SYMBOLS"),
    (Undefined, "UNDEF."),
    (End, "END"),
    (Open, "OPEN"),
    (Feed, "FEED"),
    (Close, "CLOSE"),
    (Drop, "DROP"),
];

impl Column {
    /// `None` for what is no call.
    pub fn of(call: &Call) -> Option<Column> {
        Some(match call {
            Call::Load { origin, .. } => Load(*origin),
            Call::Force(_) => Force,
            Call::Base(_) => Base,
            Call::Reset => Reset,
            Call::Memory => Memory,
            Call::Symbols(_) => Symbols,
            Call::Undefined(_) => Undefined,
            Call::End(_) => End,
            Call::Open => Open,
            Call::Feed(_) => Feed,
            Call::Close { .. } => Close,
            Call::Drop => Drop,
            Call::Poke(_) | Call::Fed(_) | Call::Harm(_) | Call::Mend => return None,
        })
    }

    /// Whether the papers have the answer for the call. A whole file has no malformed line and no misplaced block.
    pub fn can_give(self, number: u64) -> bool {
        match self {
            Load(Origin::Whole) => matches!(number, 0..=5 | 8..=14),
            Load(_) => matches!(number, 0..=14 | 17..=21),
            Force => matches!(number, 0..=4 | 14 | 15),
            Base => matches!(number, 0..=4 | 12),
            Reset => matches!(number, 0..=1),
            Memory | Symbols | Undefined => matches!(number, 0..=2),
            End => matches!(number, 0..=3 | 16),
            Open | Feed | Drop => matches!(number, 0..=2 | 23),
            Close => matches!(number, 0..=14 | 17..=21 | 23),
        }
    }

    /// Whether a run of random cases must have met the answer. What is no file at all is hardly ever read to its end.
    fn must_give(self, number: u64) -> bool {
        match self {
            Load(Origin::Given) => false,
            Load(Origin::Odd) => matches!(number, 0..=7 | 17..=21),
            _ => self.can_give(number),
        }
    }
}

/// Rounds of a load, as rows of the table: the first and last number of each.
const ROUNDS: [(u64, u64); 9] = [(0, 0), (1, 1), (2, 2), (3, 3), (4, 4), (5, 8), (9, 16), (17, 64), (65, u64::MAX)];

/// How HIGH can part from the next address less one.
const HIGHS: [&str; 3] = ["no word", "below", "above"];

#[derive(Clone, Debug, Default)]
pub struct Coverage {
    pub calls: u64,
    answers: [[u64; ANSWERS]; COLUMNS.len()],
    /// Of accepted loads with no section, one, and several.
    rounds: [[u64; 3]; ROUNDS.len()],
    pub most_rounds: u64,
    /// SYMBOLS and UNDEFINED past the end of their list.
    past_end: [u64; 2],
    /// HIGH of MEMORY and of END, where it parts from the next address less one.
    highs: [[u64; HIGHS.len()]; 2],
    pub faults: Faults,
    pub lookups: Lookups,
    pub spelling: Spelling,
    pub feeding: Feeding,
}

impl Coverage {
    pub fn note(&mut self, column: Column, number: u64) {
        self.calls += 1;
        if let (Some(at), true) = (COLUMNS.iter().position(|each| each.0 == column), number < ANSWERS as u64) {
            self.answers[at][number as usize] += 1;
        }
    }

    pub fn note_rounds(&mut self, rounds: u64, sections: usize) {
        self.most_rounds = self.most_rounds.max(rounds);
        if let Some(row) = ROUNDS.iter().position(|&(first, last)| (first..=last).contains(&rounds)) {
            self.rounds[row][sections.min(2)] += 1;
        }
    }

    pub fn note_past_end(&mut self, column: Column) {
        self.past_end[usize::from(column == Undefined)] += 1;
    }

    /// Counts a HIGH that the next address does not tell.
    pub fn note_high(&mut self, column: Column, high: u64, next: u64) {
        let none = u64::from(NO_ADDRESS);
        let kind = match next.checked_sub(1).unwrap_or(none) {
            last if high == last => return,
            _ if high == none => 0,
            _ if high < next => 1,
            _ => 2,
        };
        self.highs[usize::from(column == End)][kind] += 1;
    }

    /// How often a column had an answer.
    pub fn count(&self, column: Column, number: usize) -> u64 {
        COLUMNS.iter().position(|each| each.0 == column).map_or(0, |at| self.answers[at][number])
    }

    /// What a run of random cases should have met and did not.
    pub fn missing(&self) -> Vec<String> {
        let mut missing = Vec::new();
        for (column, name) in COLUMNS {
            for number in (0..ANSWERS as u64).filter(|&number| column.must_give(number)) {
                if self.count(column, number as usize) == 0 {
                    missing.push(format!("answer {number} of {name}"));
                }
            }
        }
        for (row, &(first, last)) in ROUNDS.iter().enumerate() {
            let [none, one, several] = self.rounds[row];
            if first == 0 && none == 0 {
                missing.push("a LOAD without a section".into());
            }
            if first > 0 && one == 0 {
                missing.push(format!("{} rounds of one section", shown(first, last)));
            }
            if first > 1 && several == 0 {
                missing.push(format!("{} rounds of several sections", shown(first, last)));
            }
        }
        for (count, name) in self.past_end.iter().zip(["SYMBOLS", "UNDEFINED"]) {
            if *count == 0 {
                missing.push(format!("{name} past its end"));
            }
        }
        for (counts, name) in self.highs.iter().zip(["MEMORY", "END"]) {
            for (_, kind) in counts.iter().zip(HIGHS).filter(|(&count, _)| count == 0) {
                missing.push(format!("HIGH of {name} apart from the next address: {kind}"));
            }
        }
        missing.extend(self.faults.missing());
        missing.extend(self.lookups.missing());
        missing.extend(self.spelling.missing());
        missing.extend(self.feeding.missing());
        missing
    }
}

fn shown(first: u64, last: u64) -> String {
    match last {
        u64::MAX => format!("{first} and more"),
        _ if first == last => first.to_string(),
        _ => format!("{first} to {last}"),
    }
}

impl fmt::Display for Coverage {
    /// The tables. A `-` is an answer that the papers do not have for the call, or a fault or a name that cannot stand there.
    fn fmt(&self, f: &mut fmt::Formatter<'_>) -> fmt::Result {
        let shown_columns: Vec<usize> =
            (0..COLUMNS.len()).filter(|&at| self.answers[at].iter().any(|&count| count > 0)).collect();
        write!(f, "answer")?;
        for &at in &shown_columns {
            write!(f, " {:>8}", COLUMNS[at].1)?;
        }
        writeln!(f)?;
        for number in (0..ANSWERS).filter(|&number| COLUMNS.iter().any(|each| each.0.can_give(number as u64))) {
            write!(f, "{number:6}")?;
            for &at in &shown_columns {
                match (COLUMNS[at].0.can_give(number as u64), self.answers[at][number]) {
                    (false, 0) => write!(f, " {:>8}", "-")?,
                    (_, count) => write!(f, " {count:8}")?,
                }
            }
            writeln!(f)?;
        }
        writeln!(f, "rounds of accepted loads   without   with one   with several sections")?;
        for (&(first, last), [none, one, several]) in ROUNDS.iter().zip(&self.rounds) {
            writeln!(f, "{:>24}   {none:7}   {one:8}   {several:12}", shown(first, last))?;
        }
        let [symbols, undefined] = self.past_end;
        writeln!(f, "past the end of the list: SYMBOLS {symbols}, UNDEFINED {undefined}")?;
        let [memory, end] = self.highs;
        writeln!(
            f,
            "HIGH apart from the next address less one ({}): MEMORY {memory:?}, END {end:?}",
            HIGHS.join(", ")
        )?;
        writeln!(f, "{}", self.faults)?;
        writeln!(f, "{}", self.lookups)?;
        writeln!(f, "{}", self.spelling)?;
        self.feeding.fmt(f)
    }
}
