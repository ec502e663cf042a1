//! Which faults of lines the loads of a run met, so that it can be told what a run reached.

use std::fmt;

use crate::fault::{self, Fault, Kind};
use crate::reader;
use crate::text::{is_legal_byte, LONGEST_LINE};

/// The numbers of the faults of a line.
const NUMBERS: [u64; 6] = [6, 17, 18, 19, 20, 21];

/// What a line is read as, with those of the numbers that it can be refused by.
const LINES: [(&str, [bool; 6]); 8] = [
    ("header", [true, true, true, true, true, false]),
    ("name", [true, true, false, true, false, false]),
    ("entry", [true, true, true, true, false, true]),
    ("plain code", [true, true, true, false, false, false]),
    ("relocated code", [true, true, true, false, false, true]),
    ("two numbers", [true, true, true, false, false, false]),
    ("five fields", [true, true, false, false, false, false]),
    ("FPB record", [true, true, true, false, false, false]),
];

/// Where a fault is told among the fields of its line.
const PLACES: [(&str, [bool; 6]); 5] = [
    ("the only field", [true, false, true, true, true, false]),
    ("the first field", [true, false, true, true, true, false]),
    ("a field between", [true, true, true, true, true, true]),
    // a name is last only where the rest of its line is missing
    ("the last field", [true, true, true, false, true, true]),
    ("behind the fields", [true, true, false, false, false, false]),
];

/// How a fault is told among others.
const BESIDE: [(&str, [bool; 6]); 5] = [
    ("alone", [true; 6]),
    ("one of two", [true; 6]),
    ("one of three and more", [true; 6]),
    // 6 goes before these at the same column, by a byte; what begins with an illegal byte is no number, so no type
    ("6 at its column too", [false, true, true, true, true, false]),
    ("an illegal byte in its field", [false, true, true, true, true, false]),
];

const LENGTHS: [&str; 6] = [
    "81 for length alone",
    "81 for length, a fault behind it",
    "81 for length, a wrong field there",
    "a longer line, a fault before 81",
    "a missing field behind 80 bytes",
    "a missing field behind spaces",
];

#[derive(Clone, Debug, Default)]
pub struct Faults {
    lines: [[u64; 6]; LINES.len()],
    places: [[u64; 6]; PLACES.len()],
    beside: [[u64; 6]; BESIDE.len()],
    lengths: [u64; LENGTHS.len()],
}

impl Faults {
    /// A load of this file that was refused by 6 or 17 to 21.
    pub fn note(&mut self, file: &[u8]) {
        let Some((line, kind)) = reader::bad_line(file) else { return };
        let faults = fault::all(line, kind);
        let Some(told) = fault::told(line, kind) else { return };
        let row = at(told);
        self.lines[kind_of(line, kind)][row] += 1;
        self.places[place_of(line, told.column)][row] += 1;
        self.beside[faults.len().clamp(1, 3) - 1][row] += 1;
        let illegal = |column: usize| line.get(column - 1).is_some_and(|&byte| !is_legal_byte(byte));
        if told.reason as u64 == 6 {
            for other in faults.iter().filter(|other| other.column == told.column && illegal(other.column)) {
                // the fault that 6 goes before, and not 6 itself
                self.beside[3][at(*other)] += u64::from(other.reason != told.reason);
            }
        } else {
            let field = line[told.column - 1..].split(|&byte| byte == b' ').next().unwrap_or_default();
            self.beside[4][row] += u64::from(field.iter().any(|&byte| !is_legal_byte(byte)));
        }
        self.note_length(line, &faults, told);
    }

    fn note_length(&mut self, line: &[u8], faults: &[Fault], told: Fault) {
        let end = LONGEST_LINE + 1;
        let too_long = line.len() > LONGEST_LINE;
        let for_length = too_long && told.column == end;
        let missing = told.reason as u64 == 17 && told.column == line.len() + 1;
        let met = [
            for_length && faults.len() == 1,
            for_length && faults.iter().any(|fault| fault.column > end),
            for_length && faults.iter().any(|fault| fault.column == end && fault.reason != told.reason),
            too_long && told.column < end,
            missing && told.column == end,
            missing && line.ends_with(b" "),
        ];
        for (count, met) in self.lengths.iter_mut().zip(met) {
            *count += u64::from(met);
        }
    }

    /// What a run should have met and did not.
    pub fn missing(&self) -> Vec<String> {
        let mut missing = Vec::new();
        let mut look = |rows: &[(&str, [bool; 6])], counts: &[[u64; 6]]| {
            for ((name, can), counts) in rows.iter().zip(counts) {
                for at in (0..NUMBERS.len()).filter(|&at| can[at] && counts[at] == 0) {
                    missing.push(format!("a fault {}: {name}", NUMBERS[at]));
                }
            }
        };
        look(&LINES, &self.lines);
        look(&PLACES, &self.places);
        look(&BESIDE, &self.beside);
        for (name, _) in LENGTHS.iter().zip(self.lengths).filter(|&(_, count)| count == 0) {
            missing.push(format!("a fault: {name}"));
        }
        missing
    }
}

fn at(fault: Fault) -> usize {
    NUMBERS.iter().position(|&number| number == fault.reason as u64).unwrap_or(0)
}

fn kind_of(line: &[u8], kind: Kind) -> usize {
    let first = line.split(|&byte| byte == b' ').find(|field| !field.is_empty());
    match kind {
        Kind::Header => 0,
        Kind::Name => 1,
        Kind::Entry => 2,
        Kind::Code => 3 + usize::from(first == Some(b"*")),
        Kind::TwoNumbers => 5,
        Kind::FiveFields => 6,
        Kind::Parameters => 7,
    }
}

/// The row of `PLACES` for a column.
fn place_of(line: &[u8], column: usize) -> usize {
    let fields_of = |part: &[u8]| part.split(|&byte| byte == b' ').filter(|field| !field.is_empty()).count();
    let (all, before) = (fields_of(line), fields_of(&line[..(column - 1).min(line.len())]));
    let here = line.get(column - 1).is_some_and(|&byte| byte != b' ');
    // A byte inside a field has the field's own front before it.
    let inside = here && column > 1 && line[column - 2] != b' ';
    match before - usize::from(inside) {
        _ if !here && before == all => 4,
        0 if all == 1 => 0,
        0 => 1,
        place if place + 1 >= all => 3,
        _ => 2,
    }
}

impl fmt::Display for Faults {
    fn fmt(&self, f: &mut fmt::Formatter<'_>) -> fmt::Result {
        write!(f, "faults of lines               ")?;
        NUMBERS.iter().try_for_each(|number| write!(f, " {number:>8}"))?;
        let rows = LINES.iter().zip(&self.lines).chain(PLACES.iter().zip(&self.places));
        for ((name, can), counts) in rows.chain(BESIDE.iter().zip(&self.beside)) {
            write!(f, "\n{name:>30}")?;
            for (can, count) in can.iter().zip(counts) {
                match (can, count) {
                    (false, 0) => write!(f, " {:>8}", "-")?,
                    _ => write!(f, " {count:8}")?,
                }
            }
        }
        writeln!(f)?;
        for (at, (name, count)) in LENGTHS.iter().zip(self.lengths).enumerate() {
            write!(f, "{}{name} {count}", if at > 0 { ", " } else { "" })?;
        }
        Ok(())
    }
}
