//! Where names stand, and which names with the characters of request 4/14 the calls of a run met there, so that it can be told
//! what a run reached.

use std::fmt;
use std::ops::Range;

use super::case::Call;
use super::line_damage::fields;
use super::names::ADDED;
use crate::memory::{is_sound, COUNT, NAMES};
use crate::name::Name;
use crate::text;

/// Where a name stands: in a file, or in what else is lent.
#[derive(Clone, Copy, Debug, PartialEq, Eq)]
pub enum Place {
    /// Of TITLE and of END.
    Title,
    /// Of blocks 4 and 13.
    Entry,
    External,
    /// Of a DBDB header.
    Symbol,
    Force,
    State,
}

impl Place {
    pub const OF_FILES: [Place; 4] = [Place::Title, Place::Entry, Place::External, Place::Symbol];
}

const PLACES: [&str; 6] = ["title", "entry", "external", "DBDB symbol", "FORCE", "state memory"];
/// Names that are accepted with a character, then names that are refused for it as their first alone.
const SPELLINGS: [&str; 4] = ["$", ".", "$ first", ". first"];

/// A field that is due as a name, with the number of its line.
pub struct Written {
    pub place: Place,
    pub line: u64,
    pub range: Range<usize>,
}

/// The names of a file. Behind the first line that cannot be read, they need not be all.
pub fn names_of(file: &[u8]) -> Vec<Written> {
    let mut names = Vec::new();
    let mut start = 0;
    let mut due = (None, 0);
    for (line, text) in (1..).zip(file.split(|&byte| byte == b'\n')) {
        let fields = fields(text.strip_suffix(b"\r").unwrap_or(text));
        let name_at =
            |place, field: &Range<usize>| Written { place, line, range: start + field.start..start + field.end };
        match (&due, fields.as_slice()) {
            (_, []) => {}
            ((place, left @ 1..), [first, ..]) => {
                names.extend(place.map(|place| name_at(place, first)));
                due = (*place, left - 1);
            }
            _ => {
                let fields_of_header: Vec<&[u8]> = fields.iter().map(|field| &text[field.clone()]).collect();
                if let (Some(field), Some(b"***DBDB")) = (fields.get(2), fields_of_header.last().copied()) {
                    names.push(name_at(Place::Symbol, field));
                }
                due = records_behind(&fields_of_header);
            }
        }
        start += text.len() + 1;
    }
    names
}

/// How many records a header is followed by, and what their first fields name. Records of numbers alone are read as headers of
/// nothing, since they end with no marker.
fn records_behind(header: &[&[u8]]) -> (Option<Place>, u16) {
    let count = header.get(1).and_then(|field| text::number(field)).unwrap_or(0);
    match header.last().copied() {
        Some(b"***TITLE" | b"***END") => (Some(Place::Title), 1),
        Some(b"***ENTRY" | b"***AENTRY") => (Some(Place::Entry), count),
        Some(b"***EXT") => (Some(Place::External), count),
        Some(b"***DBIB") => (None, count),
        _ => (None, 0),
    }
}

#[derive(Clone, Debug, Default)]
pub struct Spelling {
    counts: [[u64; SPELLINGS.len()]; PLACES.len()],
}

impl Spelling {
    /// A call that was answered with this number and line. Those on feed memory do not count.
    pub fn note(&mut self, call: &Call, number: u64, line: u64, before: &[u64]) {
        if call.takes_feed() {
            return;
        }
        match (call, number) {
            (Call::Load { file, .. }, 0 | 9..=14) => {
                names_of(file).into_iter().for_each(|name| self.accept(name.place, &file[name.range]));
            }
            (Call::Load { file, .. }, 19) => {
                let told = names_of(file).into_iter().find(|name| name.line == line);
                told.into_iter().for_each(|name| self.refuse(name.place, &file[name.range]));
            }
            (Call::Force(name), 0 | 14) => self.accept(Place::Force, name),
            (Call::Force(name), 15) => self.refuse(Place::Force, name),
            _ => {}
        }
        match (call, number) {
            // before the state is looked at
            (Call::Reset, _) | (_, 1) => {}
            (_, 2) => self.refuse_state(before),
            _ => names_in(before).iter().for_each(|name| self.accept(Place::State, &name.to_be_bytes())),
        }
    }

    fn accept(&mut self, place: Place, name: &[u8]) {
        for (count, added) in self.counts[place as usize].iter_mut().zip(ADDED) {
            *count += u64::from(name.contains(added));
        }
    }

    fn refuse(&mut self, place: Place, name: &[u8]) {
        if let [first, rest @ ..] = name {
            if Name::parse(&[b"A", rest].concat()).is_some() {
                self.refuse_first(place, *first);
            }
        }
    }

    fn refuse_first(&mut self, place: Place, first: u8) {
        for (count, added) in self.counts[place as usize][ADDED.len()..].iter_mut().zip(ADDED) {
            *count += u64::from(first == *added);
        }
    }

    /// A state that would be sound if some name had a letter in front.
    fn refuse_state(&mut self, state: &[u64]) {
        for (i, name) in names_in(state).iter().enumerate() {
            let [0, 0, first, ..] = name.to_be_bytes() else { continue };
            let mut mended = state.to_vec();
            let mut is_mended_by = |letter: u8| {
                mended[NAMES.start + i] = name ^ u64::from(first ^ letter) << 40;
                is_sound(&mended)
            };
            if ADDED.contains(&first) && (b'A'..=b'Z').any(&mut is_mended_by) {
                self.refuse_first(Place::State, first);
            }
        }
    }

    /// What a run should have met and did not.
    pub fn missing(&self) -> Vec<String> {
        let mut missing = Vec::new();
        for (place, counts) in PLACES.iter().zip(&self.counts) {
            for (spelling, _) in SPELLINGS.iter().zip(counts).filter(|(_, &count)| count == 0) {
                missing.push(format!("a name with {spelling}: {place}"));
            }
        }
        missing
    }
}

impl fmt::Display for Spelling {
    fn fmt(&self, f: &mut fmt::Formatter<'_>) -> fmt::Result {
        write!(f, "names with $ and . (refused where it is first)")?;
        SPELLINGS.iter().try_for_each(|spelling| write!(f, " {spelling:>8}"))?;
        for (place, counts) in PLACES.iter().zip(&self.counts) {
            write!(f, "\n{place:>46}")?;
            counts.iter().try_for_each(|count| write!(f, " {count:8}"))?;
        }
        Ok(())
    }
}

/// The cells of the names that a state of the right length says that it has.
fn names_in(state: &[u64]) -> &[u64] {
    let count = state[COUNT].min(NAMES.len() as u64);
    &state[NAMES][..count as usize]
}

#[cfg(test)]
mod tests {
    use super::*;

    #[test]
    fn names_of_a_file() {
        let file = "\n 3 ***TITLE\r\n A$B\r\n11 2 ***DBIB\na b c d ***TITLE\n\na b c d ***EXT\n10 1 LO.CAL 7 ***DBDB\n1 1\n\
                    4 1 ***ENTRY\nIO.1 0 1 0\n13 1 ***AENTRY\nB 0 0\n12 1 ***FPB\n1 1 1\n1 1\n5 2 ***EXT\nC\n.D\n1 ***END\nA$B";
        let names: Vec<(Place, u64, &str)> =
            names_of(file.as_bytes()).into_iter().map(|name| (name.place, name.line, &file[name.range])).collect();
        use Place::*;
        let expected = [
            (Title, 3, "A$B"),
            (Symbol, 8, "LO.CAL"),
            (Entry, 11, "IO.1"),
            (Entry, 13, "B"),
            (External, 18, "C"),
            (External, 19, ".D"),
            (Title, 21, "A$B"),
        ];
        assert_eq!(names, expected);
    }
}
