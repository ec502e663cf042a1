//! Which fault of a line is told, by request 3/14: all its faults are collected, and the leftmost is taken. Only lines that
//! the reader has found bad come here.

use crate::answer::Reason;
use crate::name::Name;
use crate::reader::LARGEST_FPB_SIZE;
use crate::text::{self, LONGEST_LINE};

/// What a line is read as.
#[derive(Clone, Copy, Debug, PartialEq, Eq)]
pub enum Kind {
    Header,
    /// A title, or an external.
    Name,
    Entry,
    Code,
    /// Of blocks 10 and 12.
    TwoNumbers,
    /// Of block 11.
    FiveFields,
    /// Of block 12, with the number of sub-records that follow.
    Parameters,
}

/// A fault and its column, which counts from 1.
#[derive(Clone, Copy, Debug, PartialEq, Eq)]
pub struct Fault {
    pub reason: Reason,
    pub column: usize,
}

/// Which one is told of two at the same column.
const ORDER: [Reason; 6] = [Reason::Line, Reason::Marker, Reason::Fields, Reason::Number, Reason::Symbol, Reason::Type];

impl Fault {
    fn rank(&self) -> (usize, usize) {
        let place = ORDER.iter().position(|&reason| reason == self.reason);
        (self.column, place.expect("every fault of a line is in the order"))
    }
}

/// The fault that is told of a line, if it has any.
pub fn told(line: &[u8], kind: Kind) -> Option<Fault> {
    all(line, kind).into_iter().min_by_key(Fault::rank)
}

/// Every fault of a line, in no order.
pub fn all(line: &[u8], kind: Kind) -> Vec<Fault> {
    let fields = fields(line);
    let mut faults = faults_of_bytes(line);
    // A line without a field is skipped, whatever is due there.
    if !fields.is_empty() {
        faults.extend(faults_of_fields(line, &fields, kind));
    }
    faults
}

/// A field, with the column of its first byte.
type Placed<'a> = (usize, &'a [u8]);

fn fields(line: &[u8]) -> Vec<Placed<'_>> {
    let mut column = 1;
    let mut fields = Vec::new();
    for part in line.split(|&b| b == b' ') {
        if !part.is_empty() {
            fields.push((column, part));
        }
        column += part.len() + 1;
    }
    fields
}

fn faults_of_bytes(line: &[u8]) -> Vec<Fault> {
    let illegal = line.iter().enumerate().filter(|(_, &b)| !text::is_legal_byte(b)).map(|(place, _)| place + 1);
    let too_long = (line.len() > LONGEST_LINE).then_some(LONGEST_LINE + 1);
    illegal.chain(too_long).map(|column| Fault { reason: Reason::Line, column }).collect()
}

fn faults_of_fields(line: &[u8], fields: &[Placed], kind: Kind) -> Vec<Fault> {
    let Some(shape) = shape(kind, fields) else {
        // Nobody knows what belongs behind a code that there is not.
        return vec![Fault { reason: Reason::Marker, column: fields[0].0 }];
    };
    let mut faults: Vec<Fault> = (shape.iter().zip(fields))
        .filter_map(|(due, &(column, field))| Some(Fault { reason: due.wrong(field)?, column }))
        .collect();
    if let Some(&(column, _)) = fields.get(shape.len()) {
        faults.push(Fault { reason: Reason::Fields, column });
    }
    if fields.len() < shape.len() {
        faults.push(Fault { reason: Reason::Fields, column: line.len() + 1 });
    }
    faults
}

/// What is due at one place of a line.
#[derive(Clone, Copy)]
enum Due {
    Anything,
    Number,
    /// A number that is at most this; a larger one is told like what is no number.
    AtMost(u16),
    Name,
    Marker(&'static str),
    /// A number from the first to the second; another one is told as a type.
    Type(u16, u16),
}

impl Due {
    /// What is wrong with a field at this place.
    fn wrong(self, field: &[u8]) -> Option<Reason> {
        let number = text::number(field);
        match self {
            Due::Anything => None,
            Due::Number => number.is_none().then_some(Reason::Number),
            Due::AtMost(most) => number.is_none_or(|number| number > most).then_some(Reason::Number),
            Due::Name => Name::parse(field).is_none().then_some(Reason::Symbol),
            Due::Marker(marker) => (field != marker.as_bytes()).then_some(Reason::Marker),
            Due::Type(first, last) => match number {
                None => Some(Reason::Number),
                Some(number) => (number < first || number > last).then_some(Reason::Type),
            },
        }
    }
}

/// What is due in a line, place by place. `None` for a header whose code is unknown or no number.
fn shape(kind: Kind, fields: &[Placed]) -> Option<Vec<Due>> {
    let field = |place: usize| fields.get(place).map(|&(_, field)| field);
    Some(match kind {
        Kind::Header => header_shape(text::number(field(0)?)?)?,
        Kind::Name => vec![Due::Name],
        Kind::Entry => {
            let mut shape = vec![Due::Name, Due::Number, Due::Type(0, 1)];
            if field(2).and_then(text::number) == Some(1) {
                shape.push(Due::Number);
            }
            shape
        }
        Kind::Code if field(0) == Some(b"*") => {
            let quarters = [Due::Number; 4];
            [&[Due::Anything][..], &quarters, &[Due::Type(0, 0), Due::Type(1, 5), Due::Number]].concat()
        }
        Kind::Code => vec![Due::Number; 4],
        Kind::TwoNumbers => vec![Due::Number; 2],
        Kind::FiveFields => vec![Due::Anything; 5],
        Kind::Parameters => vec![Due::Number, Due::Number, Due::AtMost(LARGEST_FPB_SIZE)],
    })
}

/// The code itself has been read, so anything is right at its place.
fn header_shape(code: u16) -> Option<Vec<Due>> {
    let (between, marker): (&[Due], _) = match code {
        0o0 => (&[Due::Number, Due::Number], "***CODE"),
        0o1 => (&[], "***END"),
        0o3 => (&[], "***TITLE"),
        0o4 => (&[Due::Number], "***ENTRY"),
        0o5 => (&[Due::Number], "***EXT"),
        0o6 => (&[], "***LSB"),
        0o7 => (&[], "***LEB"),
        0o10 => (&[Due::Number, Due::Name, Due::Number], "***DBDB"),
        0o11 => (&[Due::Number], "***DBIB"),
        0o12 => (&[Due::Number], "***FPB"),
        0o13 => (&[Due::Number], "***AENTRY"),
        _ => return None,
    };
    Some([&[Due::Anything], between, &[Due::Marker(marker)]].concat())
}

#[cfg(test)]
mod tests {
    use super::*;

    fn faults(line: &str, kind: Kind) -> Vec<(u64, usize)> {
        let mut faults = all(line.as_bytes(), kind);
        faults.sort_by_key(Fault::rank);
        faults.into_iter().map(|fault| (fault.reason as u64, fault.column)).collect()
    }

    #[test]
    fn all_faults_of_a_line() {
        assert_eq!(faults("4 1 ***ENTRY", Kind::Header), []);
        assert_eq!(faults("4 ***ENTRY", Kind::Header), [(18, 3), (17, 11)]);
        assert_eq!(faults("3 X ***TITLE", Kind::Header), [(20, 3), (17, 5)]);
        assert_eq!(faults("2 X\tY Z", Kind::Header), [(20, 1), (6, 4)]);
        assert_eq!(faults("10 8 1A 9 ***DBIB x y", Kind::Header), [(18, 4), (19, 6), (18, 9), (20, 11), (17, 19)]);
        assert_eq!(faults("\t 8 8 8 8", Kind::Code), [(6, 1), (18, 1), (18, 3), (18, 5), (18, 7), (17, 9)]);
        assert_eq!(faults("* 0 0 0 0 1 6 8 ", Kind::Code), [(21, 11), (21, 13), (18, 15)]);
        assert_eq!(faults("* 0 0 0 0 X Y", Kind::Code), [(18, 11), (18, 13), (17, 14)]);
        assert_eq!(faults("a 8 2 0", Kind::Entry), [(19, 1), (18, 3), (21, 5), (17, 7)]);
        assert_eq!(faults("1 1 10 1", Kind::Parameters), [(18, 5), (17, 8)]);
        assert_eq!(faults("a\t b", Kind::FiveFields), [(6, 2), (17, 5)]);
    }

    #[test]
    fn lines_without_a_field() {
        assert_eq!(faults(&" ".repeat(80), Kind::Code), []);
        assert_eq!(faults(&" ".repeat(82), Kind::Code), [(6, 81)]);
    }

    #[test]
    fn faults_at_the_same_column() {
        let line = format!("{:80}A", "1 2 3");
        assert_eq!(faults(&line, Kind::Code), [(6, 81), (18, 81)]);
        assert_eq!(faults(&format!("{:80}A", "1 2 3 4"), Kind::Code), [(6, 81), (17, 81)]);
        assert_eq!(faults("\r", Kind::Name), [(6, 1), (19, 1)]);
    }
}
