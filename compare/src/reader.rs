//! Reads an object file: the bytes become modules and sections, or the fault of the earliest line that has one: a fault of
//! the line itself (6 and 17 to 21), PLACE or LIST.

use crate::answer::{Reason, Refusal};
use crate::fault::{self, Kind};
use crate::name::Name;
use crate::object::{CodeWord, Entry, Item, Module, Relocation, Section};
use crate::text::{self, Fields};

pub const MOST_ENTRIES: usize = 64;
pub const MOST_EXTERNALS: usize = 64;
pub const MOST_MODULES: usize = 256;
pub const LARGEST_FPB_SIZE: u16 = 7;

pub fn read(file: &[u8]) -> Result<Vec<Item>, Refusal> {
    let mut reader = Reader { lines: text::lines(file), line: 0, text: &[] };
    reader.items().map_err(|stop| match stop {
        Stop::Bad(kind) => line_fault(reader.text, kind, reader.line),
        Stop::Place => Refusal::at(Reason::Place, reader.line),
        Stop::List => Refusal::at(Reason::List, reader.line),
    })
}

/// The line that a file is refused at by 6 or 17 to 21, and what it was read as.
pub fn bad_line(file: &[u8]) -> Option<(&[u8], Kind)> {
    let mut reader = Reader { lines: text::lines(file), line: 0, text: &[] };
    match reader.items() {
        Err(Stop::Bad(kind)) => Some((reader.text, kind)),
        _ => None,
    }
}

fn line_fault(text: &[u8], kind: Kind, line: u64) -> Refusal {
    let told = fault::told(text, kind).expect("a line that cannot be read has a fault");
    Refusal { reason: told.reason, line, column: told.column as u32 }
}

/// Why the reading stops at a line. Which fault a bad line has is asked only then, so that good lines cost nothing for it.
#[derive(Clone, Copy)]
enum Stop {
    /// The line cannot be read as what is due there.
    Bad(Kind),
    Place,
    List,
}

/// A header line. Counts are those of the records that follow.
enum Header {
    Code {
        count: u16,
        offset: u16,
    },
    End,
    Title,
    /// Blocks 4 and 13.
    Entries {
        count: u16,
    },
    Externals {
        count: u16,
    },
    LibraryStart,
    LibraryEnd,
    DataDefinition {
        count: u16,
    },
    DataInitial {
        count: u16,
    },
    Parameters {
        count: u16,
    },
}

struct Reader<'a, I> {
    lines: I,
    /// The number of the line that was read last, and the line.
    line: u64,
    text: &'a [u8],
}

impl<'a, I: Iterator<Item = &'a [u8]>> Reader<'a, I> {
    fn items(&mut self) -> Result<Vec<Item>, Stop> {
        let mut items = Vec::new();
        while let Some(header) = self.next_header()? {
            items.push(match header {
                Header::Title => Item::Module(self.module()?),
                Header::LibraryStart => Item::Section(self.section()?),
                _ => return Err(Stop::Place),
            });
        }
        Ok(items)
    }

    /// The next line with a field, to be read as `kind` says. Lines without one are tested and skipped.
    fn next_line(&mut self, kind: Kind) -> Result<Option<&'a [u8]>, Stop> {
        loop {
            self.line += 1;
            let Some(line) = self.lines.next() else { return Ok(None) };
            self.text = line;
            if !text::is_legal(line) {
                return Err(Stop::Bad(kind));
            }
            if !text::is_blank(line) {
                return Ok(Some(line));
            }
        }
    }

    fn next_header(&mut self) -> Result<Option<Header>, Stop> {
        match self.next_line(Kind::Header)? {
            Some(line) => parse_header(line).map(Some).ok_or(Stop::Bad(Kind::Header)),
            None => Ok(None),
        }
    }

    /// A header where the file may not end.
    fn header(&mut self) -> Result<Header, Stop> {
        self.next_header()?.ok_or(Stop::Place)
    }

    /// A line of this kind, which must be there and must read as `parse` says.
    fn record<T>(&mut self, kind: Kind, parse: impl Fn(Fields<'a>) -> Option<T>) -> Result<T, Stop> {
        let line = self.next_line(kind)?.ok_or(Stop::Place)?;
        parse(Fields::of(line)).ok_or(Stop::Bad(kind))
    }

    /// From after its LSB header to its LEB header.
    fn section(&mut self) -> Result<Section, Stop> {
        let mut section = Section { line: self.line, modules: Vec::new() };
        loop {
            match self.header()? {
                Header::Title if section.modules.len() == MOST_MODULES => return Err(Stop::List),
                Header::Title => section.modules.push(self.module()?),
                Header::LibraryEnd => return Ok(section),
                _ => return Err(Stop::Place),
            }
        }
    }

    /// From after its TITLE header to the title record of its END block.
    fn module(&mut self) -> Result<Module, Stop> {
        let mut module = Module { line: self.line, ..Module::default() };
        let title = self.record(Kind::Name, parse_name)?;
        loop {
            match self.header()? {
                Header::Code { count, offset } => self.code(&mut module, count.into(), offset.into())?,
                Header::Entries { count } => self.entries(&mut module, count)?,
                Header::Externals { count } => self.externals(&mut module, count)?,
                Header::DataDefinition { count } => self.skip(count, Kind::TwoNumbers, parse_two_numbers)?,
                Header::DataInitial { count } => self.skip(count, Kind::FiveFields, parse_five_fields)?,
                Header::Parameters { count } => self.parameters(count)?,
                Header::End => break,
                Header::Title | Header::LibraryStart | Header::LibraryEnd => return Err(Stop::Place),
            }
        }
        if self.record(Kind::Name, parse_name)? != title {
            return Err(Stop::Place);
        }
        Ok(module)
    }

    fn code(&mut self, module: &mut Module, count: usize, offset: usize) -> Result<(), Stop> {
        for place in offset..offset + count {
            let (quarters, relocation) = self.record(Kind::Code, parse_code)?;
            module.words.push(CodeWord { offset: place, quarters, relocation });
        }
        if count > 0 {
            module.length = module.length.max(offset + count);
        }
        Ok(())
    }

    fn entries(&mut self, module: &mut Module, count: u16) -> Result<(), Stop> {
        for _ in 0..count {
            let entry = self.record(Kind::Entry, parse_entry)?;
            if module.entries.len() == MOST_ENTRIES {
                return Err(Stop::List);
            }
            module.entries.push(entry);
        }
        Ok(())
    }

    fn externals(&mut self, module: &mut Module, count: u16) -> Result<(), Stop> {
        for _ in 0..count {
            let name = self.record(Kind::Name, parse_name)?;
            if module.externals.len() == MOST_EXTERNALS {
                return Err(Stop::List);
            }
            module.externals.push(name);
        }
        Ok(())
    }

    /// Block 12: each record tells how many sub-records follow it.
    fn parameters(&mut self, count: u16) -> Result<(), Stop> {
        for _ in 0..count {
            let size = self.record(Kind::Parameters, parse_parameters)?;
            self.skip(size, Kind::TwoNumbers, parse_two_numbers)?;
        }
        Ok(())
    }

    /// Records that must be well formed and have no effect.
    fn skip(&mut self, count: u16, kind: Kind, parse: impl Fn(Fields<'a>) -> Option<()>) -> Result<(), Stop> {
        (0..count).try_for_each(|_| self.record(kind, &parse))
    }
}

fn parse_header(line: &[u8]) -> Option<Header> {
    let mut fields = Fields::of(line);
    let (header, marker) = match fields.number()? {
        0o0 => (Header::Code { count: fields.number()?, offset: fields.number()? }, "***CODE"),
        0o1 => (Header::End, "***END"),
        0o3 => (Header::Title, "***TITLE"),
        0o4 => (Header::Entries { count: fields.number()? }, "***ENTRY"),
        0o5 => (Header::Externals { count: fields.number()? }, "***EXT"),
        0o6 => (Header::LibraryStart, "***LSB"),
        0o7 => (Header::LibraryEnd, "***LEB"),
        0o10 => {
            let count = fields.number()?;
            let _symbol = fields.name()?;
            let _dest = fields.number()?;
            (Header::DataDefinition { count }, "***DBDB")
        }
        0o11 => (Header::DataInitial { count: fields.number()? }, "***DBIB"),
        0o12 => (Header::Parameters { count: fields.number()? }, "***FPB"),
        0o13 => (Header::Entries { count: fields.number()? }, "***AENTRY"),
        _ => return None,
    };
    fields.exactly(marker)?;
    fields.end()?;
    Some(header)
}

fn parse_name(mut fields: Fields) -> Option<Name> {
    let name = fields.name()?;
    fields.end()?;
    Some(name)
}

fn parse_numbers<const N: usize>(mut fields: Fields) -> Option<[u16; N]> {
    let mut numbers = [0; N];
    for number in &mut numbers {
        *number = fields.number()?;
    }
    fields.end()?;
    Some(numbers)
}

fn parse_two_numbers(fields: Fields) -> Option<()> {
    parse_numbers::<2>(fields).map(drop)
}

/// Tells the size.
fn parse_parameters(fields: Fields) -> Option<u16> {
    let [_type, _dest, size] = parse_numbers(fields)?;
    (size <= LARGEST_FPB_SIZE).then_some(size)
}

fn parse_five_fields(mut fields: Fields) -> Option<()> {
    for _ in 0..5 {
        fields.field()?;
    }
    fields.end()
}

fn parse_entry(mut fields: Fields) -> Option<Entry> {
    let name = fields.name()?;
    let value = fields.number()?;
    let relocated = match fields.number()? {
        0 => false,
        1 => {
            let _paramnum = fields.number()?;
            true
        }
        _ => return None,
    };
    fields.end()?;
    Some(Entry { name, value, relocated })
}

fn parse_code(mut fields: Fields) -> Option<([u16; 4], Relocation)> {
    let relocatable = fields.skip("*");
    let quarters = [fields.number()?, fields.number()?, fields.number()?, fields.number()?];
    let relocation = if relocatable {
        let first = fields.number()?;
        let kind = fields.number()?;
        let arg = fields.number()?;
        match (first, kind) {
            (0, 5) => Relocation::External(arg),
            (0, 1..=4) => Relocation::Unread,
            _ => return None,
        }
    } else {
        Relocation::Plain
    };
    fields.end()?;
    Some((quarters, relocation))
}

#[cfg(test)]
mod tests {
    use super::*;
    use crate::differ::damage::ODD_FIELDS;
    use crate::differ::rng::Rng;

    /// A line of fields that lie close to legal ones, of odd lengths and now and then with an illegal byte.
    fn random_line(rng: &mut Rng) -> Vec<u8> {
        let mut line = Vec::new();
        for _ in 0..rng.below(9) {
            line.extend_from_slice(rng.pick(ODD_FIELDS).as_bytes());
            line.resize(line.len() + *rng.pick(&[1, 1, 1, 1, 1, 1, 2, 70]), b' ');
            if rng.percent(3) {
                line.push(rng.next() as u8);
            }
        }
        line.retain(|&byte| byte != b'\n');
        line
    }

    /// A line is bad exactly if it has a fault.
    #[test]
    fn the_reading_and_the_faults_agree() {
        let mut rng = Rng::new(1);
        let (mut good, mut bad) = ([0; 7], [0; 7]);
        for number in 0..700_000 {
            let line = random_line(&mut rng);
            let mut reader = Reader { lines: [line.as_slice()].into_iter(), line: 0, text: &[] };
            let (kind, read) = match number % 7 {
                0 => (Kind::Header, reader.next_header().map(drop)),
                1 => (Kind::Name, reader.record(Kind::Name, parse_name).map(drop)),
                2 => (Kind::Entry, reader.record(Kind::Entry, parse_entry).map(drop)),
                3 => (Kind::Code, reader.record(Kind::Code, parse_code).map(drop)),
                4 => (Kind::TwoNumbers, reader.skip(1, Kind::TwoNumbers, parse_two_numbers)),
                5 => (Kind::FiveFields, reader.skip(1, Kind::FiveFields, parse_five_fields)),
                _ => (Kind::Parameters, reader.record(Kind::Parameters, parse_parameters).map(drop)),
            };
            let is_bad = matches!(read, Err(Stop::Bad(_)));
            assert_eq!(fault::told(&line, kind).is_some(), is_bad, "{:?}", String::from_utf8_lossy(&line));
            (if is_bad { &mut bad } else { &mut good })[number % 7] += 1;
        }
        assert!(good.iter().chain(&bad).all(|&count| count > 20), "{good:?} {bad:?}");
    }
}
