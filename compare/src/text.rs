//! Lines, fields and numbers of an object file.

use crate::name::Name;

pub const LONGEST_LINE: usize = 80;
const MOST_DIGITS: usize = 6;

/// The lines of a file without their ends. One CR just before an LF belongs to the end; a last line without LF keeps it.
pub fn lines(file: &[u8]) -> impl Iterator<Item = &[u8]> {
    file.split_inclusive(|&b| b == b'\n').map(|line| match line.strip_suffix(b"\n") {
        Some(line) => line.strip_suffix(b"\r").unwrap_or(line),
        None => line,
    })
}

/// Whether a line has a legal length and legal bytes alone.
pub fn is_legal(line: &[u8]) -> bool {
    line.len() <= LONGEST_LINE && line.iter().all(|&b| is_legal_byte(b))
}

pub fn is_legal_byte(byte: u8) -> bool {
    (b' '..=b'~').contains(&byte)
}

pub fn is_blank(line: &[u8]) -> bool {
    line.iter().all(|&b| b == b' ')
}

/// An octal number of one to six digits, at most 177777.
pub fn number(field: &[u8]) -> Option<u16> {
    if field.is_empty() || field.len() > MOST_DIGITS {
        return None;
    }
    let value = field.iter().try_fold(0u32, |value, &b| match b {
        b'0'..=b'7' => Some(value * 8 + u32::from(b - b'0')),
        _ => None,
    })?;
    u16::try_from(value).ok()
}

/// The fields of one line, taken from the left. `None` from any of the readers is a fault of the line; `fault` says which.
#[derive(Clone)]
pub struct Fields<'a> {
    rest: &'a [u8],
}

impl<'a> Fields<'a> {
    pub fn of(line: &'a [u8]) -> Fields<'a> {
        Fields { rest: line }
    }

    pub fn field(&mut self) -> Option<&'a [u8]> {
        let start = self.rest.iter().position(|&b| b != b' ')?;
        let rest = &self.rest[start..];
        let end = rest.iter().position(|&b| b == b' ').unwrap_or(rest.len());
        self.rest = &rest[end..];
        Some(&rest[..end])
    }

    pub fn number(&mut self) -> Option<u16> {
        number(self.field()?)
    }

    pub fn name(&mut self) -> Option<Name> {
        Name::parse(self.field()?)
    }

    /// A field that must read exactly so.
    pub fn exactly(&mut self, text: &str) -> Option<()> {
        (self.field()? == text.as_bytes()).then_some(())
    }

    /// Takes the next field if it reads exactly so.
    pub fn skip(&mut self, text: &str) -> bool {
        let mut ahead = self.clone();
        let found = ahead.exactly(text).is_some();
        if found {
            *self = ahead;
        }
        found
    }

    /// No field may be left.
    pub fn end(&self) -> Option<()> {
        is_blank(self.rest).then_some(())
    }
}

#[cfg(test)]
mod tests {
    use super::*;

    fn lines_of(file: &[u8]) -> Vec<&[u8]> {
        lines(file).collect()
    }

    #[test]
    fn line_ends() {
        assert_eq!(lines_of(b""), Vec::<&[u8]>::new());
        assert_eq!(lines_of(b"\n"), [b""]);
        assert_eq!(lines_of(b"a\nb\n"), [b"a", b"b"]);
        assert_eq!(lines_of(b"a\r\nb"), [b"a", b"b"]);
        assert_eq!(lines_of(b"a\r\r\n\n"), [&b"a\r"[..], b""]);
        assert_eq!(lines_of(b"a\r"), [b"a\r"]);
    }

    #[test]
    fn legal_lines() {
        assert!(is_legal(&[b' '; 80]) && !is_legal(&[b' '; 81]));
        assert!(is_legal(b" ~") && !is_legal(b"\x1f") && !is_legal(b"\x7f") && !is_legal(b"\t") && !is_legal(b"\r"));
    }

    #[test]
    fn numbers() {
        assert_eq!(number(b"0"), Some(0));
        assert_eq!(number(b"10"), Some(8));
        assert_eq!(number(b"000010"), Some(8));
        assert_eq!(number(b"177777"), Some(65535));
        for field in ["", "8", "200000", "777777", "0000000", "-1", "+1", "1A", "*"] {
            assert_eq!(number(field.as_bytes()), None, "{field:?}");
        }
    }

    #[test]
    fn fields() {
        let mut fields = Fields::of(b"  * 17  ABC ***END ");
        assert!(!fields.skip("**") && fields.skip("*"));
        assert_eq!(fields.number(), Some(15));
        assert_eq!(fields.end(), None);
        assert_eq!(fields.name(), Name::parse(b"ABC"));
        assert_eq!(fields.exactly("***END"), Some(()));
        assert_eq!(fields.end(), Some(()));
        assert_eq!(fields.field(), None);
    }
}
