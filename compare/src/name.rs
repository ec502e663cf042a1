//! Names of symbols and modules.

use std::fmt;

const LONGEST: usize = 6;

/// A legal name: a letter, and up to five characters that may follow it.
///
/// It is kept as state memory has it, six bytes in base 256, the first character highest and zero where the name is
/// shorter, so that a name is hashed and compared as one number.
#[derive(Clone, Copy, PartialEq, Eq, PartialOrd, Ord, Hash)]
pub struct Name(u64);

impl Name {
    pub fn parse(text: &[u8]) -> Option<Name> {
        if text.len() > LONGEST || !text.first()?.is_ascii_uppercase() {
            return None;
        }
        if !text.iter().all(|&b| may_follow(b)) {
            return None;
        }
        let mut bytes = [0; 8];
        bytes[2..2 + text.len()].copy_from_slice(text);
        Some(Name(u64::from_be_bytes(bytes)))
    }

    /// The name that a cell holds, if it holds one.
    pub fn from_packed(cell: u64) -> Option<Name> {
        let bytes = cell.to_be_bytes();
        let text = &bytes[2..];
        let length = text.iter().position(|&b| b == 0).unwrap_or(LONGEST);
        // The name that was packed is the only one with this cell, which shows stray bytes around it.
        Name::parse(&text[..length]).filter(|name| name.0 == cell)
    }

    pub fn packed(self) -> u64 {
        self.0
    }
}

/// Whether a character may follow the first letter of a name: A to Z, 0 to 9, and since request 4/14 `$` and `.`.
fn may_follow(byte: u8) -> bool {
    matches!(byte, b'A'..=b'Z' | b'0'..=b'9' | b'$' | b'.')
}

impl fmt::Display for Name {
    fn fmt(&self, f: &mut fmt::Formatter<'_>) -> fmt::Result {
        self.0.to_be_bytes().iter().filter(|&&b| b != 0).try_for_each(|&b| write!(f, "{}", char::from(b)))
    }
}

impl fmt::Debug for Name {
    fn fmt(&self, f: &mut fmt::Formatter<'_>) -> fmt::Result {
        write!(f, "Name({self})")
    }
}

#[cfg(test)]
mod tests {
    use super::*;
    use crate::differ::names::cell_of;

    const LEGAL: [&str; 9] = ["A", "Z9", "ABCDEF", "A00000", "A$B", "IO.1", "A.....", "A$$$$$", "Z."];
    /// None is too long for a cell. `#`, `%`, `-` and `/` are the bytes beside `$` and `.`.
    const ILLEGAL: [&str; 17] = [
        "1A", "$A", ".A", "$", ".", "a", "aA", "Aa", "A$.z", "ABCDEf", "A-B", "A_B", "A#B", "A%B", "A/B", "A B", "A\0B",
    ];

    #[test]
    fn legal_and_illegal() {
        for text in LEGAL {
            let name = Name::parse(text.as_bytes()).expect(text);
            assert_eq!(name.to_string(), text);
        }
        for text in ILLEGAL.into_iter().chain(["", "A\0", "\0A", "ABCDEFG", "A$B.C1D", "A......"]) {
            assert_eq!(Name::parse(text.as_bytes()), None, "{text:?}");
        }
    }

    #[test]
    fn packed_cells() {
        assert_eq!(Name::parse(b"A").unwrap().packed(), 0x41_00_00_00_00_00);
        assert_eq!(Name::parse(b"ABCDEF").unwrap().packed(), 0x41_42_43_44_45_46);
        assert_eq!(Name::parse(b"A$B.").unwrap().packed(), 0x41_24_42_2E_00_00);
        for text in LEGAL {
            assert_eq!(Name::from_packed(cell_of(text.as_bytes())), Name::parse(text.as_bytes()), "{text:?}");
        }
        for text in ILLEGAL {
            assert_eq!(Name::from_packed(cell_of(text.as_bytes())), None, "{text:?}");
        }
        for cell in [0, 0x41, 0x01_41_00_00_00_00_00, cell_of(b"A$B.C1D"), u64::MAX] {
            assert_eq!(Name::from_packed(cell), None, "{cell:x}");
        }
    }
}
