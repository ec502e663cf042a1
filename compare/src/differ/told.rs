//! What must hold of the line and the column that a LOAD tells, by the file alone and whatever the Rust linker says.

use crate::calls::LoadAnswer;
use crate::text::{is_legal_byte, lines};

/// A line of more bytes is a fault itself, at the column behind these.
const MOST_BYTES: usize = 80;

/// Whether a number of LOAD tells a fault of a line, with its column.
pub fn has_column(number: u64) -> bool {
    matches!(number, 6 | 17..=21)
}

/// Says what is wrong with the line or the column of an answer.
pub fn check(file: &[u8], answer: LoadAnswer) -> Result<(), String> {
    let LoadAnswer { number, line, column, .. } = answer;
    let count = lines(file).count() as u64;
    let last_line = match number {
        // a file that ends too soon is told one line behind its last
        7 => count + 1,
        6..=14 | 17..=21 => count,
        _ => 0,
    };
    if line > last_line || (line == 0) != (last_line == 0) {
        return Err(format!("{number} cannot be told at line {line} of {count}"));
    }
    if !has_column(number) {
        return if column == 0 { Ok(()) } else { Err(format!("{number} names no column, and not {column}")) };
    }
    let text = lines(file).nth(line as usize - 1).unwrap_or_default();
    if !fits(text, number, column) {
        let text = String::from_utf8_lossy(text).into_owned();
        return Err(format!("{number} cannot be told at column {column} of {text:?}"));
    }
    Ok(())
}

/// Whether such a fault can be the leftmost one of a line. What is left of it must be legal, and so must be the byte itself
/// where it is not the fault, for 6 goes before all others.
fn fits(line: &[u8], number: u64, column: u64) -> bool {
    let Some(place) = (column as usize).checked_sub(1).filter(|&place| place <= line.len().min(MOST_BYTES)) else {
        return false;
    };
    let too_long = place == MOST_BYTES && line.len() > MOST_BYTES;
    let illegal = line.get(place).is_some_and(|&byte| !is_legal_byte(byte));
    let begins_field = line.get(place).is_some_and(|&byte| byte != b' ') && (place == 0 || line[place - 1] == b' ');
    let has_field = line.iter().any(|&byte| byte != b' ');
    let right = match number {
        6 => illegal || too_long,
        17 => (begins_field || place == line.len() && has_field) && !illegal && !too_long,
        _ => begins_field && !illegal && !too_long,
    };
    right && line[..place].iter().all(|&byte| is_legal_byte(byte))
}

#[cfg(test)]
mod tests {
    use super::*;

    fn holds(file: &str, number: u64, line: u64, column: u64) -> bool {
        check(file.as_bytes(), LoadAnswer { number, line, column, rounds: 0 }).is_ok()
    }

    #[test]
    fn lines_that_can_be_told() {
        for (number, line, right) in
            [(0, 0, true), (0, 1, false), (5, 1, false), (7, 0, false), (7, 3, true), (7, 4, false), (9, 3, false)]
        {
            assert_eq!(holds("1 ***END\nA\n", number, line, 0), right, "{number} at line {line}");
        }
        assert!(!holds("1 ***END\nA\n", 7, 1, 1), "7 has no column");
        assert!(!holds("1 ***END\nA\n", 20, 1, 0) && !holds("1 ***END\nA\n", 20, 3, 1));
    }

    #[test]
    fn columns_that_can_be_told() {
        let file = "1  8\t \u{1} x \n\n";
        for (number, column, right) in [
            (6, 5, true),
            (6, 4, false),
            (6, 7, false), // not the leftmost
            (18, 1, true),
            (18, 4, true),
            (18, 0, false),
            (18, 2, false), // no field
            (18, 3, false),
            (17, 4, true),
            (17, 9, false), // behind an illegal byte
            (17, 11, false),
        ] {
            assert_eq!(holds(file, number, 1, column), right, "{number} at column {column}");
        }
        assert!(holds("1 2 ", 17, 1, 5) && !holds("1 2 ", 17, 1, 4) && !holds("1 2 ", 18, 1, 5));
        assert!(!holds("\t", 18, 1, 1) && holds("\t", 6, 1, 1));
        assert!(!holds("  \n", 17, 1, 3), "a line without a field has none too few");
    }

    #[test]
    fn columns_at_the_end_of_a_line() {
        let long = format!("{:80}8", "1");
        assert!(holds(&long, 6, 1, 81) && !holds(&long, 18, 1, 81) && !holds(&long, 17, 1, 82));
        let full = format!("{:80}", "1");
        assert!(holds(&full, 17, 1, 81) && !holds(&full, 6, 1, 81) && !holds(&full, 6, 1, 80));
    }
}
