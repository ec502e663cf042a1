//! Request 3/14: the faults of a line, 6 and 17 to 21, each with its column. The columns are worked out by hand from the
//! paper.

mod common;
use common::*;

use compare::answer::Reason;
use compare::calls::{Calls, LoadAnswer};
use compare::lent::Lent;
use compare::memory::{self, BROKEN, MARK, WORK_CELLS};

/// The file, then the line and the column.
type Told<'a> = (&'a str, u64, u64);

/// Every file is refused by the number, there and with no rounds; the state is as it was but for the mark.
fn all_told(number: u64, files: &[Told]) {
    for &(file, line, column) in files {
        let (mut state, mut work) = (memory::fresh(), vec![7; WORK_CELLS]);
        let answer = Lent.load(&mut state, &mut work, file.as_bytes());
        assert_eq!(answer, LoadAnswer { number, line, column, rounds: 0 }, "{file:?}");
        assert_eq!(state[MARK], BROKEN, "{file:?}");
        state[MARK] = 0;
        assert_eq!(state, memory::fresh());
    }
}

/// A record as the first of a block, in line 4.
fn record_told(number: u64, header: &str, records: &[(&str, u64)]) {
    for &(record, column) in records {
        all_told(number, &[(&module("A", &format!("{header}\n{record}\n")), 4, column)]);
    }
}

#[test]
fn number_6_length_and_bytes() {
    all_told(
        6,
        &[
            (&" ".repeat(81), 1, 81),
            (&" ".repeat(500), 1, 81),
            (&format!("{:81}\r\n", "6 ***LSB"), 1, 81),
            (&format!("{:80}\n\t", ""), 2, 1),
            ("6 ***LSB\n7 ***LEB \r", 2, 10),
            ("6 ***LSB \r\r\n7 ***LEB", 1, 10),
            ("\u{7f}6 ***LSB", 1, 1),
            ("6 \t***LSB", 1, 3),
            ("6 ***LSB \t", 1, 10),
        ],
    );
    record_told(6, "11 1 ***DBIB", &[("a b c d e\t", 10), ("a\t b c d e", 2), ("a b c d e \t", 11)]);
    record_told(6, "0 1 0 ***CODE", &[("\t1 2 3 4", 1), ("1 2 3 \t4", 7)]);
}

#[test]
fn number_17_field_count() {
    all_told(
        17,
        &[
            ("6", 1, 2),
            ("6  \n", 1, 4),
            ("6 \r\n", 1, 3),
            ("6 ***LSB 0", 1, 10),
            ("6 ***LSB   0 0", 1, 12),
            ("3 ***TITLE\nA B", 2, 3),
            ("1 ***END 0", 1, 10),
            (&module("A", "4 1\n"), 3, 4),
            (&module("A", "10 1 A 0\n"), 3, 9),
            (&module("A", "12 1 ***FPB\n1 1 1\n1\n"), 5, 2),
        ],
    );
    let entries = [("A", 2), ("A 0", 4), ("SYM 0 0 4", 9), ("SYM 0 1", 8), ("SYM 0 1 ", 9), ("A 0 1 0 0", 9)];
    record_told(17, "4 1 ***ENTRY", &entries);
    record_told(17, "13 1 ***AENTRY", &entries);
    record_told(17, "5 1 ***EXT", &[("A 0", 3)]);
    record_told(
        17,
        "0 1 0 ***CODE",
        &[("1 2 3", 6), ("1 2 3 4 5", 9), ("1 2 3 4 0 1 1", 9), ("* 1 2 3 4", 10), ("* 1 2 3 4 0 1 1 0 1 1", 17)],
    );
    record_told(17, "10 1 A 0 ***DBDB", &[("1", 2), ("1 1 1", 5)]);
    record_told(17, "11 1 ***DBIB", &[("a b c d", 8), ("a b c d e f", 11)]);
    record_told(17, "12 1 ***FPB", &[("1 1", 4), ("1 1 1 1", 7)]);
}

#[test]
fn number_18_numbers() {
    all_told(
        18,
        &[
            (&module("A", "4 ***ENTRY\n"), 3, 3),
            (&module("A", "4 8 ***ENTRY\n"), 3, 3),
            (&module("A", "0 1 ***CODE\n"), 3, 5),
            (&module("A", "10 1 A ***DBDB\n"), 3, 8),
            (&module("A", "10 1 A 200000 ***DBDB\n"), 3, 8),
            (&module("A", "12 1 ***FPB\n1 1 1\n1 8\n"), 5, 3),
        ],
    );
    record_told(18, "4 1 ***ENTRY", &[("A 8 0", 3), ("A 0 X", 5), ("A 0 1 8", 7), ("A 0 0000000", 5)]);
    record_told(
        18,
        "0 1 0 ***CODE",
        &[("*1 2 3 4 0 1 1", 1), ("** 1 2 3 4 0 1 1", 1), ("1 2 3 *", 7), ("1 2\t 3 4", 3), ("8 2 3", 1)],
    );
    record_told(18, "0 1 0 ***CODE", &[("* 1 2 3 4 X 1 1", 11), ("* 1 2 3 4 0 X 1", 13), ("* 1 2 3 4 0 1 8", 15)]);
    record_told(18, "12 1 ***FPB", &[("1 1 10", 5), ("1 1 X", 5), ("1 8 10", 3), ("1 1 177777", 5)]);
}

#[test]
fn number_19_names() {
    all_told(
        19,
        &[
            ("3 ***TITLE\nABCDEFG", 2, 1),
            ("3 ***TITLE\n  1A", 2, 3),
            ("3 ***TITLE\na b", 2, 1),
            (&module("A", "").replace("END\nA", "END\na"), 4, 1),
            ("3 ***TITLE\nA\n1 ***END\nA\r", 4, 1),
            (&module("A", "10 1 1A 0 ***DBDB\n"), 3, 6),
            (&module("A", "10 1 A\t 0 ***DBDB\n"), 3, 6),
        ],
    );
    record_told(19, "4 1 ***ENTRY", &[("1 0 0", 1), ("A-B 8 2", 1), (".B 8 2", 1)]);
    record_told(19, "5 1 ***EXT", &[("A\t", 1), (" *", 2)]);
}

#[test]
fn number_20_markers_and_codes() {
    all_told(
        20,
        &[
            ("2 ***END", 1, 1),
            ("14 ***END", 1, 1),
            ("15 0 ***TASK", 1, 1),
            ("16 \t 8 8 8 8", 1, 1),
            ("0000006 ***LSB", 1, 1),
            ("8 ***LSB", 1, 1),
            ("* ***LSB", 1, 1),
            ("  X", 1, 3),
            ("6***LSB", 1, 1),
            ("6\t***LSB", 1, 1),
            ("6 ***lsb", 1, 3),
            ("6 ***LSB\x7f", 1, 3),
            ("6 ***LSB\r\r\n", 1, 3),
            ("6 ***LSB\r\n7 ***LEB\r", 2, 3),
            ("6 0 ***LSB", 1, 3),
            ("3 X ***TITLE", 1, 3),
            ("1 0 ***END", 1, 3),
            (&module("A", "4 1 ***EXT\n"), 3, 5),
            (&module("A", "10 1 A 0 ***DBIB 0\n"), 3, 10),
        ],
    );
}

#[test]
fn number_21_types() {
    record_told(21, "4 1 ***ENTRY", &[("A 0 2", 5), ("A 0 2 0", 5), ("ABC 0 177777", 7)]);
    record_told(21, "13 1 ***AENTRY", &[("A 0 2", 5)]);
    record_told(
        21,
        "0 1 0 ***CODE",
        &[("* 1 2 3 4 1 5 1", 11), ("* 1 2 3 4 0 0 1", 13), ("* 1 2 3 4 0 6 1", 13), ("* 1 2 3 4 177777 X 8", 11)],
    );
}

#[test]
fn the_leftmost_fault_is_told() {
    // The same line with more and more of it wrong from the right.
    record_told(17, "4 1 ***ENTRY", &[("A 0 0 0", 7)]);
    record_told(21, "4 1 ***ENTRY", &[("A 0 2 0", 5)]);
    record_told(18, "4 1 ***ENTRY", &[("A 8 2 0", 3)]);
    record_told(19, "4 1 ***ENTRY", &[("a 8 2 0", 1)]);
    record_told(6, "4 1 ***ENTRY", &[("\u{1} 8 2 0", 1)]);
    all_told(20, &[("6 ***LEB \t", 1, 3)]);
    all_told(17, &[("6 ***LSB 0 \t", 1, 10)]);
}

#[test]
fn bytes_go_first_at_one_column() {
    all_told(6, &[("\t ***LSB", 1, 1), ("6 \t", 1, 3), ("6 ***LSB \t", 1, 10), ("3 ***TITLE\n\tA", 2, 1)]);
    record_told(6, "4 1 ***ENTRY", &[("A \t0 0", 3), ("A 0 \t2", 5)]);
}

#[test]
fn columns_at_the_end_of_a_line() {
    let line =
        |front: &str, bytes: usize, behind: &str| module("A", &format!("0 1 0 ***CODE\n{front:bytes$}{behind}\n"));
    all_told(
        17,
        &[(&line("1 2 3", 79, ""), 4, 80), (&line("1 2 3", 80, ""), 4, 81), (&line("1 2 3", 80, "\r"), 4, 81)],
    );
    all_told(18, &[(&line("1 2 3", 79, "8"), 4, 80), (&line("1 2 3", 75, "1234567"), 4, 76)]);
    all_told(18, &[(&line("8 2 3 4", 100, ""), 4, 1)]);
    // with a field that is missing, wrong and too many there and behind it, and with one that is right on both sides of it
    for (front, bytes, behind) in
        [("1 2 3", 81, ""), ("1 2 3", 80, "8"), ("1 2 3", 81, "8"), ("1 2 3 4", 80, "5"), ("1 2 3", 78, "444")]
    {
        all_told(6, &[(&line(front, bytes, behind), 4, 81)]);
    }
    all_told(6, &[(&line("1 2 3 4", 79, "\t"), 4, 80), (&line("1 2 3 4", 81, "\t"), 4, 81)]);
}

#[test]
fn places_and_lists_come_after_with_no_column() {
    let (mut state, mut work) = (memory::fresh(), vec![0; WORK_CELLS]);
    let mut answer = |file: &str| {
        state.fill(0);
        Lent.load(&mut state, &mut work, file.as_bytes())
    };
    let told = |number, line| LoadAnswer { number, line, ..LoadAnswer::default() };
    assert_eq!(answer("7 ***LEB\n2\n"), told(7, 1));
    assert_eq!(answer("7 ***LEB 0\n"), LoadAnswer { column: 10, ..told(17, 1) });
    assert_eq!(answer("3 ***TITLE\nA\n1 ***END\nB\n"), told(7, 4));
    assert_eq!(answer("3 ***TITLE\nA\n1 ***END\nB B\n"), LoadAnswer { column: 3, ..told(17, 4) });
    assert_eq!(answer("6 ***LSB\n"), told(7, 2));
    let names: Vec<String> = (0..65).map(|i| format!("N{i}")).collect();
    let names: Vec<&str> = names.iter().map(String::as_str).collect();
    assert_eq!(answer(&module("A", &entries(&names))), told(8, 68));
    assert_eq!(
        answer(&module("A", &entries(&names).replace("N64 0 0", "N64 0 2"))),
        LoadAnswer { column: 7, ..told(21, 68) }
    );
}

#[test]
fn the_linker_on_its_own_structures_tells_the_same() {
    assert_eq!(load("6 ***LSB 0"), bad(Reason::Fields, 1, 10));
    assert_eq!(load("6 ***LEB"), bad(Reason::Marker, 1, 3));
    assert_eq!(load("3 ***TITLE\na"), bad(Reason::Symbol, 2, 1));
    assert_eq!(load(&module("A", "4 1 ***ENTRY\nA 0 2\n")), bad(Reason::Type, 4, 5));
    assert_eq!(load(&module("A", "4 1 ***ENTRY\nA 8 0\n")), bad(Reason::Number, 4, 3));
    assert_eq!(load(&" ".repeat(81)), bad(Reason::Line, 1, 81));
}
