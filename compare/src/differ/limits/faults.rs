//! Request 3/14: each fault of a line in its first field, between and in its last, beside other faults, and at the line's
//! end. The columns are counted by hand.

use super::*;

/// A line that is refused: the number, and the column.
type Told<'a> = (&'a str, u64, u64);

pub fn all() -> Vec<Case> {
    [
        headers(),
        headers_in_a_module(),
        names(),
        entries(),
        plain_code(),
        relocated_code(),
        blocks_without_effect(),
        lengths(),
        other_lines(),
    ]
    .concat()
}

/// Each line behind what makes it due.
fn told(front: &str, lines: &[Told]) -> Vec<Case> {
    let at = front.lines().count() as u64 + 1;
    let one = |&(line, number, column): &Told| {
        case(format!("{line:?} behind {front:?}"), [bad(format!("{front}{line}\n"), number, at, column)])
    };
    lines.iter().map(one).collect()
}

fn headers() -> Vec<Case> {
    told(
        "",
        &[
            ("6", 17, 2),
            ("6  ", 17, 4),
            ("  6", 17, 4),
            ("6 ***LSB 0", 17, 10),
            ("6 ***LSB  0 0 ", 17, 11),
            ("6 ***LSB 0\t", 17, 10),
            ("6 ***LSB 0 \t \t", 17, 10),
            ("2", 20, 1),
            ("  2 0 \t 0", 20, 3),
            ("X 8 8 8 8 8 8", 20, 1),
            ("3 X ***TITLE", 20, 3),
            ("6 0 ***LSB", 20, 3),
            ("6 ***LEB", 20, 3),
            ("6 ***LEB 0 \t", 20, 3),
            ("6 ***lsb", 20, 3),
            ("6  ***LSBX 0", 20, 4),
            ("6 ***LS", 20, 3),
            ("6 ***LSB\t", 20, 3),
            ("6 *\t*LSB", 20, 3),
            ("6\t***LSB", 20, 1),
            ("6\t ***LSB", 20, 1),
            ("\t6 ***LSB", 6, 1),
            ("6 \t***LSB", 6, 3),
            ("6 ***LSB \t", 6, 10),
            ("\u{7f}", 6, 1),
        ],
    )
}

fn headers_in_a_module() -> Vec<Case> {
    told(
        "3 ***TITLE\nA\n",
        &[
            ("4", 17, 2),
            ("4 1", 17, 4),
            ("4 1 ***ENTRY 1", 17, 14),
            ("0 1 0 ", 17, 7),
            ("10 1 A 0", 17, 9),
            ("10 1 A 0 ***DBDB x", 17, 18),
            ("4 ***ENTRY", 18, 3),
            ("4 8", 18, 3),
            ("4 8 ***EXT 1", 18, 3),
            ("5 200000 ***EXT", 18, 3),
            ("11 1\t ***DBIB", 18, 4),
            ("12 0000001 ***FPB", 18, 4),
            ("13 * ***AENTRY", 18, 4),
            ("0 1 ***CODE", 18, 5),
            ("0 ***CODE", 18, 3),
            ("0 8 8 ***CODE", 18, 3),
            ("0 1 8 ***EXT", 18, 5),
            ("10 1 A ***DBDB", 18, 8),
            ("10 8 1 8 ***LSB", 18, 4),
            ("10 1 A 8 ***LSB x", 18, 8),
            ("10 1 1 0 ***DBDB", 19, 6),
            ("10 1 a", 19, 6),
            ("10 1 A\t 8 ***LSB", 19, 6),
            ("10 1 0 ***DBDB", 19, 6),
            ("4 1 ***EXT", 20, 5),
            ("4 1 1 ***ENTRY", 20, 5),
            ("10 1 A 0 ***DBIB x", 20, 10),
            ("14 8 8", 20, 1),
            ("15 1 ***TASK", 20, 1),
            ("4 \t1 ***ENTRY", 6, 3),
            ("10 1 \tA 0 ***DBDB", 6, 6),
            ("10 1 A 0 \t***DBDB", 6, 10),
        ],
    )
}

/// Titles, of TITLE and of END, and externals.
fn names() -> Vec<Case> {
    let lines = [
        ("A B", 17, 3),
        ("A 0 0", 17, 3),
        ("A  B\t", 17, 4),
        ("a", 19, 1),
        ("  a", 19, 3),
        ("a b", 19, 1),
        ("ABCDEFG", 19, 1),
        ("A\t", 19, 1),
        ("A\r\r", 19, 1), // the second one belongs to the line's end
        ("1 ***END", 19, 1),
        ("\tA", 6, 1),
        ("A \t", 6, 3),
    ];
    ["3 ***TITLE\n", "3 ***TITLE\nA\n1 ***END\n", "3 ***TITLE\nA\n5 1 ***EXT\n"]
        .iter()
        .flat_map(|front| told(front, &lines))
        .collect()
}

/// The third field says how many there are: four if it is the number 1, else three.
fn entries() -> Vec<Case> {
    let lines = [
        ("A", 17, 2),
        ("A 0", 17, 4),
        ("A 0 0 0", 17, 7),
        ("SYM 0 0 4", 17, 9),
        ("SYM 0 1", 17, 8),
        ("A 0 1  ", 17, 8),
        ("A 0 000001", 17, 11),
        ("A 0 1 0 0", 17, 9),
        ("A 0 0 0\t", 17, 7),
        ("A 8 0", 18, 3),
        ("A 8", 18, 3),
        ("A 8 2 0", 18, 3),
        ("A 0 X", 18, 5),
        ("A 0 200000 0", 18, 5),
        ("A 0 0000001 0", 18, 5),
        ("A 0 1\t 0", 18, 5),
        ("A 0 1 8", 18, 7),
        ("A 0 01 X 0", 18, 8),
        ("a 0 0", 19, 1),
        ("a 8 2 0", 19, 1),
        ("0 0 0", 19, 1),
        ("A\t 8 0", 19, 1),
        ("A 0 2", 21, 5),
        ("A 0 2 0", 21, 5),
        ("A 0 177777 8", 21, 5),
        ("A  0 10", 21, 6),
        ("\tA 0 0", 6, 1),
        ("A \t0 2", 6, 3),
        ("A 0 \t1 0", 6, 5),
        ("A 0 1 \t0", 6, 7),
        ("A 0 0 \t", 6, 7),
    ];
    ["3 ***TITLE\nA\n4 1 ***ENTRY\n", "3 ***TITLE\nA\n13 1 ***AENTRY\n"]
        .iter()
        .flat_map(|front| told(front, &lines))
        .collect()
}

const CODE: &str = "3 ***TITLE\nA\n0 1 0 ***CODE\n";

fn plain_code() -> Vec<Case> {
    told(
        CODE,
        &[
            ("0 0 0", 17, 6),
            ("0 0 0 ", 17, 7),
            ("0 0 0 0 0", 17, 9),
            ("0 0 0 0 0 5 1", 17, 9),
            ("8 0 0 0", 18, 1),
            ("8 0 0", 18, 1),
            ("0 8 0 0", 18, 3),
            ("0 0 8 0 0", 18, 5),
            ("0 0 0 8", 18, 7),
            ("0 0 0 *", 18, 7),
            ("*0 0 0 0", 18, 1),
            ("** 0 0 0 0 0 5 1", 18, 1),
            ("*\t 0 0 0 0 0 5 1", 18, 1),
            ("0\t 0 0 0", 18, 1),
            ("\t0 0 0 0", 6, 1),
            ("0 0 0 \t0", 6, 7),
            ("0 0 0 0 \t", 6, 9),
            ("\t* 0 0 0 0 0 5 1", 6, 1),
        ],
    )
}

/// Records whose first field is an asterisk.
fn relocated_code() -> Vec<Case> {
    told(
        CODE,
        &[
            ("*", 17, 2),
            ("* 0 0 0 0", 17, 10),
            ("* 0 0 0 0 0 5", 17, 14),
            ("* 0 0 0 0 0 5 1 1", 17, 17),
            ("* 8 0 0 0 1 6 8", 18, 3),
            ("* 0 0 0 8 0 5 1", 18, 9),
            ("* 0 0 0 0 X 6 1", 18, 11),
            ("* 0 0 0 0 0 X 1", 18, 13),
            ("* 0 0 0 0 0 5 8", 18, 15),
            ("* 0 0 0 0 0 5\t 1", 18, 13),
            ("* 0 0 0 0 * 5 1", 18, 11),
            ("* 0 0 0 0 1 5 1", 21, 11),
            (" * 0 0 0 0 177777 X 8", 21, 12),
            ("* 0 0 0 0 0 0 1", 21, 13),
            ("* 0 0 0 0 0 6 1", 21, 13),
            ("* 0 0 0 0 0 6", 21, 13),
            ("* 0 0 0 0 0 10 8 8", 21, 13),
            ("* 0 0 0 0 \t0 5 1", 6, 11),
            ("* 0 0 0 0 0 \t5 1", 6, 13),
            ("* 0 0 0 0 0 5 \t1", 6, 15),
        ],
    )
}

/// Blocks 10, 11 and 12. Five fields of any text are not read further, so a byte in them is told as a byte.
fn blocks_without_effect() -> Vec<Case> {
    let numbers = [("0", 17, 2), ("0 0 0", 17, 5), ("8 0", 18, 1), ("8", 18, 1), ("0 8 0", 18, 3), ("0 \t0", 6, 3)];
    let fields = [
        ("a b c d", 17, 8),
        ("a b c d e f", 17, 11),
        ("a b c d e f\t", 17, 11),
        ("a b c d e \t", 6, 11),
        ("a b c d e\t", 6, 10),
        ("a b c \td e", 6, 7),
        ("a\t b c d", 6, 2),
    ];
    let parameters = [
        ("0 0", 17, 4),
        ("0 0 0 0", 17, 7),
        ("8 0 10", 18, 1),
        ("0 8 0", 18, 3),
        ("0 0 8", 18, 5),
        ("0 0 10", 18, 5),
        ("0 0 10 0", 18, 5),
        ("0 0 177777", 18, 5),
        ("0 0 \t0", 6, 5),
    ];
    [
        told("3 ***TITLE\nA\n10 1 A 0 ***DBDB\n", &numbers),
        told("3 ***TITLE\nA\n12 1 ***FPB\n0 0 2\n0 0\n", &numbers),
        told("3 ***TITLE\nA\n11 1 ***DBIB\n", &fields),
        told("3 ***TITLE\nA\n12 1 ***FPB\n", &parameters),
    ]
    .concat()
}

const ENTRY: &str = "3 ***TITLE\nA\n4 1 ***ENTRY\n";

/// What makes a line due; the line's front, the bytes that spaces fill it up to and what stands behind these; the number and
/// the column.
const LENGTHS: &[(&str, &str, usize, &str, u64, u64)] = &[
    // a field that is missing, and the spaces behind the last
    (CODE, "0 0 0", 79, "", 17, 80),
    (CODE, "0 0 0", 80, "", 17, 81),
    (CODE, "0 0 0", 81, "", 6, 81),
    (CODE, "0 0 0", 82, "", 6, 81),
    (ENTRY, "A 0 1", 80, "", 17, 81),
    ("", "6", 80, "", 17, 81),
    ("", "6", 81, "", 6, 81),
    // a wrong field that begins in front of the 81st byte, there and behind it
    (CODE, "0 0 0", 79, "8", 18, 80),
    (CODE, "0 0 0", 79, "8 0", 18, 80),
    (CODE, "0 0 0", 80, "8", 6, 81),
    (CODE, "0 0 0", 81, "8", 6, 81),
    (CODE, "8 0 0", 200, "8", 18, 1),
    (CODE, "0 0 0 0", 79, "0", 17, 80),
    (CODE, "0 0 0 0", 80, "0", 6, 81),
    (CODE, "0 0 0 0", 81, "0", 6, 81),
    ("", "6", 79, "***LEB", 20, 80),
    ("", "6", 80, "***LEB", 6, 81),
    ("3 ***TITLE\n", "", 79, "a", 19, 80),
    ("3 ***TITLE\n", "", 80, "a", 6, 81),
    (CODE, "* 0 0 0 0 0", 79, "6 1", 21, 80),
    (CODE, "* 0 0 0 0 0", 80, "6 1", 6, 81),
    (ENTRY, "A 0", 79, "2", 21, 80),
    (ENTRY, "A 0", 80, "2", 6, 81),
    // a field on both sides of it is read whole
    (CODE, "0 0 0", 77, "1234567", 18, 78),
    (CODE, "0 0 0", 77, "123456", 6, 81),
    ("3 ***TITLE\n", "", 77, "ABCDEFG", 19, 78),
    ("3 ***TITLE\n", "", 77, "ABCDEF", 6, 81),
    ("", "6", 77, "***LSB", 6, 81),
    ("", "6", 77, "***LSBX", 20, 78),
    // an illegal byte
    (CODE, "0 0 0 0", 79, "\t", 6, 80),
    (CODE, "0 0 0 0", 79, "\t0", 6, 80),
    (CODE, "0 0 0 0", 80, "\t", 6, 81),
    (CODE, "0 0 0 0", 81, "\t", 6, 81),
    (CODE, "0 0 0", 79, "0\t", 18, 80),
];

/// Faults at the end of a line, which LF ends or CR LF.
fn lengths() -> Vec<Case> {
    let mut cases = Vec::new();
    for &(due, front, bytes, behind, number, column) in LENGTHS {
        let line = format!("{front:bytes$}{behind}");
        cases.extend(told(due, &[(&line, number, column), (&format!("{line}\r"), number, column)]));
    }
    cases
}

/// The earliest line is told, wherever its fault stands; and a fault of a line goes before its place and its lists.
fn other_lines() -> Vec<Case> {
    vec![
        case("a field that ends at the 80th byte", [load(format!("{:74}***LSB\n7 ***LEB\n", "6"), 0, 0)]),
        case("a fault in the second line", [bad("6 ***LSB\n7 ***LEB 0\n2\n", 17, 2, 10)]),
        case("a block in a wrong place, then a bad line", [load("7 ***LEB\n2\n", 7, 1)]),
        case("a bad block in a wrong place", [bad("7 ***LEB 0\n", 17, 1, 10)]),
        case("a bad title of END, which differs", [bad(module("A", "").replace("END\nA", "END\nB B"), 17, 4, 3)]),
        case("a CR at the end of the file", [bad("6 ***LSB\n7 ***LEB\r", 20, 2, 3)]),
        case("a CR alone at the end of the file", [bad("6 ***LSB\n7 ***LEB\n\r", 6, 3, 1)]),
    ]
}
