//! What is read: bytes, lines, numbers, codes, types, lists, and files that end too soon. Names are in `names`.

use super::*;

pub fn all() -> Vec<Case> {
    [
        files_and_lines(),
        lines_without_a_field(),
        numbers(),
        numbers_at_each_place(),
        codes_types_and_sizes(),
        lists(),
        files_that_end_too_soon(),
    ]
    .concat()
}

fn files_and_lines() -> Vec<Case> {
    let padded = |bytes: usize| format!("{}{}", module("A", ""), "\n".repeat(bytes - module("A", "").len()));
    let mut cases = vec![
        case("bytes of a file", [load("\n".repeat(65_536), 0, 0), load("\n".repeat(65_537), 5, 0), load("", 0, 0)]),
        case("a module in a full file", [load(padded(65_536), 0, 0), load(padded(65_537), 5, 0)]),
    ];
    for end in ["", "\n", "\r\n"] {
        cases.push(case(format!("80 bytes, end {end:?}"), [load(format!("{:80}{end}", ""), 0, 0)]));
        cases.push(case(format!("81 bytes, end {end:?}"), [bad(format!("{:81}{end}", ""), 6, 1, 81)]));
        cases.push(case(format!("80 bytes of a header, end {end:?}"), [load(format!("{:80}{end}", "6 ***LSB"), 7, 2)]));
        let header = format!("{:81}{end}", "6 ***LSB");
        cases.push(case(format!("81 bytes of a header, end {end:?}"), [bad(header, 6, 1, 81)]));
    }
    for byte in 0..=255u8 {
        let file = [b"3 ***TITLE\nA\n11 1 ***DBIB\na b c d e", &[byte][..], b"f\n1 ***END\nA\n"].concat();
        let step = match byte {
            b' ' => bad(file, 17, 4, 11), // a sixth field
            b'\n' => bad(file, 20, 5, 1), // a line of one field, which is no code
            b'!'..=b'~' => load(file, 0, 0),
            _ => bad(file, 6, 4, 10),
        };
        cases.push(case(format!("byte {byte} in a line"), [step]));
    }
    cases
}

/// Such a line is skipped but tested.
fn lines_without_a_field() -> Vec<Case> {
    let mut cases = Vec::new();
    for byte in 0..=255u8 {
        let file = [&[byte][..], b"\n", module("A", "").as_bytes()].concat();
        let step = match byte {
            b' ' | b'\n' | b'\r' => load(file, 0, 0),
            b'0' | b'1' | b'3'..=b'7' => bad(file, 17, 1, 2), // a code without its marker
            b'!'..=b'~' => bad(file, 20, 1, 1),
            _ => bad(file, 6, 1, 1), // no code either, but 6 goes before 20
        };
        cases.push(case(format!("byte {byte} alone in a line"), [step]));
    }
    for (label, blank, number, column) in [
        ("80 spaces", format!("{:80}", ""), 0, 0),
        ("81 spaces", format!("{:81}", ""), 6, 81),
        ("200 spaces", format!("{:200}", ""), 6, 81),
        ("a second CR", "\r\r".into(), 6, 1),
        ("a CR in front of a space", "\r ".into(), 6, 1),
        ("a CR behind spaces", "  \r".into(), 0, 0),
        ("two CRs behind spaces", "  \r\r".into(), 6, 3),
    ] {
        let file = format!("\n\n{blank}\n{}", module("A", ""));
        cases.push(case(format!("{label} in a line without a field"), [load_or_refused(file, number, 3, column)]));
    }
    cases.push(case("lines that are skipped are counted", [load("\n \n3 ***TITLE\n\nA\n\n1 ***END\n \nB\n", 7, 9)]));
    cases.push(case("a CR without LF", [bad("3 ***TITLE\nA\n1 ***END\nA\r", 19, 4, 1)]));
    cases
}

fn numbers() -> Vec<Case> {
    let mut cases = Vec::new();
    for (field, number) in [("177777", 0), ("200000", 18), ("000007", 0), ("0000007", 18), ("8", 18), ("7", 0)] {
        let file = module("A", &format!("0 1 0 ***CODE\n0 0 0 {field}\n"));
        cases.push(case(format!("the number {field}"), [load_or_refused(file, number, 4, 7)]));
    }
    cases
}

/// A number of each kind at `#`, in line 4 of a module: 177777 and six digits are read, 200000, seven digits and an 8 are not.
fn numbers_at_each_place() -> Vec<Case> {
    let mut cases = Vec::new();
    // The line, what stands behind it, and the answer to 177777 with its line.
    for (line, behind, number, at) in [
        ("0 # 0 ***CODE", "", 7, 5),
        ("0 0 # ***CODE", "1 ***END\nA\n", 0, 0),
        ("4 # ***ENTRY", "", 7, 5),
        ("5 # ***EXT", "", 7, 5),
        ("10 # A 0 ***DBDB", "", 7, 5),
        ("10 0 A # ***DBDB", "1 ***END\nA\n", 0, 0),
        ("11 # ***DBIB", "", 7, 5),
        ("12 # ***FPB", "", 7, 5),
        ("13 # ***AENTRY", "", 7, 5),
    ] {
        cases.extend(number_at("3 ***TITLE\nA\n\n", line, behind, number, at));
    }
    for (header, line, number, at) in [
        ("0 1 0 ***CODE", "# 0 0 0", 0, 0),
        ("0 1 0 ***CODE", "0 # 0 0", 0, 0),
        ("0 1 0 ***CODE", "0 0 # 0", 0, 0),
        ("0 1 0 ***CODE", "0 0 0 #", 0, 0),
        ("0 1 0 ***CODE", "* # 0 0 0 0 3 0", 0, 0),
        ("0 1 0 ***CODE", "* 0 0 0 # 0 3 0", 0, 0),
        ("0 1 0 ***CODE", "* 0 0 0 0 # 3 0", 21, 4),
        ("0 1 0 ***CODE", "* 0 0 0 0 0 # 0", 21, 4),
        ("0 1 0 ***CODE", "* 0 0 0 0 0 3 #", 0, 0),
        ("0 1 0 ***CODE", "* 0 0 0 0 0 5 #", 11, 1),
        ("4 1 ***ENTRY", "A # 0", 0, 0),
        ("4 1 ***ENTRY", "A # 1 0", 0, 0),
        ("4 1 ***ENTRY", "A 0 #", 21, 4),
        ("4 1 ***ENTRY", "A 0 1 #", 0, 0),
        ("13 1 ***AENTRY", "A # 1 0", 0, 0),
        ("10 1 A 0 ***DBDB", "# 0", 0, 0),
        ("10 1 A 0 ***DBDB", "0 #", 0, 0),
        ("12 1 ***FPB", "# 0 0", 0, 0),
        ("12 1 ***FPB", "0 # 0", 0, 0),
        ("12 1 ***FPB", "0 0 #", 18, 4),
    ] {
        cases.extend(number_at(&format!("3 ***TITLE\nA\n{header}\n"), line, "1 ***END\nA\n", number, at));
    }
    cases
}

fn number_at(front: &str, line: &str, behind: &str, number: u64, at: u64) -> Vec<Case> {
    let column = line.find('#').map_or(0, |place| place as u64 + 1);
    let step = |text: &str| {
        let file = format!("{front}{}\n{behind}", line.replace('#', text));
        match (text, number) {
            ("177777", 18 | 21) => bad(file, number, at, column),
            ("177777", _) => load(file, number, at),
            _ => bad(file, 18, 4, column),
        }
    };
    let tried = ["177777", "200000", "0000000", "8", "-1", "A"];
    tried.map(|text| case(format!("{text} in {line}"), [step(text)])).into()
}

fn codes_types_and_sizes() -> Vec<Case> {
    let mut cases = Vec::new();
    // Every code alone, in six digits too: well formed but in a wrong place, or at the end of a file that ends too soon.
    for (header, line) in [
        ("0 0 0 ***CODE", 1),
        ("1 ***END", 1),
        ("3 ***TITLE", 2),
        ("4 0 ***ENTRY", 1),
        ("5 0 ***EXT", 1),
        ("6 ***LSB", 2),
        ("7 ***LEB", 1),
        ("10 0 A 0 ***DBDB", 1),
        ("11 0 ***DBIB", 1),
        ("12 0 ***FPB", 1),
        ("13 0 ***AENTRY", 1),
        ("000006 ***LSB", 2),
    ] {
        cases.push(case(format!("{header} alone"), [load(format!("{header}\n"), 7, line)]));
    }
    for code in ["2", "14", "15", "16", "17", "20", "177777", "0000006", "200000", "8", "A", "*", "6***LSB"] {
        cases.push(case(format!("code {code}"), [bad(format!("{code} ***LSB\n"), 20, 1, 1)]));
    }
    for (first, kind, number, column) in
        [(0, 0, 21, 13), (0, 1, 0, 0), (0, 4, 0, 0), (0, 5, 0, 0), (0, 6, 21, 13), (1, 5, 21, 11)]
    {
        let file = module("A", &format!("5 1 ***EXT\nB\n0 1 0 ***CODE\n* 0 0 0 0 {first} {kind} 1\n"));
        cases.push(case(format!("relocation {first} {kind}"), [load_or_refused(file, number, 6, column)]));
    }
    let fpb = |size: usize| module("A", &format!("12 1 ***FPB\n1 1 {size:o}\n{}", "1 1\n".repeat(size)));
    cases.push(case("size of an FPB record", [load(fpb(7), 0, 0), bad(fpb(8), 18, 4, 5)]));
    for (title, number, column) in [("A", 0, 0), ("B", 7, 0), ("AA", 7, 0), ("a", 19, 1), ("B A", 17, 3)] {
        let file = module("A", "").replace("END\nA", &format!("END\n{title}"));
        cases.push(case(format!("END of A with title {title}"), [load_or_refused(file, number, 4, column)]));
    }
    cases
}

fn lists() -> Vec<Case> {
    let mut cases = Vec::new();
    let aentries = |names: &[String]| entries(names).replacen("4 ", "13 ", 1).replace("***ENTRY", "***AENTRY");
    for (label, first, second) in [
        ("entries", entries as fn(&[String]) -> String, entries as fn(&[String]) -> String),
        ("externals", externals, externals),
        ("entries and aentries", entries, aentries),
    ] {
        let one = |count: usize| module("A", &second(&names(0, count)));
        let two = |count: usize| module("A", &(first(&names(0, 32)) + &second(&names(32, count - 32))));
        cases.push(case(format!("64 {label}"), [load(one(64), 0, 0)]));
        cases.push(case(format!("65 {label}"), [load(one(65), 8, 68)]));
        cases.push(case(format!("64 {label} in two blocks"), [load(two(64), 0, 0)]));
        cases.push(case(format!("65 {label} in two blocks"), [load(two(65), 8, 69)]));
    }
    let bad_entry = entries(&names(0, 65)).replace("N64 0 0", "N64 0 2");
    let free = module("A", "");
    let bad_external = externals(&names(0, 65)).replace("N64", "N64 0");
    let full = free.repeat(256);
    cases.extend([
        case("a bad 65th external", [bad(module("A", &bad_external), 17, 68, 5)]),
        case("a bad 257th TITLE header", [bad(format!("6 ***LSB\n{full}3 ***TITLES\n"), 20, 256 * 4 + 2, 3)]),
        case("a library in a full one", [load(format!("6 ***LSB\n{full}6 ***LSB\n"), 7, 256 * 4 + 2)]),
        case("the end of a full library", [load(format!("6 ***LSB\n{full}"), 7, 256 * 4 + 2)]),
        case("a bad 65th entry", [bad(module("A", &bad_entry), 21, 68, 7)]),
        case("a count that no file holds", [load("3 ***TITLE\nA\n4 177777 ***ENTRY\n", 7, 4)]),
        case("256 modules in a section", [load(section(&free.repeat(256)), 0, 0)]),
        case("257 modules in a section", [load(section(&free.repeat(257)), 8, 256 * 4 + 2)]),
        case("256 modules in each of two sections", [load(section(&free.repeat(256)).repeat(2), 0, 0)]),
        case("257 free modules", [load(free.repeat(257), 0, 0)]),
    ]);
    cases
}

/// A file cut at each byte.
fn files_that_end_too_soon() -> Vec<Case> {
    let whole = sample().into_bytes();
    let cut = |end: usize| case(format!("the first {end} bytes"), [Step::from(Call::load(&whole[..end]))]);
    (0..=whole.len()).map(cut).collect()
}

/// Every kind of block once, in a module of its own and in a library.
fn sample() -> String {
    let blocks = "4 2 ***ENTRY\nA 0 0\nB 1 1 2\n13 1 ***AENTRY\nC 2 0\n5 2 ***EXT\nD\nE\n\
                  0 2 0 ***CODE\n1 2 3 4\n* 0 0 0 177777 0 5 1\n10 1 X 1 ***DBDB\n1 1\n11 1 ***DBIB\na b c d e\n\
                  12 1 ***FPB\n1 1 2\n1 1\n1 1\n";
    module("MAIN", blocks) + "\r\n   \n" + &section(&module("D", "4 1 ***ENTRY\nD 0 1 0\n"))
}
