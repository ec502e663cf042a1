//! Document 01's runs P1 to P10, with the numbers that request 3/14 gives P6 and P10, and the paper's slips that lie close at hand. What the states and images come to is held to the
//! paper by tests/document.rs, for the Rust linker that they are compared with here.

use super::*;

const MAIN: &str = "\
3 ***TITLE
MAIN
4 1 ***ENTRY
MAIN 0 1 0
5 1 ***EXT
SQ
0 2 0 ***CODE
1 2 3 4
* 0 0 0 177777 0 5 1
1 ***END
MAIN
";

const LIBRARY: &str = "\
6 ***LSB
3 ***TITLE
LOW
4 1 ***ENTRY
LOW 0 1 0
0 1 0 ***CODE
7 7 7 7
1 ***END
LOW
3 ***TITLE
SQ
4 1 ***ENTRY
SQ 1 1 0
5 1 ***EXT
LOW
0 2 0 ***CODE
0 0 0 10
* 0 0 0 2 0 5 1
1 ***END
SQ
3 ***TITLE
CUBE
4 1 ***ENTRY
CUBE 5 0
1 ***END
CUBE
7 ***LEB
";

pub fn all() -> Vec<Case> {
    let p1 = || searched(format!("{MAIN}{LIBRARY}"), 3);
    let symbols = || (0..4).map(|index| call(Call::Symbols(Index::At(index)), 0, 0));
    let end = |bytes, number| call(Call::End(Room::Bytes(bytes)), number, 0);
    let quarter = |quarter: &str| module("A", &format!("0 1 0 ***CODE\n0 0 0 {quarter}\n"));
    let low = module("LOW", "4 1 ***ENTRY\nLOW 0 1 0\n0 1 0 ***CODE\n7 7 7 7\n");
    let fpb = module("A", "12 1 ***FPB\n1 1 3\n1 1\n1 1\n");
    let cases = [
        ("P1", vec![p1()]),
        ("P1 in two loads", vec![searched(MAIN, 0), searched(LIBRARY, 3)]),
        ("P2", [vec![p1()], symbols().collect()].concat()),
        ("P3", vec![p1(), end(59, 16), end(60, 0)]),
        ("P4", vec![searched(MAIN, 0), call(Call::Undefined(Index::At(0)), 0, 0), end(27, 0)]),
        ("P5", vec![p1(), searched("", 0)]),
        ("P6 177777", vec![load(quarter("177777"), 0, 0)]),
        ("P6 200000", vec![bad(quarter("200000"), 18, 4, 7)]),
        ("P6 8", vec![bad(quarter("8"), 18, 4, 7)]),
        ("P7", vec![base(4095, 0), load(module("A", &code(0, 1)), 0, 0), load(module("B", ""), 0, 0)]),
        ("P7 two words", vec![base(4095, 0), load(module("A", &code(0, 2)), 9, 1)]),
        ("P8", vec![p1(), base(0, 0), load(MAIN.replace("MAIN", "OTHER"), 10, 1), load("", 3, 0), load(MAIN, 3, 0)]),
        ("P9", vec![load(section(&low.repeat(2)), 13, 1)]),
        ("P9 once", vec![searched(section(&low), 1)]),
        ("P10", vec![bad(fpb, 18, 7, 3)]),
        ("slip: a count of 10", vec![load(module("A", &code(0, 8)), 0, 0), memory(7)]),
        ("slip: absolute entries", vec![base(64, 0), load(module("A", "4 2 ***ENTRY\nA 5 0\nB 5 1 0\n"), 0, 0)]),
        ("slip: half-walked", vec![load(module("A", &entries(&names(0, 1))).repeat(2), 13, 7)]),
    ];
    cases.into_iter().map(|(label, steps)| Case { label: format!("paper: {label}"), ..case("", steps) }).collect()
}
