//! Names: their length and, by request 4/14, their characters, wherever one stands.

use super::super::names::cell_of;
use super::*;
use crate::memory::{COUNT, NAMES};

const LEGAL: [&str; 10] = ["A", "Z", "A9", "ABCDEF", "ABC.EF", "A$B", "IO.1", "Z.", "A.....", "A$$$$$"];
/// Too long, with a first character that is no letter, or with another one that no name has: among these the bytes beside
/// `$` and `.`.
const ILLEGAL: [&str; 16] =
    ["ABCDEFG", "A$B.C1D", "1BCDEF", "@", "[", "$", ".", "$A", ".A", "ABCDEf", "A:", "A_B", "A#B", "A%B", "A-B", "A/B"];

pub fn all() -> Vec<Case> {
    [in_files(), forced(), in_state_memory(), each_byte()].concat()
}

/// Each name, and the number that it is refused by if it is not legal.
fn spelled(refused: u64) -> impl Iterator<Item = (&'static str, u64)> {
    LEGAL.into_iter().map(|name| (name, 0)).chain(ILLEGAL.into_iter().map(move |name| (name, refused)))
}

fn in_files() -> Vec<Case> {
    let mut cases = Vec::new();
    // The file with a name at `@`, its line and column, and the answer to a legal one: the second is another title than TITLE's.
    for (file, line, column, read) in [
        ("3 ***TITLE\n@\n1 ***END\n@\n", 2, 1, 0),
        ("3 ***TITLE\nOTHER\n1 ***END\n@\n", 4, 1, 7),
        ("3 ***TITLE\nT\n4 1 ***ENTRY\n@ 0 0\n1 ***END\nT\n", 4, 1, 0),
        ("3 ***TITLE\nT\n13 1 ***AENTRY\n@ 0 1 0\n1 ***END\nT\n", 4, 1, 0),
        ("3 ***TITLE\nT\n5 1 ***EXT\n  @\n1 ***END\nT\n", 4, 3, 0),
        ("3 ***TITLE\nT\n10 0 @ 0 ***DBDB\n1 ***END\nT\n", 3, 6, 0),
    ] {
        for (name, number) in spelled(19) {
            let label = format!("the name {name:?} in {:?}", file.lines().nth(line as usize - 1).unwrap_or_default());
            let named = file.replace('@', name);
            let step = match (number, read) {
                (0, 0) => load(named, 0, 0),
                (0, _) => load(named, read, line),
                _ => bad(named, number, line, column),
            };
            cases.push(case(label, [step]));
        }
    }
    cases
}

fn forced() -> Vec<Case> {
    let mut cases = vec![case("a name forced twice", [force("A$B", 0), force("A$B", 0), symbols(1)])];
    for (name, number) in spelled(15).chain([("", 15), ("A\0", 15)]) {
        let listed = if number == 0 { symbol(0, name, None) } else { symbols(0) };
        cases.push(case(format!("forced name {name:?}"), [force(name, number), listed]));
    }
    cases
}

/// A state of one symbol, with this in the cell of its name.
fn state_of(name: u64) -> Vec<u64> {
    let mut state = fresh();
    state[COUNT] = 1;
    state[NAMES.start] = name;
    state
}

fn in_state_memory() -> Vec<Case> {
    let mut cases = Vec::new();
    for (name, number) in spelled(2) {
        let listed = if number == 0 { symbol(0, name, None) } else { call(Call::Symbols(Index::At(0)), number, 0) };
        let steps = [
            call(Call::Memory, number, 0),
            listed,
            force("OTHER", number),
            load(module("T", &externals(&names(0, 1))), number, 0),
        ];
        let state = state_of(cell_of(name.as_bytes()));
        cases.push(Case { state, ..case(format!("the name {name:?} in state memory"), steps) });
    }
    cases
}

/// Each byte at each place of a name of six characters: forced, in state memory, and those that a line may have in a file.
fn each_byte() -> Vec<Case> {
    let mut cases = Vec::new();
    for place in 0..6 {
        let with = |byte: u8| {
            let mut name = *b"ABCDEF";
            name[place] = byte;
            name
        };
        let number = |byte: u8, refused| match byte {
            b'A'..=b'Z' => 0,
            b'0'..=b'9' | b'$' | b'.' if place > 0 => 0,
            _ => refused,
        };
        let forced = (0..=255).map(|byte| call(Call::Force(with(byte).to_vec()), number(byte, 15), 0));
        cases.push(case(format!("each byte at place {place} of a forced name"), forced.collect::<Vec<_>>()));

        let poked = (0..=255).flat_map(|byte| {
            let cell = cell_of(&with(byte));
            // A zero behind five characters makes a name of five.
            let number = if byte == 0 && place == 5 { 0 } else { number(byte, 2) };
            [Step::from(Call::Poke(vec![(NAMES.start, cell)])), call(Call::Memory, number, 0)]
        });
        let steps: Vec<Step> = poked.collect();
        let label = format!("each byte at place {place} of a name in state memory");
        cases.push(Case { state: state_of(cell_of(b"A")), ..case(label, steps) });

        let loaded = (b'!'..=b'~').flat_map(|byte| {
            let file = [b"3 ***TITLE\nT\n5 1 ***EXT\n", &with(byte)[..], b"\n1 ***END\nT\n"].concat();
            [load_or_refused(file, number(byte, 19), 4, 1), call(Call::Reset, 0, 0)]
        });
        cases.push(case(format!("each byte at place {place} of an external"), loaded.collect::<Vec<_>>()));
    }
    cases
}
