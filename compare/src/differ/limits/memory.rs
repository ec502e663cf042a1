//! What is lent: lengths, indices, marks and soundness.

use super::super::case::Origin;
use super::*;
use crate::memory::*;

pub fn all() -> Vec<Case> {
    [lengths_and_indices(), marks(), soundness(), soundness_of_a_full_table()].concat()
}

fn lengths_and_indices() -> Vec<Case> {
    let mut cases = Vec::new();
    for state_cells in [0, 1, STATE_CELLS - 1, STATE_CELLS + 1, 2 * STATE_CELLS] {
        let calls = [
            Call::load(module("A", "")),
            Call::Force(b"A".to_vec()),
            Call::Base(0),
            Call::Reset,
            Call::Memory,
            Call::Symbols(Index::At(0)),
            Call::Undefined(Index::At(0)),
            Call::End(Room::Bytes(100)),
        ];
        let steps = calls.map(|each| Step { state_cells, ..call(each, 1, 0) });
        cases.push(case(format!("{state_cells} cells of state"), steps));
    }
    for work_cells in [0, 1, WORK_CELLS - 1, WORK_CELLS + 1] {
        let file = module("A", "").into_bytes();
        cases.push(case(
            format!("{work_cells} cells of work"),
            [call(Call::Load { file, work_cells, origin: Origin::Given }, 1, 0)],
        ));
    }

    let ten = load(module("A", &(code(0, 10) + &externals(&names(0, 3)))), 0, 0);
    let end = |bytes, number| call(Call::End(Room::Bytes(bytes)), number, 0);
    let ends = [end(0, 16), end(5, 16), end(114, 16), end(115, 0), end(116, 0), end(1000, 0), end(114, 16)];
    cases.push(case("room for the image", [vec![ten.clone()], ends.into()].concat()));
    cases.push(case("an empty image", [end(4, 16), end(5, 0)]));
    let words = load(module("A", &code(0, 4096)), 0, 0);
    cases.push(case("the longest image", [words, end(45_060, 16), end(45_061, 0), end(45_062, 0)]));
    cases.push(case("RESET", [load(module("A", &entries(&names(0, 1))), 0, 0), call(Call::Reset, 0, 0)]));
    let indices = [0, 2, 3, 255, 256, 1 << 32, u64::MAX].map(Index::At);
    let listings = indices.into_iter().flat_map(|index| [Call::Symbols(index), Call::Undefined(index)]);
    cases.push(case("indices", [vec![ten], listings.map(|each| call(each, 0, 0)).collect()].concat()));
    cases
}

/// Every call on a state that is broken, frozen or damaged, and again behind a RESET.
fn marks() -> Vec<Case> {
    // LOAD is refused by the mark alone, whatever its file.
    let calls = |load, force, base, reads, end| {
        [
            (Call::load(module("A", "")), load),
            (Call::load("no file"), load),
            (Call::Force(b"A".to_vec()), force),
            (Call::Force(b"?".to_vec()), if force == 0 { 15 } else { force }),
            (Call::Base(1), base),
            (Call::Base(9999), if base == 0 { 12 } else { base }),
            (Call::Memory, reads),
            (Call::Symbols(Index::At(0)), reads),
            (Call::Undefined(Index::At(0)), reads),
            (Call::End(Room::Bytes(100)), end),
            (Call::End(Room::Bytes(0)), if end == 0 { 16 } else { end }),
        ]
        .map(|(each, number)| call(each, number, 0))
    };
    let too_long = |number| call(Call::load("\n".repeat(65_537)), number, 0);
    let marked = |mark| {
        let mut state = fresh();
        state[MARK] = mark;
        state
    };
    let again = [call(Call::Reset, 0, 0), load(module("A", ""), 0, 0), bad("no file", 20, 1, 1), base(0, 3)];
    let mut cases = Vec::new();
    for (label, state, steps) in [
        ("a broken state", marked(BROKEN), [calls(3, 3, 3, 0, 3).to_vec(), vec![too_long(3)]].concat()),
        ("a frozen state", marked(FROZEN), [calls(4, 4, 4, 0, 0).to_vec(), vec![too_long(4)]].concat()),
        ("a damaged state", marked(3), [calls(2, 2, 2, 2, 2).to_vec(), vec![too_long(2)]].concat()),
    ] {
        cases.push(Case { state, ..case(label, [steps, again.to_vec()].concat()) });
    }
    cases
}

/// A table of 256 symbols, and its last one damaged.
fn soundness_of_a_full_table() -> Vec<Case> {
    let mut state = fresh();
    state[COUNT] = 256;
    for (i, name) in names(0, 256).iter().enumerate() {
        state[NAMES.start + i] = packed(name);
    }
    let (name, value, tag) = (NAMES.end - 1, VALUES.end - 1, TAGS.end - 1);
    let mut cases = Vec::new();
    for (cell, content, number) in [
        (SPARE, 0, 0),
        (name, packed("X"), 0),
        (name, packed("N0"), 2),
        (name, packed("N254"), 2),
        (name, 0, 2),
        (value, DEFINED, 0),
        (value, 1, 2),
        (tag, REFERENCE + 255, 0),
        (tag, REFERENCE + 256, 2),
        (COUNT, 255, 2),
        (COUNT, 257, 2),
    ] {
        let steps = [Step::from(Call::Poke(vec![(cell, content)])), call(Call::Memory, number, 0)];
        let label = format!("cell {cell} of a full table holds {content:#x}");
        cases.push(Case { state: state.clone(), ..case(label, steps) });
    }
    cases
}

/// Single cells at and past what a sound state may hold. MEMORY tells whether the state is sound.
fn soundness() -> Vec<Case> {
    let mut state = fresh();
    state[COUNT] = 3;
    state[NEXT] = 2;
    for (i, name) in ["A", "BB", "CCCCCC"].into_iter().enumerate() {
        state[NAMES.start + i] = packed(name);
    }
    state[VALUES.start] = DEFINED;
    state[TEXTS.start] = 1;
    state[TAGS.start] = PLAIN;
    state[TAGS.start + 1] = REFERENCE + 2;

    let (name, value, text, tag) = (NAMES.start, VALUES.start, TEXTS.start, TAGS.start);
    let sound = [
        (SPARE, 0),
        (NEXT, 0),
        (NEXT, 4096),
        (MARK, BROKEN),
        (MARK, FROZEN),
        (name, packed("Z9")),
        (name, packed("ABCDEF")),
        (value, 0),
        (value, 131_071),
        (value + 1, 65_536),
        (text, 0),
        (text, u64::MAX),
        (text + 1, u64::MAX),
        (tag, REFERENCE),
        (tag, REFERENCE + 2),
        (tag + 4095, PLAIN),
    ];
    let unsound = [
        (COUNT, 2),
        (COUNT, 4),
        (COUNT, 256),
        (COUNT, 257),
        (COUNT, u64::MAX),
        (NEXT, 4097),
        (NEXT, u64::MAX),
        (MARK, 3),
        (MARK, u64::MAX),
        (SPARE, 1),
        (SPARE, u64::MAX),
        (name, 0),
        (name, packed("BB")),
        (name + 2, packed("A")),
        (name, packed("A") >> 8),
        (name, packed("A") << 8),
        (name, packed("A") + 1),
        (name, packed("A") | 1 << 48),
        (name, packed("A") | 1 << 63),
        (name, packed("A") | 0x20 << 40),
        (name, packed("A") | 0x20 << 32),
        (name, 0x3041_0000_0000),
        (name + 3, packed("D")),
        (name + 255, packed("D")),
        (value, 1),
        (value, 65_535),
        (value, 131_072),
        (value, u64::MAX),
        (value + 3, DEFINED),
        (value + 255, 1),
        (text + 2, 1),
        (text + 4095, u64::MAX),
        (tag, UNPLACED),
        (tag, REFERENCE + 3),
        (tag, u64::MAX),
        (tag + 4095, REFERENCE + 3),
    ];
    let poked = |(cell, content): (usize, u64), number| {
        let steps = [Step::from(Call::Poke(vec![(cell, content)])), call(Call::Memory, number, 0)];
        Case { state: state.clone(), ..case(format!("cell {cell} holds {content:#x}"), steps) }
    };
    sound.map(|poke| poked(poke, 0)).into_iter().chain(unsound.map(|poke| poked(poke, 2))).collect()
}
