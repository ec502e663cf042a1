//! What is placed: room, overlaps, values, symbols, duplicates and searches.

use super::super::case::Index;
use super::*;

pub fn all() -> Vec<Case> {
    [room_and_values(), highs(), overlaps(), symbols(), duplicates(), searches()].concat()
}

fn room_and_values() -> Vec<Case> {
    let words = |offset, count| module("A", &code(offset, count));
    let entry = |value: u64| module("A", &format!("4 1 ***ENTRY\nA {value:o} 1 0\n"));
    let arg = |arg: usize| module("A", &format!("{}0 1 0 ***CODE\n* 0 0 0 0 0 5 {arg:o}\n", externals(&names(0, 64))));
    vec![
        case("4096 words", [load(words(0, 4096), 0, 0), load(words(0, 0), 0, 0), memory(4095)]),
        case("4097 words", [load(words(0, 4097), 9, 1)]),
        case("the last address", [load(words(4095, 1), 0, 0)]),
        case("an offset of 4096", [load(words(4096, 1), 9, 1)]),
        case("an offset of 65535", [load(words(65_535, 1), 9, 1)]),
        case("offset and count over 65535", [load(words(65_535, 3), 9, 1)]),
        case("no word at a far offset", [load(words(65_535, 0), 0, 0), memory(65_535)]),
        case("BASE", [base(4095, 0), base(4096, 12), base(1 << 32, 12), base(u64::MAX, 12), load(words(0, 1), 0, 0)]),
        case("two words at BASE 4095", [base(4095, 0), load(words(0, 2), 9, 1)]),
        case("a relocated 65535", [base(4095, 0), load(entry(65_535 - 4095), 0, 0)]),
        case("a relocated 65536", [base(4095, 0), load(entry(65_536 - 4095), 12, 1)]),
        case(
            "the last word in a file of its own",
            [load(words(0, 4095), 0, 0), load(words(0, 1), 0, 0), load(words(0, 1), 9, 1)],
        ),
        case("no room for the third module", [load(words(0, 4095) + &words(0, 1) + &words(0, 1), 9, 4095 + 5 + 6 + 1)]),
        case("a module of none where there is no room", [load(words(0, 4096), 0, 0), load(words(1, 0), 0, 0)]),
        case("an absolute 65535", [base(4095, 0), load(module("A", "4 1 ***ENTRY\nA 177777 0\n"), 0, 0)]),
        case("external 1 of 1", [load(module("A", "5 1 ***EXT\nB\n0 1 0 ***CODE\n* 0 0 0 0 0 5 1\n"), 0, 0)]),
        case("external 2 of 1", [load(module("A", "5 1 ***EXT\nB\n0 1 0 ***CODE\n* 0 0 0 0 0 5 2\n"), 11, 1)]),
        case("external 1 of none", [load(module("A", "0 1 0 ***CODE\n* 0 0 0 0 0 5 1\n"), 11, 1)]),
        case(
            "externals behind the words",
            [load(module("A", "0 1 0 ***CODE\n* 0 0 0 0 0 5 2\n5 2 ***EXT\nB\nB\n"), 0, 0)],
        ),
        case("references at both ends", [vec![load(both_ends(), 0, 0)], undefined(3)].concat()),
        case("external 64 of 64", [load(arg(64), 0, 0)]),
        case("external 65 of 64", [load(arg(65), 11, 1)]),
        case("external 0", [load(arg(0), 11, 1)]),
        case("external 65535", [load(arg(65_535), 11, 1)]),
    ]
}

/// HIGH after each step, wherever the next address goes; END, which freezes, comes last.
fn highs() -> Vec<Case> {
    let words = |count| load(module("A", &code(0, count)), 0, 0);
    let none = 65_535;
    vec![
        case(
            "HIGH after a step back",
            [base(128, 0), words(3), memory(130), base(0, 0), memory(130), words(1), memory(130), end(130)],
        ),
        case(
            "HIGH where no word is placed",
            [memory(none), base(4095, 0), memory(none), words(0), memory(none), force("A", 0), end(none)],
        ),
        case("HIGH of a word at 0", [words(1), memory(0), base(4095, 0), memory(0), words(0), memory(0), end(0)]),
        case("HIGH of a word at 4095", [base(4095, 0), words(1), memory(4095), base(0, 0), memory(4095), end(4095)]),
        case("HIGH of a reference at 4095", [load(both_ends(), 0, 0), base(0, 0), memory(4095), end(4095)]),
        case("HIGH behind a refused load", [words(3), base(4095, 0), load(module("B", &code(0, 2)), 9, 1), memory(2)]),
        case("HIGH behind a RESET", [words(3), call(Call::Reset, 0, 0), memory(none), end(none)]),
    ]
}

/// Words at addresses 0 and 4,095 that refer to one external each, and a third that nothing refers to.
fn both_ends() -> String {
    let word = |offset: &str, arg: usize| format!("0 1 {offset} ***CODE\n* 0 0 0 1 0 5 {arg}\n");
    module("A", &(externals(&names(0, 3)) + &word("0", 1) + &word("7777", 2)))
}

fn undefined(count: u64) -> Vec<Step> {
    (0..=count).map(|index| call(Call::Undefined(Index::At(index)), 0, 0)).collect()
}

fn overlaps() -> Vec<Case> {
    let two = |offset| module("A", &(code(0, 2) + &code(offset, 1)));
    let gap = module("A", &(code(0, 1) + &code(9, 1)));
    let at = |address, number| [base(address, 0), load(module("B", &code(0, 1)), number, number / 10)];
    vec![
        case("blocks side by side", [load(two(2), 0, 0)]),
        case("blocks that share a word", [load(two(1), 10, 1)]),
        case("a block without words inside another", [load(module("A", &(code(0, 2) + &code(1, 0))), 0, 0)]),
        case("a word before one that is placed", [vec![load(gap.clone(), 0, 0)], at(8, 0).into()].concat()),
        case("a word on the last one placed", [vec![load(gap.clone(), 0, 0)], at(9, 10).into()].concat()),
        case("a word on the first one placed", [vec![load(gap.clone(), 0, 0)], at(0, 10).into()].concat()),
        case("a word in the gap", [vec![load(gap, 0, 0)], at(1, 0).into()].concat()),
    ]
}

/// A second entry of one name: in a module, in the table, in a library, and beside faults that come before or behind it.
fn duplicates() -> Vec<Case> {
    let one = module("A", &entries(&names(0, 1)));
    let twice = module("A", "4 2 ***ENTRY\nN0 0 0\nN0 0 0\n");
    let full: String = names(0, 256).chunks(64).map(|names| module("T", &entries(names))).collect();
    let on_full = module("A", "4 2 ***ENTRY\nX 0 0\nN0 0 0\n");
    let over = module("A", "4 2 ***ENTRY\nN0 0 0\nX 177777 1 0\n");
    vec![
        case("an entry twice in a module", [load(twice.clone(), 13, 1)]),
        case("an entry in the second module", [load(one.repeat(2), 13, 7)]),
        case("an entry in the second load", [load(one.clone(), 0, 0), load(one.clone(), 13, 1)]),
        case("an entry of a forced name", [force("N0", 0), load(one.clone(), 0, 0), load(one.clone(), 13, 1)]),
        case("an entry twice in an unwanted module", [load(section(&twice), 13, 1)]),
        case("an entry twice in a library", [load(format!("\n{}", section(&one.repeat(2))), 13, 2)]),
        case("an entry in two libraries, unwanted", [searched(section(&one).repeat(2), 2)]),
        case("an entry in two libraries, wanted", [force("N0", 0), searched(section(&one).repeat(2), 3)]),
        case("a defined name in a library, unwanted", [load(one.clone(), 0, 0), searched(section(&one), 1)]),
        case("a duplicate before a full table", [load(full.clone(), 0, 0), load(on_full, 13, 1)]),
        case("a range before a duplicate", [load(one, 0, 0), base(1, 0), load(over, 12, 1)]),
        case("a library twice before a module", [load(full, 0, 0), load(section(&twice), 13, 1)]),
    ]
}

fn symbols() -> Vec<Case> {
    // Modules with so many entries in all, as many in each as may be.
    let table = |count| names(0, count).chunks(64).map(|names| module("T", &entries(names))).collect::<String>();
    let mentions = |first| module("A", &externals(&names(first, 64)));
    let forced =
        names(0, 256).iter().map(|name| force(name, 0)).chain([force("X", 14), force("N0", 0)]).collect::<Vec<_>>();
    vec![
        case("256 symbols", [load(table(256), 0, 0), force("N255", 0), force("N256", 14), force("n", 15)]),
        case("257 symbols", [load(table(257), 14, 4 * 69 + 1)]),
        case("256 forced", forced),
        case("known externals on a full table", [load(table(256), 0, 0), load(mentions(192), 0, 0)]),
        case("one unknown external on a full table", [load(table(256), 0, 0), load(mentions(193), 14, 1)]),
    ]
}

fn searches() -> Vec<Case> {
    let forward: Vec<String> = (0..256).map(|i| chained(i, 256)).collect();
    let backward: Vec<String> = forward.iter().rev().cloned().collect();
    vec![
        case("a chain of 256, forward", [force("N0", 0), searched(section(&forward.concat()), 2)]),
        case("a chain of 256, backward", [force("N0", 0), searched(section(&backward.concat()), 257)]),
        case("sections without modules", [searched(section("").repeat(3), 3)]),
    ]
}

/// Module i of a chain, where each one needs the next.
fn chained(i: usize, count: usize) -> String {
    let needs = if i + 1 < count { externals(&names(i + 1, 1)) } else { String::new() };
    module("C", &(entries(&names(i, 1)) + &needs + &code(0, 1)))
}
