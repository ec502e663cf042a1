//! Names in long tables and in sections of one remainder: what is found, what joins where, and what is refused.

use super::super::names::{Alphabet, Order, SLOTS};
use super::*;
use crate::calls::UndefinedAnswer;
use crate::memory::{COUNT, NAMES};

/// The tables here have the names N0, N1 and so on, at least up to N149: the lowest of them, one in the middle, and the highest.
/// N120 stands behind N12 and parts from it in the length alone.
const LOWEST: &str = "N0";
const MIDDLE: &str = "N12";
const HIGHEST: &str = "N99";
const OLD: [&str; 3] = [LOWEST, MIDDLE, HIGHEST];
/// Names that these tables have not: below all, between two, and above all. N and N0 part in the length alone, N99 and N990 too,
/// and N129 and N12A in the last character.
const BELOW: &str = "N";
const BETWEEN: &str = "N12A";
const ABOVE: &str = "N990";
const MISSING: [&str; 3] = [BELOW, BETWEEN, ABOVE];

pub fn all() -> Vec<Case> {
    [every_place(), orders(), references(), close(), full_tables(), duplicates(), wanted(), rejoined(), remainders()]
        .concat()
}

/// N0 and on in an order; scattered is by steps of 97.
fn ordered(count: usize, order: Order) -> Vec<String> {
    let mut names = names(0, count);
    names.sort();
    match order {
        Order::Rising => names,
        Order::Falling => names.into_iter().rev().collect(),
        Order::Scattered => (0..count).map(|i| names[i * 97 % count].clone()).collect(),
    }
}

/// Modules of at most 64 names.
fn modules(names: &[String], blocks: impl Fn(&[String]) -> String) -> String {
    names.chunks(64).map(|names| module("T", &blocks(names))).collect()
}

/// A module with absolute entries of these values: five lines and one for each entry.
fn defining<N: AsRef<str>>(entries: &[(N, u16)]) -> String {
    module("D", &defined(entries))
}

fn defined<N: AsRef<str>>(entries: &[(N, u16)]) -> String {
    let records: String = entries.iter().map(|(name, value)| format!("{} {value:o} 0\n", name.as_ref())).collect();
    format!("4 {:o} ***ENTRY\n{records}", entries.len())
}

/// A module with these externals: five lines and one for each.
fn mentioning(names: &[&str]) -> String {
    module("E", &externals(&list(names)))
}

fn list(names: &[&str]) -> Vec<String> {
    names.iter().map(|name| name.to_string()).collect()
}

/// UNDEFINED at an index tells this.
fn undefined(index: usize, name: &str, highest: usize) -> Step {
    let answer = UndefinedAnswer { name: packed(name), highest: highest as u64, ..UndefinedAnswer::default() };
    Step { undefined: Some(answer), ..call(Call::Undefined(Index::At(index as u64)), 0, 0) }
}

fn place(names: &[String], name: &str) -> usize {
    names.iter().position(|each| each == name).expect("a name of the table")
}

/// How a table comes to be: by FORCE, as externals, as entries, or as the state that the case starts from. Entries are defined,
/// with the value 0, and the others are not.
#[derive(Clone, Copy, Debug, PartialEq, Eq)]
enum Way {
    Forced,
    Externals,
    Entries,
    Given,
}

use Way::*;

/// A case over a table of these names.
fn over(way: Way, names: &[String], label: impl AsRef<str>, steps: impl Into<Vec<Step>>) -> Case {
    let mut state = fresh();
    let first: Vec<Step> = match way {
        Forced => names.iter().map(|name| force(name, 0)).collect(),
        Externals => vec![load(modules(names, externals), 0, 0)],
        Entries => vec![load(modules(names, entries), 0, 0)],
        Given => {
            state[COUNT] = names.len() as u64;
            state[NAMES].iter_mut().zip(names).for_each(|(cell, name)| *cell = packed(name));
            vec![]
        }
    };
    let label = format!("{} symbols, {way:?}: {}", names.len(), label.as_ref());
    Case { state, ..case(label, [first, steps.into()].concat()) }
}

/// A name joins at every place of tables of many lengths, and its neighbours and all others are found as before.
fn every_place() -> Vec<Case> {
    let old = |i: usize| format!("E{i:03}");
    let mut cases = Vec::new();
    for count in (0..=9).chain([15, 16, 17, 31, 63, 255]) {
        let names: Vec<String> = (0..count).map(|i| old(i * 97 % count)).collect();
        for place in 0..=count {
            let new = if place == 0 { "D999Z".to_string() } else { old(place - 1) + "A" };
            let neighbours: Vec<String> = (place.saturating_sub(1)..count.min(place + 1)).map(old).collect();
            let mentioned = [std::slice::from_ref(&new), &neighbours, std::slice::from_ref(&new)].concat();
            let values: Vec<(&String, u16)> = mentioned[1..].iter().zip(1..).collect();
            let mut steps = vec![load(module("E", &externals(&mentioned)), 0, 0), symbol(count, &new, None)];
            steps.extend([load(modules(&names, externals), 0, 0), symbols(count + 1)]);
            steps.extend([load(defining(&values), 0, 0), symbols(count + 1)]);
            let joined: Vec<String> = names.iter().chain([&new]).cloned().collect();
            steps.extend(values.iter().map(|&(name, value)| symbol(self::place(&joined, name), name, Some(value))));
            cases.push(over(Given, &names, format!("{new} joins at place {place}"), steps));
        }
    }
    for order in Order::ALL {
        let names = ordered(256, order);
        let values: Vec<(&String, u16)> = names.iter().zip(0..).collect();
        let mut steps: Vec<Step> = Order::ALL.map(|again| load(modules(&ordered(256, again), externals), 0, 0)).into();
        steps.extend([load(values.chunks(64).map(defining).collect::<String>(), 0, 0), symbols(256)]);
        steps.extend(values.iter().map(|&(name, value)| symbol(value.into(), name, Some(value))));
        cases.push(over(Given, &names, format!("{order:?}, all found and defined"), steps));
    }
    cases
}

/// Symbols in each order: all are found again in each order, others join behind them, and both can be defined.
fn orders() -> Vec<Case> {
    let mut cases = Vec::new();
    for (way, count) in [(Forced, 250), (Externals, 250), (Entries, 250), (Given, 250), (Given, 150)] {
        for order in Order::ALL {
            let names = ordered(count, order);
            let value = (way == Entries).then_some(0);
            let mut steps: Vec<Step> =
                Order::ALL.map(|again| load(modules(&ordered(count, again), externals), 0, 0)).into();
            steps.push(symbols(count));
            steps.extend(OLD.map(|name| symbol(place(&names, name), name, value)));
            steps.extend(OLD.map(|name| force(name, 0)));
            let mentioned = [BELOW, LOWEST, BETWEEN, HIGHEST, ABOVE, MIDDLE, ABOVE, BETWEEN, BELOW];
            steps.extend([load(mentioning(&mentioned), 0, 0), symbols(count + 3)]);
            steps.extend([
                symbol(count, BELOW, None),
                symbol(count + 1, BETWEEN, None),
                symbol(count + 2, ABOVE, None),
            ]);
            steps.extend([load(defining(&[(ABOVE, 1), (BELOW, 2), (BETWEEN, 3)]), 0, 0), symbols(count + 3)]);
            steps.extend([
                symbol(count, BELOW, Some(2)),
                symbol(count + 1, BETWEEN, Some(3)),
                symbol(count + 2, ABOVE, Some(1)),
            ]);
            if way != Entries {
                steps.extend([load(defining(&[(HIGHEST, 4), (LOWEST, 5), (MIDDLE, 6)]), 0, 0), symbols(count + 3)]);
                let values = [(LOWEST, 5), (MIDDLE, 6), (HIGHEST, 4)];
                steps.extend(values.map(|(name, value)| symbol(place(&names, name), name, Some(value))));
            }
            cases.push(over(way, &names, format!("{order:?}, all found"), steps));
        }
    }
    cases
}

/// A word refers to each external, at the address of its place in the file: symbols that are in the table before the load,
/// in each order, and three that join in it.
fn references() -> Vec<Case> {
    let referring = |names: &[String]| {
        let words: String = (1..=names.len()).map(|arg| format!("* 0 0 0 0 0 5 {arg:o}\n")).collect();
        format!("{}0 {:o} 0 ***CODE\n{words}", externals(names), names.len())
    };
    let mut cases = Vec::new();
    for order in Order::ALL {
        let names = ordered(250, order);
        for again in Order::ALL {
            let mut met = ordered(250, again);
            met.splice(100..100, MISSING.map(String::from));
            // 253 words, then the lowest, the highest and the three once more, from 253 on.
            let last = list(&[HIGHEST, ABOVE, LOWEST, BELOW, BETWEEN]);
            let file = modules(&met, referring) + &modules(&last, referring);
            let address = |name: &String| match last.iter().position(|each| each == name) {
                Some(place) => 253 + place,
                None => place(&met, name),
            };
            let mut steps = vec![load(file, 0, 0), memory(257)];
            steps.extend(names.iter().enumerate().map(|(i, name)| undefined(i, name, address(name))));
            steps.extend(MISSING.iter().zip(250..).map(|(name, i)| undefined(i, name, address(&name.to_string()))));
            cases.push(over(Given, &names, format!("{order:?}, a word refers to each in order {again:?}"), steps));
        }
    }
    cases
}

/// Names that part in the last character or in the length alone are different ones, also beside 200 others.
fn close() -> Vec<Case> {
    let last: Vec<String> = Alphabet::WHOLE.characters().map(|last| format!("ABCDE{last}")).collect();
    let lengths =
        list(&["A", "A$", "A$.", "A0", "A00", "A000", "A0000", "A00000", "AA", "AAA", "AB", "ABC", "ABCD", "ABCDE"]);
    let names = [last, lengths].concat();
    let mut cases = Vec::new();
    for (label, joining) in [("forward", names.clone()), ("backward", names.iter().rev().cloned().collect::<Vec<_>>())]
    {
        for count in [0, 200] {
            let values: Vec<(String, u16)> = names.iter().cloned().zip(1..).collect();
            let mut steps = vec![load(modules(&joining, externals), 0, 0), symbols(count + names.len())];
            steps.extend(joining.iter().enumerate().map(|(i, name)| symbol(count + i, name, None)));
            steps.extend([load(defining(&values), 0, 0), symbols(count + names.len())]);
            let value = |name: &String| Some(place(&names, name) as u16 + 1);
            steps.extend(joining.iter().enumerate().map(|(i, name)| symbol(count + i, name, value(name))));
            cases.push(over(Given, &ordered(count, Order::Scattered), format!("close names, {label}"), steps));
        }
    }
    cases
}

/// The 256th symbol and the 257th, by an external, an entry, FORCE and a module of a library, wherever its name stands.
fn full_tables() -> Vec<Case> {
    let mut cases = Vec::new();
    for order in Order::ALL {
        let [most, full] = [255, 256].map(|count| ordered(count, order));
        for name in MISSING {
            let other = if name == BETWEEN { ABOVE } else { BETWEEN };
            let mentions = |names: &[&str], number| load(mentioning(names), number, number / 14);
            let defines = |names: &[&str], number| {
                load(defining(&names.iter().map(|&name| (name, 7)).collect::<Vec<_>>()), number, number / 14)
            };
            let again = mentions(&[name, LOWEST, HIGHEST, MIDDLE, name], 0);
            let wanted = |needs: &[&str]| section(&module("D", &(defined(&[(LOWEST, 7)]) + &externals(&list(needs)))));
            let label = |what: &str| format!("{order:?}, {name} by {what}");
            let last = |value| [symbol(255, name, value), symbols(256), again.clone(), symbols(256)];
            cases.extend([
                over(Given, &most, label("an external"), [vec![mentions(&[name], 0)], last(None).into()].concat()),
                over(Given, &most, label("an entry"), [vec![defines(&[name], 0)], last(Some(7)).into()].concat()),
                over(Given, &most, label("FORCE"), [vec![force(name, 0)], last(None).into()].concat()),
                over(Externals, &most, label("a library"), [searched(wanted(&[name, HIGHEST]), 2), symbols(256)]),
                over(Externals, &most, label("a library, and one more"), [load(wanted(&[name, other]), 14, 2)]),
                over(Given, &most, label("an external, one more"), [mentions(&[other, name], 14), symbols(255)]),
                over(Given, &most, label("an entry, one more"), [defines(&[other, name], 14), symbols(255)]),
                over(
                    Given,
                    &most,
                    label("an external of the second module"),
                    [load(mentioning(&[other]) + &mentioning(&[LOWEST, name]), 14, 7), symbols(255)],
                ),
                over(
                    Given,
                    &full,
                    label("an external"),
                    [mentions(&[LOWEST, MIDDLE, HIGHEST, name], 14), symbols(256)],
                ),
                over(Given, &full, label("an entry"), [defines(&[LOWEST, MIDDLE, HIGHEST, name], 14), symbols(256)]),
                over(Given, &full, label("FORCE"), [force(name, 14), force(HIGHEST, 0), symbols(256)]),
            ]);
        }
    }
    cases
}

/// A second entry of a name in a long table, also where there are too many symbols besides: 13 comes before 14.
fn duplicates() -> Vec<Case> {
    let mut cases = Vec::new();
    for order in Order::ALL {
        let [most, full] = [255, 256].map(|count| ordered(count, order));
        for name in OLD {
            let label = |what: &str| format!("{order:?}, {name} {what}");
            let twice = defining(&[(name, 1), (name, 2)]);
            let and_external = module("D", &(defined(&[(name, 1)]) + &externals(&list(&[ABOVE]))));
            let once = defining(&[(name, 1)]);
            let in_library = section(&module("D", &(defined(&[("L", 1), (name, 1)]))));
            cases.extend([
                over(Entries, &full, label("again"), [load(once.clone(), 13, 1), symbols(256)]),
                over(Entries, &full, label("behind the 257th"), [load(defining(&[(BELOW, 1), (name, 1)]), 13, 1)]),
                over(Entries, &full, label("before the 257th"), [load(defining(&[(name, 1), (ABOVE, 1)]), 13, 1)]),
                over(Entries, &full, label("before a 257th external"), [load(and_external.clone(), 13, 1)]),
                over(Given, &full, label("twice in a module"), [load(twice, 13, 1)]),
                over(Given, &full, label("in two modules"), [load(once.repeat(2), 13, 7)]),
                over(Given, &full, label("once"), [load(once.clone(), 0, 0), load(once, 13, 1)]),
                over(Given, &full, label("once, before a 257th external"), [load(and_external, 14, 1)]),
                over(Entries, &most, label("of a library"), [force("L", 0), load(in_library, 13, 2)]),
            ]);
        }
    }
    cases
}

/// Modules of a library that are wanted for a name in a long table, and not for another.
fn wanted() -> Vec<Case> {
    let library = section(
        &[(MIDDLE, 1), (BELOW, 2), (LOWEST, 3), (ABOVE, 4), (HIGHEST, 5), (BETWEEN, 6)]
            .map(|entry| defining(&[entry]))
            .concat(),
    );
    let needing = |name, value, needs: &str| module("D", &(defined(&[(name, value)]) + &externals(&list(&[needs]))));
    // One is taken in each of three rounds: HIGHEST, ABOVE, BELOW.
    let chain = section(&(needing(BELOW, 1, BETWEEN) + &needing(ABOVE, 2, BELOW) + &needing(HIGHEST, 3, ABOVE)));
    let mut cases = Vec::new();
    for way in [Externals, Given] {
        for order in Order::ALL {
            let [some, full] = [250, 256].map(|count| ordered(count, order));
            let mut steps = vec![searched(library.clone(), 2), symbols(256)];
            let values = [(MIDDLE, 1), (LOWEST, 3), (HIGHEST, 5)];
            steps.extend(values.map(|(name, value)| symbol(place(&full, name), name, Some(value))));
            steps.extend([symbol(place(&full, "N128"), "N128", None), searched(library.clone(), 1)]);
            cases.push(over(way, &full, format!("{order:?}, three wanted"), steps));

            let mut steps = vec![searched(chain.clone(), 4), symbols(253)];
            steps.extend([symbol(250, ABOVE, Some(2)), symbol(251, BELOW, Some(1)), symbol(252, BETWEEN, None)]);
            steps.push(symbol(place(&some, HIGHEST), HIGHEST, Some(3)));
            cases.push(over(way, &some, format!("{order:?}, wanted by each other"), steps));

            // The free module's externals are wanted too, in the order of the file.
            let file = mentioning(&MISSING) + &library;
            let steps = [
                searched(file, 2),
                symbols(253),
                symbol(250, BELOW, Some(2)),
                symbol(251, BETWEEN, Some(6)),
                symbol(252, ABOVE, Some(4)),
            ];
            cases.push(over(way, &some, format!("{order:?}, wanted since this load"), steps));
        }
    }
    let defined = ordered(256, Order::Scattered);
    cases.push(over(Entries, &defined, "none wanted", [searched(library, 1), symbols(256)]));
    cases
}

/// Symbols that join in a load are found again in the same load, whatever the order in which they join and are met again.
fn rejoined() -> Vec<Case> {
    let mut cases = Vec::new();
    for order in Order::ALL {
        let names = ordered(250, order);
        for known in [0, 200] {
            for again in Order::ALL {
                let met = ordered(250, again);
                let joining = modules(&names[known..], externals);
                let file = joining + &modules(&met, externals) + &modules(&met, entries) + &modules(&met, externals);
                let mut steps = vec![load(file, 0, 0), symbols(250)];
                steps.extend([0, 1, 199, 200, 249].map(|index| symbol(index, &names[index], Some(0))));
                let label = format!("{order:?}, the others in one load, again {again:?}");
                cases.push(over(Given, &names[..known], label, steps));

                let file = modules(&names[known..], entries) + &modules(&met, externals);
                let mut steps = vec![load(file, 0, 0), symbols(250)];
                let value = |index| (index >= known).then_some(0);
                steps.extend([0, 1, 199, 200, 249].map(|index| symbol(index, &names[index], value(index))));
                let label = format!("{order:?}, the others as entries in one load, again {again:?}");
                cases.push(over(Given, &names[..known], label, steps));
            }
        }
    }
    cases
}

/// Sections of entries whose packed names have the same remainder: one of them wanted, another, none, and one twice.
fn remainders() -> Vec<Case> {
    let mut cases = Vec::new();
    for count in [2, 3, 64, 255, 640, 4000] {
        let alike = Alphabet::WHOLE.of_remainder(packed("N0") % SLOTS);
        let rising: Vec<String> = alike.take(count + 1).map(|name| name.to_string()).collect();
        for order in [Order::Rising, Order::Falling] {
            let (mut names, vain) = (rising[..count].to_vec(), &rising[count]);
            if order == Order::Falling {
                names.reverse();
            }
            // One entry in each module, or 64.
            for each in [1, 64].into_iter().filter(|each| count.div_ceil(*each) <= 256) {
                let values: Vec<(&String, u16)> = names.iter().zip(1..).collect();
                let modules: String = values.chunks(each).map(defining).collect();
                let library = section(&modules);
                let label =
                    |what: &str| format!("{count} entries of one remainder, {order:?}, {each} in a module: {what}");
                for wanted in [0, count / 2, count - 1] {
                    let (name, value) = (&names[wanted], Some(wanted as u16 + 1));
                    let taken = each.min(count - wanted / each * each);
                    let steps = [force(name, 0), searched(library.clone(), 2), symbol(0, name, value), symbols(taken)];
                    cases.push(case(label(&format!("number {wanted} wanted")), steps));
                    let again = section(&(modules.clone() + &defining(&[(name, 0)])));
                    if count.div_ceil(each) < 256 {
                        cases.push(case(label(&format!("number {wanted} twice")), [load(again, 13, 1), symbols(0)]));
                    }
                }
                cases.push(case(label("none wanted"), [searched(library.clone(), 1), symbols(0)]));
                let in_vain = [force(vain, 0), searched(library, 1), symbol(0, vain, None), symbols(1)];
                cases.push(case(label("another wanted"), in_vain));
            }
        }
    }
    let names: Vec<String> = Alphabet::WHOLE.of_remainder(0).take(100).map(|name| name.to_string()).collect();
    let chain: Vec<String> = (names.iter().enumerate())
        .map(|(i, name)| module("C", &(defined(&[(name, i as u16)]) + &externals(&names[(i + 1) % 100..][..1]))))
        .collect();
    let backward: String = chain.iter().rev().cloned().collect();
    let second = section(&defining(&[(&names[0], 1)])) + &section(&defining(&[(&names[1], 2)]));
    cases.extend([
        case("a chain of 100 of one remainder, forward", [force(&names[0], 0), searched(section(&chain.concat()), 2)]),
        case("a chain of 100 of one remainder, backward", [force(&names[0], 0), searched(section(&backward), 101)]),
        case(
            "one remainder in two sections",
            [force(&names[1], 0), searched(second, 3), symbol(0, &names[1], Some(2))],
        ),
    ]);
    cases
}
