//! Cases at each limit of the papers and one past it, and each fault of a line. The answers stand beside them, taken from
//! the papers and not from a linker.

mod faults;
mod feed_memory;
mod feeding;
mod lookups;
mod memory;
mod names;
mod paper;
mod placing;
mod reading;

use super::case::{Call, Case, Index, Room, Step};
use crate::calls::SymbolAnswer;
use crate::memory::fresh;
use crate::name::Name;

/// Every case.
pub fn all() -> Vec<Case> {
    [
        paper::all(),
        reading::all(),
        names::all(),
        faults::all(),
        placing::all(),
        lookups::all(),
        memory::all(),
        feeding::all(),
        feed_memory::all(),
    ]
    .concat()
}

/// A module around some blocks.
fn module(title: &str, blocks: &str) -> String {
    format!("3 ***TITLE\n{title}\n{blocks}1 ***END\n{title}\n")
}

fn section(modules: &str) -> String {
    format!("6 ***LSB\n{modules}7 ***LEB\n")
}

fn code(offset: usize, words: usize) -> String {
    format!("0 {words:o} {offset:o} ***CODE\n{}", "1 2 3 4\n".repeat(words))
}

/// `count` names from number `first` on.
fn names(first: usize, count: usize) -> Vec<String> {
    (first..first + count).map(|i| format!("N{i}")).collect()
}

fn entries(names: &[String]) -> String {
    let records: String = names.iter().map(|name| format!("{name} 0 0\n")).collect();
    format!("4 {:o} ***ENTRY\n{records}", names.len())
}

fn externals(names: &[String]) -> String {
    let records: String = names.iter().map(|name| format!("{name}\n")).collect();
    format!("5 {:o} ***EXT\n{records}", names.len())
}

fn load(file: impl Into<Vec<u8>>, number: u64, line: u64) -> Step {
    call(Call::load(file), number, line)
}

/// An accepted load with so many rounds.
fn searched(file: impl Into<Vec<u8>>, rounds: u64) -> Step {
    Step { rounds: Some(rounds), ..load(file, 0, 0) }
}

fn call(call: Call, number: u64, line: u64) -> Step {
    Step { expected: Some((number, line, 0)), ..Step::from(call) }
}

/// A load that is refused for a fault of a line.
fn bad(file: impl Into<Vec<u8>>, number: u64, line: u64, column: u64) -> Step {
    Step { expected: Some((number, line, column)), ..Step::from(Call::load(file)) }
}

/// A load that is answered 0, or refused at a line and a column.
fn load_or_refused(file: impl Into<Vec<u8>>, number: u64, line: u64, column: u64) -> Step {
    match number {
        0 => load(file, 0, 0),
        _ => bad(file, number, line, column),
    }
}

fn force(name: &str, number: u64) -> Step {
    call(Call::Force(name.as_bytes().to_vec()), number, 0)
}

fn base(address: u64, number: u64) -> Step {
    call(Call::Base(address), number, 0)
}

/// MEMORY with this HIGH.
fn memory(high: u64) -> Step {
    Step { high: Some(high), ..call(Call::Memory, 0, 0) }
}

/// END with this HIGH in its record.
fn end(high: u64) -> Step {
    Step { high: Some(high), ..call(Call::End(Room::FromImage(0)), 0, 0) }
}

fn packed(name: &str) -> u64 {
    Name::parse(name.as_bytes()).expect("a legal name").packed()
}

/// SYMBOLS at an index tells this.
fn symbol(index: usize, name: &str, value: Option<u16>) -> Step {
    let (value, defined) = (value.unwrap_or(0).into(), value.is_some().into());
    shown(index, SymbolAnswer { name: packed(name), value, defined, ..SymbolAnswer::default() })
}

/// SYMBOLS tells that there are so many symbols: nothing stands at this index.
fn symbols(count: usize) -> Step {
    shown(count, SymbolAnswer { none: 1, ..SymbolAnswer::default() })
}

fn shown(index: usize, answer: SymbolAnswer) -> Step {
    Step { symbol: Some(answer), ..call(Call::Symbols(Index::At(index as u64)), 0, 0) }
}

/// A case from the fresh state.
fn case(label: impl AsRef<str>, steps: impl Into<Vec<Step>>) -> Case {
    Case { label: format!("limit: {}", label.as_ref()), state: fresh(), steps: steps.into() }
}
