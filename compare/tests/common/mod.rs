//! Files and short words for the tests.
#![allow(dead_code)] // each test program uses some of it

use compare::answer::{Reason, Refusal};
use compare::linker::Linker;
use compare::name::Name;

/// Document 01's free module MAIN.
pub const MAIN: &str = "\
3 ***TITLE
MAIN
4 1 ***ENTRY
MAIN 0 1 0
5 1 ***EXT
SQ
0 2 0 ***CODE
1 2 3 4
* 0 0 0 177777 0 5 1
1 ***END
MAIN
";

/// Document 01's library: LOW, SQ and CUBE.
pub const LIBRARY: &str = "\
6 ***LSB
3 ***TITLE
LOW
4 1 ***ENTRY
LOW 0 1 0
0 1 0 ***CODE
7 7 7 7
1 ***END
LOW
3 ***TITLE
SQ
4 1 ***ENTRY
SQ 1 1 0
5 1 ***EXT
LOW
0 2 0 ***CODE
0 0 0 10
* 0 0 0 2 0 5 1
1 ***END
SQ
3 ***TITLE
CUBE
4 1 ***ENTRY
CUBE 5 0
1 ***END
CUBE
7 ***LEB
";

/// A module around some blocks.
pub fn module(title: &str, blocks: &str) -> String {
    format!("3 ***TITLE\n{title}\n{blocks}1 ***END\n{title}\n")
}

/// A library section around some modules.
pub fn section(modules: &str) -> String {
    format!("6 ***LSB\n{modules}7 ***LEB\n")
}

/// A CODE block of plain words at an offset.
pub fn code(offset: usize, words: usize) -> String {
    format!("0 {words:o} {offset:o} ***CODE\n{}", "1 2 3 4\n".repeat(words))
}

/// An ENTRY block of absolute entries, all 0.
pub fn entries(names: &[&str]) -> String {
    let records: String = names.iter().map(|name| format!("{name} 0 0\n")).collect();
    format!("4 {:o} ***ENTRY\n{records}", names.len())
}

pub fn externals(names: &[&str]) -> String {
    let records: String = names.iter().map(|name| format!("{name}\n")).collect();
    format!("5 {:o} ***EXT\n{records}", names.len())
}

pub fn name(text: &str) -> Name {
    Name::parse(text.as_bytes()).expect("a legal name")
}

pub fn refused(reason: Reason, line: u64) -> Result<u64, Refusal> {
    Err(Refusal::at(reason, line))
}

/// Refused for a fault of a line, at a column.
pub fn bad(reason: Reason, line: u64, column: u32) -> Result<u64, Refusal> {
    Err(Refusal { reason, line, column })
}

/// LOAD from the fresh state.
pub fn load(file: &str) -> Result<u64, Refusal> {
    Linker::new().load(file.as_bytes())
}

/// A linker that has loaded a file.
pub fn loaded(file: &str) -> Linker {
    let mut linker = Linker::new();
    linker.load(file.as_bytes()).expect("the file loads");
    linker
}

/// Every symbol in table order.
pub fn symbols(linker: &Linker) -> Vec<(String, Option<u16>)> {
    (0..).map_while(|index| linker.symbol(index)).map(|symbol| (symbol.name.to_string(), symbol.value)).collect()
}

/// The undefined symbols, with the highest address that refers to each.
pub fn undefined(linker: &Linker) -> Vec<(String, u16)> {
    (0..).map_while(|index| linker.undefined(index)).map(|symbol| (symbol.name.to_string(), symbol.highest)).collect()
}

pub fn image(linker: &Linker) -> Vec<u8> {
    let mut out = vec![0; 11 * 4096 + 5];
    let length = linker.clone().end(&mut out).expect("the output is long enough");
    out.truncate(length);
    out
}

/// Bytes written in hex, with blanks where they please.
pub fn hex(text: &str) -> Vec<u8> {
    let digits: Vec<u8> = text.bytes().filter(|b| !b.is_ascii_whitespace()).collect();
    digits.chunks(2).map(|pair| u8::from_str_radix(std::str::from_utf8(pair).unwrap(), 16).unwrap()).collect()
}
