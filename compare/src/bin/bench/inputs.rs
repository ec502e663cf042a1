//! What is timed: states and files, each in three sizes.

use std::fmt::Display;

use compare::calls::Calls;
use compare::differ::names::Alphabet;
use compare::differ::rng::Rng;
use compare::lent::Lent;
use compare::linker::LONGEST_FILE;
use compare::memory::*;
use compare::name::Name;

/// One call to time.
pub struct Input {
    /// How large it is, in words that fit the row.
    pub size: String,
    /// State memory before each run.
    pub state: Vec<u64>,
    pub job: Job,
    /// The number that it must be answered with.
    pub expected: u64,
}

pub enum Job {
    Load(Vec<u8>),
    Force(Vec<u8>),
    End,
    Memory,
}

/// A row of the table: the same input at a sixteenth, a quarter and all of its size.
pub struct Row {
    pub label: &'static str,
    pub input: fn(divisor: usize) -> Input,
}

pub const ROWS: &[Row] = &[
    Row { label: "LOAD of a typical object file", input: typical },
    Row { label: "LOAD of a full file of modules", input: modules },
    Row { label: "LOAD of a library, forward order", input: library_forward },
    Row { label: "LOAD of a library, worst order", input: library_worst },
    Row { label: "LOAD of a section of entries, table empty", input: entries_empty_table },
    Row { label: "LOAD of a section of entries, table full", input: entries_full_table },
    Row { label: "LOAD of a chain beside unwanted entries", input: chain_beside_entries },
    Row { label: "LOAD of one-letter externals, table full", input: one_letter_externals },
    Row { label: "LOAD of old externals, table of 250", input: old_externals },
    Row { label: "LOAD of new externals, table of 250", input: new_externals },
    Row { label: "LOAD of a section of one remainder", input: entries_of_one_remainder },
    Row { label: "LOAD refused at its last line (19)", input: refused_by_reading },
    Row { label: "LOAD refused at its last module (13)", input: refused_by_walk },
    Row { label: "FORCE of an old name, table of 250", input: force_old },
    Row { label: "END", input: end },
    Row { label: "MEMORY of a full state", input: memory },
    Row { label: "MEMORY of an empty state", input: memory_of_nothing },
];

/// One routine with two entries, four externals and 64 words.
fn typical(divisor: usize) -> Input {
    let words = 64 / divisor;
    let mut file = String::from(
        "3 ***TITLE\nVFILT\n4 2 ***ENTRY\nVFILT 0 1 5\nVFLT2 2 1 4\n5 4 ***EXT\nSPMUL\nDIV\nSQRT\nSAVESP\n",
    );
    file += &code(words, 4);
    file += "1 ***END\nVFILT\n";
    Input { size: format!("{} bytes", file.len()), state: fresh(), job: Job::Load(file.into()), expected: 0 }
}

/// Modules of one entry, two externals and twenty words, until the file is full.
pub fn modules(divisor: usize) -> Input {
    let file = modules_file(LONGEST_FILE / divisor);
    Input { size: format!("{} bytes", file.len()), state: fresh(), job: Job::Load(file.into()), expected: 0 }
}

fn library_forward(divisor: usize) -> Input {
    library(divisor, |modules| modules)
}

fn library_worst(divisor: usize) -> Input {
    library(divisor, |mut modules| {
        modules.reverse();
        modules
    })
}

/// A library where each module needs the next one of a chain, in the order that is asked for. The first is wanted.
fn library(divisor: usize, order: impl FnOnce(Vec<String>) -> Vec<String>) -> Input {
    let count = 256 / divisor;
    let modules = order((0..count).map(|i| chained(i, count, 7)).collect());
    let file = format!("6 ***LSB\n{}7 ***LEB\n", modules.concat());
    let mut state = fresh();
    Lent.force(&mut state, name(0).as_bytes());
    let rounds = Lent.load(&mut state.clone(), &mut vec![0; WORK_CELLS], file.as_bytes()).rounds;
    let size = format!("{count} modules, {rounds} rounds, {} bytes", file.len());
    Input { size, state, job: Job::Load(file.into()), expected: 0 }
}

pub fn entries_empty_table(divisor: usize) -> Input {
    entries(divisor, fresh())
}

fn entries_full_table(divisor: usize) -> Input {
    entries(divisor, table_of(256 / divisor))
}

/// A library of as many different entries as the file holds. Nobody wants any of them.
fn entries(divisor: usize, state: Vec<u64>) -> Input {
    let (section, count) = unwanted_modules(LONGEST_FILE / divisor - 18);
    let file = format!("6 ***LSB\n{section}7 ***LEB\n");
    let size = format!("{count} entries, {} bytes", file.len());
    Input { size, state, job: Job::Load(file.into()), expected: 0 }
}

/// A chain of modules in worst order behind unwanted ones: every round visits all entries again.
fn chain_beside_entries(divisor: usize) -> Input {
    let count = 128 / divisor;
    let chain: String = (0..count).rev().map(|i| chained(i, count, 0)).collect();
    let (unwanted, entries) = unwanted_modules(LONGEST_FILE / divisor - 18 - chain.len());
    let file = format!("6 ***LSB\n{unwanted}{chain}7 ***LEB\n");
    let mut state = fresh();
    Lent.force(&mut state, name(0).as_bytes());
    let size = format!("{} rounds, {entries} entries, {} bytes", count + 1, file.len());
    Input { size, state, job: Job::Load(file.into()), expected: 0 }
}

/// Free modules of 64 externals, all of one letter. The table is full and has the letters last.
pub fn one_letter_externals(divisor: usize) -> Input {
    let letters: Vec<String> = (0..64).map(|i| char::from(b'A' + i % 26).to_string() + "\n").collect();
    let module = format!("3 ***TITLE\nA\n5 100 ***EXT\n{}1 ***END\nA\n", letters.concat());
    let count = LONGEST_FILE / divisor / module.len();
    let file = padded(module.repeat(count), LONGEST_FILE / divisor);
    let mut state = table_of(230);
    for letter in b'A'..=b'Z' {
        Lent.force(&mut state, &[letter]);
    }
    let size = format!("{} externals, {} bytes", 64 * count, file.len());
    Input { size, state, job: Job::Load(file.into()), expected: 0 }
}

/// Free modules of 64 externals that are in the table of 250: in each module others, and in no order.
fn old_externals(divisor: usize) -> Input {
    let mut rng = Rng::new(64);
    let mut names = scattered_names(SCATTERED);
    externals_beside_250(divisor, || {
        rng.shuffle(&mut names);
        names[..64].to_vec()
    })
}

/// The same with externals that are not in the table of 250. Six have room there, so they are mentioned again and again.
fn new_externals(divisor: usize) -> Input {
    let mut rng = Rng::new(64);
    let names = scattered_names(256);
    externals_beside_250(divisor, || (0..64).map(|_| *rng.pick(&names[SCATTERED..])).collect())
}

/// Modules of the externals that are handed out for each, until the file is full. The table has 250 symbols at every size.
fn externals_beside_250(divisor: usize, mut externals: impl FnMut() -> Vec<Name>) -> Input {
    let length = LONGEST_FILE / divisor;
    let (mut file, mut count) = (String::new(), 0);
    loop {
        let records: String = externals().iter().map(|name| format!("{name}\n")).collect();
        let module = format!("3 ***TITLE\nA\n5 100 ***EXT\n{records}1 ***END\nA\n");
        if file.len() + module.len() > length {
            break;
        }
        file += &module;
        count += 64;
    }
    let size = format!("{SCATTERED} symbols, {count} externals, {length} bytes");
    let state = state_of(&scattered_names(SCATTERED));
    Input { size, state, job: Job::Load(padded(file, length).into()), expected: 0 }
}

/// A library of as many entries as the file holds whose packed names have the same remainder by 2,039, in rising order, which
/// is the worst for chains and for trees that are not kept level. Nobody wants any of them.
fn entries_of_one_remainder(divisor: usize) -> Input {
    let length = LONGEST_FILE / divisor - 18;
    // More names than fit; a name of fewer characters makes a shorter record, so the shortest ones are taken.
    let shortest: Vec<Name> = Alphabet::OLD.of_remainder(0).take(length / 10).collect();
    let fit = entry_modules(&shortest, length).1;
    let mut names = shortest[..fit].to_vec();
    names.sort_unstable();
    let (section, count) = entry_modules(&names, length);
    let file = format!("6 ***LSB\n{section}7 ***LEB\n");
    let size = format!("{count} entries, {} bytes", file.len());
    Input { size, state: fresh(), job: Job::Load(file.into()), expected: 0 }
}

/// The last title has a character too many, which no name has.
pub fn refused_by_reading(divisor: usize) -> Input {
    let mut file = modules_file(LONGEST_FILE / divisor - 8).trim_end().to_string();
    file = padded(file + "/", LONGEST_FILE / divisor);
    Input { size: format!("{} bytes", file.len()), state: fresh(), job: Job::Load(file.into()), expected: 19 }
}

fn refused_by_walk(divisor: usize) -> Input {
    let again = "3 ***TITLE\nZ\n4 1 ***ENTRY\nN0 0 0\n1 ***END\nZ\n";
    let mut file = modules_file(LONGEST_FILE / divisor - again.len()).trim_end().to_string();
    file = padded(file + "\n" + again, LONGEST_FILE / divisor);
    Input { size: format!("{} bytes", file.len()), state: fresh(), job: Job::Load(file.into()), expected: 13 }
}

/// The name that was mentioned last.
fn force_old(divisor: usize) -> Input {
    let names = scattered_names(SCATTERED / divisor);
    let name = names[names.len() - 1].to_string();
    Input {
        size: format!("{} symbols", names.len()),
        state: state_of(&names),
        job: Job::Force(name.into()),
        expected: 0,
    }
}

fn end(divisor: usize) -> Input {
    Input { size: format!("{} words", 4096 / divisor), state: full_state(divisor), job: Job::End, expected: 0 }
}

fn memory(divisor: usize) -> Input {
    let size = format!("{} symbols, {} words", 256 / divisor, 4096 / divisor);
    Input { size, state: full_state(divisor), job: Job::Memory, expected: 0 }
}

/// The worst case for HIGH, which is looked for at every address; there is only one size of it.
fn memory_of_nothing(_divisor: usize) -> Input {
    Input { size: "no symbols, no words".into(), state: fresh(), job: Job::Memory, expected: 0 }
}

/// Symbols all over the table, every second one defined, and words that refer to each of them.
fn full_state(divisor: usize) -> Vec<u64> {
    let (symbols, words) = (256 / divisor, 4096 / divisor);
    let mut state = table_of(symbols);
    for i in (0..symbols).step_by(2) {
        state[VALUES.start + i] = DEFINED + i as u64;
    }
    for address in 0..words {
        state[TEXTS.start + address] = 0x0123_4567_89AB_CDEF ^ (address as u64);
        state[TAGS.start + address] = if address % 2 == 0 { PLAIN } else { REFERENCE + (address / 2 % symbols) as u64 };
    }
    state[NEXT] = words as u64;
    state
}

/// A state of undefined symbols, under names that no file here has.
fn table_of(symbols: usize) -> Vec<u64> {
    let name = |i| Name::parse(format!("QQ{i:04}").as_bytes()).expect("a legal name");
    state_of(&(0..symbols).map(name).collect::<Vec<_>>())
}

/// A state of undefined symbols.
fn state_of(names: &[Name]) -> Vec<u64> {
    let mut state = fresh();
    state[COUNT] = names.len() as u64;
    for (cell, name) in state[NAMES].iter_mut().zip(names) {
        *cell = name.packed();
    }
    state
}

/// The symbols in the table of the rows that have them in no order.
const SCATTERED: usize = 250;

/// Names of six characters, from all over the alphabet and in no order; the same ones in front, however many are asked for.
fn scattered_names(count: usize) -> Vec<Name> {
    let mut rng = Rng::new(6);
    let mut number = || Alphabet::OLD.packed_at(6, rng.next() % Alphabet::OLD.count_of_length(6));
    (0..count).map(|_| Name::from_packed(number()).expect("a legal name")).collect()
}

fn name(i: usize) -> String {
    format!("N{i}")
}

/// Module i of a chain, where each one needs the next.
fn chained(i: usize, count: usize, words: usize) -> String {
    let needs = if i + 1 < count { format!("5 1 ***EXT\n{}\n", name(i + 1)) } else { String::new() };
    let code = if words > 0 { code(words, usize::from(i + 1 < count)) } else { String::new() };
    format!("3 ***TITLE\nM{i}\n4 1 ***ENTRY\n{} 0 1 0\n{needs}{code}1 ***END\nM{i}\n", name(i))
}

/// One module whose only block has plain words as long as the file has room; `line` writes word i.
fn block_of_words(line: impl Fn(usize) -> String) -> Input {
    let end = "1 ***END\nA\n";
    let (mut records, mut count) = (String::new(), 0);
    while count < 4096 {
        let next = line(count);
        // the headers in front have less than 40 bytes
        if records.len() + next.len() + end.len() + 40 > LONGEST_FILE {
            break;
        }
        records += &next;
        count += 1;
    }
    let file = padded(format!("3 ***TITLE\nA\n0 {count:o} 0 ***CODE\n{records}{end}"), LONGEST_FILE);
    Input { size: format!("{count} words"), state: fresh(), job: Job::Load(file.into()), expected: 0 }
}

/// Numbers of every length.
pub fn plain_words() -> Input {
    let mut rng = Rng::new(4);
    let numbers: Vec<u64> = (0..4 * 4096).map(|_| (rng.next() % 65_536) >> (rng.next() % 12)).collect();
    block_of_words(move |i| {
        let quarters: Vec<String> = numbers[4 * i..4 * i + 4].iter().map(|number| format!("{number:o}")).collect();
        quarters.join(" ") + "\n"
    })
}

/// Six digits each, in columns, under lines that end in CR LF.
pub fn words_in_columns() -> Input {
    let mut rng = Rng::new(5);
    let numbers: Vec<u64> = (0..4 * 4096).map(|_| rng.next() % 65_536).collect();
    block_of_words(move |i| {
        let quarters: Vec<String> = numbers[4 * i..4 * i + 4].iter().map(|number| format!("  {number:06o}")).collect();
        quarters.concat() + "\r\n"
    })
}

/// A full file of modules with their fields in columns and names at the margin, as the object module of source 000, Figure 4-2, is printed.
pub fn modules_in_columns() -> Input {
    let mut file = String::new();
    for line in modules_file(LONGEST_FILE).lines() {
        let fields: Vec<&str> = line.split_whitespace().collect();
        let margin =
            if fields.first().is_some_and(|first| first.starts_with(char::is_alphabetic)) { "" } else { "      " };
        file += &format!("{margin}{}\n", fields.join("      "));
    }
    // whole modules alone
    let end = file[..LONGEST_FILE].rfind("      3      ***TITLE").expect("a module");
    let file = padded(file[..end].to_string(), LONGEST_FILE);
    Input { size: format!("{} bytes", file.len()), state: fresh(), job: Job::Load(file.into()), expected: 0 }
}

/// Modules with nothing in them.
pub fn headers_alone() -> Input {
    let module = "3 ***TITLE\nA\n1 ***END\nA\n";
    let file = padded(module.repeat(LONGEST_FILE / module.len()), LONGEST_FILE);
    Input {
        size: format!("{} modules", LONGEST_FILE / module.len()),
        state: fresh(),
        job: Job::Load(file.into()),
        expected: 0,
    }
}

/// One module with a block of data.
pub fn data_records() -> Input {
    let (record, count) = ("1234 567\n", 7_000);
    let file = format!("3 ***TITLE\nA\n10 {count:o} DATA 0 ***DBDB\n{}1 ***END\nA\n", record.repeat(count));
    let file = padded(file, LONGEST_FILE);
    Input { size: format!("{count} records"), state: fresh(), job: Job::Load(file.into()), expected: 0 }
}

/// The first line is no header.
pub fn refused_at_once() -> Input {
    let file = String::from("/\n") + &modules_file(LONGEST_FILE - 2);
    Input { size: format!("{} bytes", file.len()), state: fresh(), job: Job::Load(file.into()), expected: 20 }
}

/// A CODE block with numbers as an assembler writes them. Every fourth word refers to an external.
fn code(words: usize, externals: usize) -> String {
    let mut block = format!("0 {words:o} 0 ***CODE\n");
    for i in 0..words {
        let quarters = format!("{:o} {:o} {:o} {:o}", 0o40104 + i, i * 512 % 65_536, 0o1210, i * 8);
        block += &match externals {
            1.. if i % 4 == 0 => format!("* {quarters} 0 5 {:o}\n", i / 4 % externals + 1),
            _ => quarters + "\n",
        };
    }
    block
}

fn modules_file(length: usize) -> String {
    let mut file = String::new();
    for i in 0.. {
        let externals = format!("5 2 ***EXT\n{}\n{}\n", name(i / 2), name(i + 1));
        let next =
            format!("3 ***TITLE\nM{i}\n4 1 ***ENTRY\n{} 1 1 3\n{externals}{}1 ***END\nM{i}\n", name(i), code(20, 2));
        if file.len() + next.len() > length {
            break;
        }
        file += &next;
    }
    padded(file, length)
}

/// Modules of 64 entries, all different, in at most so many bytes; and how many entries there are.
fn unwanted_modules(bytes: usize) -> (String, usize) {
    entry_modules(&short_names(), bytes)
}

/// Modules of 64 entries each, as many as the bytes and the names suffice for; and how many entries there are.
fn entry_modules(names: &[impl Display], bytes: usize) -> (String, usize) {
    let mut modules = String::new();
    let mut used = 0;
    for names in names.chunks_exact(64) {
        let records: String = names.iter().map(|name| format!("{name} 0 0\n")).collect();
        let next = format!("3 ***TITLE\nA\n4 100 ***ENTRY\n{records}1 ***END\nA\n");
        if modules.len() + next.len() > bytes {
            break;
        }
        modules += &next;
        used += 64;
    }
    (modules, used)
}

/// Names by length, none of them one of a chain.
fn short_names() -> Vec<String> {
    let letters: Vec<char> = ('A'..='Z').collect();
    let others: Vec<char> = ('A'..='Z').chain('0'..='9').collect();
    let one = letters.iter().map(|a| a.to_string());
    let two = letters.iter().flat_map(|a| others.iter().map(move |b| format!("{a}{b}")));
    let pairs: Vec<String> = two.clone().collect();
    let three = pairs.iter().flat_map(|ab| others.iter().map(move |c| format!("{ab}{c}")));
    let in_chain = |name: &String| name.starts_with('N');
    one.chain(two).chain(three).filter(|name| !in_chain(name)).take(16_384).collect()
}

/// Fills a file up with lines of spaces.
fn padded(mut file: String, length: usize) -> String {
    while file.len() < length {
        let spaces = (length - file.len() - 1).min(79);
        file += &" ".repeat(spaces);
        file.push('\n');
    }
    file
}
