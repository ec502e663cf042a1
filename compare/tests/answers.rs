//! Each number of the list of answers, in the order of its tests, and the open points that were decided. What request 3/14
//! made of 6 is in `faults.rs`.

mod common;
use common::*;

use compare::answer::Reason;
use compare::calls::{CallAnswer, Calls, EndAnswer, LoadAnswer, MemoryAnswer, SymbolAnswer, UndefinedAnswer};
use compare::lent::Lent;
use compare::linker::Linker;
use compare::memory::{self, BROKEN, FROZEN, MARK, STATE_CELLS, WORK_CELLS};

const JUNK: u64 = 0xDEAD_BEEF;

fn state_of(linker: &Linker) -> Vec<u64> {
    let mut cells = vec![JUNK; STATE_CELLS];
    memory::encode(linker, &mut cells);
    cells
}

/// LOAD with work memory of the right length, which must come back zero.
fn load_lent(state: &mut [u64], file: &str) -> LoadAnswer {
    let mut work = vec![JUNK; WORK_CELLS];
    let answer = Lent.load(state, &mut work, file.as_bytes());
    assert!(work.iter().all(|&cell| cell == 0));
    answer
}

fn refused_load(number: u64, line: u64) -> LoadAnswer {
    LoadAnswer { number, line, ..LoadAnswer::default() }
}

#[test]
fn done_on_lent_memory() {
    let mut state = memory::fresh();
    assert_eq!(load_lent(&mut state, &format!("{MAIN}{LIBRARY}")), LoadAnswer { rounds: 3, ..LoadAnswer::default() });
    assert_eq!(state, state_of(&loaded(&format!("{MAIN}{LIBRARY}"))));
    assert_eq!(Lent.memory(&state), MemoryAnswer { number: 0, line: 0, high: 4 });
    assert_eq!(Lent.force(&mut state, b"NEW"), CallAnswer::default());
    let sq = SymbolAnswer { name: name("SQ").packed(), value: 3, defined: 1, ..SymbolAnswer::default() };
    assert_eq!(Lent.symbols(&state, 1), sq);
    let new = UndefinedAnswer { name: name("NEW").packed(), highest: 65535, ..UndefinedAnswer::default() };
    assert_eq!(Lent.undefined(&state, 0), new);
    for index in [4, 5, u64::MAX] {
        assert_eq!(Lent.symbols(&state, index), SymbolAnswer { none: 1, ..SymbolAnswer::default() });
        assert_eq!(Lent.undefined(&state, index), UndefinedAnswer { none: 1, ..UndefinedAnswer::default() });
    }
}

#[test]
fn number_1_wrong_lengths() {
    for length in [0, STATE_CELLS - 1, STATE_CELLS + 1] {
        let mut state = vec![JUNK; length];
        let mut work = vec![JUNK; WORK_CELLS];
        assert_eq!(Lent.load(&mut state, &mut work, b""), refused_load(1, 0));
        assert!(work.iter().all(|&cell| cell == 0), "work memory of the right length is cleared all the same");
        assert_eq!(Lent.force(&mut state, b"A").number, 1);
        assert_eq!(Lent.base(&mut state, 0).number, 1);
        assert_eq!(Lent.reset(&mut state).number, 1);
        assert_eq!(Lent.memory(&state).number, 1);
        assert_eq!(Lent.symbols(&state, 0).number, 1);
        assert_eq!(Lent.undefined(&state, 0).number, 1);
        assert_eq!(Lent.end(&mut state, &mut [0; 5]).number, 1);
        assert_eq!(state, vec![JUNK; length]);
    }
    for length in [0, WORK_CELLS - 1, WORK_CELLS + 1] {
        let mut work = vec![JUNK; length];
        let mut state = vec![JUNK; STATE_CELLS];
        assert_eq!(Lent.load(&mut state, &mut work, b""), refused_load(1, 0), "before 2");
        assert_eq!(work, vec![JUNK; length]);
    }
}

#[test]
fn number_2_damaged_states() {
    let mut state = memory::fresh();
    state[3] = 1;
    let damaged = state.clone();
    assert_eq!(load_lent(&mut state, "8"), refused_load(2, 0));
    assert_eq!(Lent.force(&mut state, b"a").number, 2);
    assert_eq!(Lent.base(&mut state, 4096).number, 2);
    assert_eq!(Lent.memory(&state), MemoryAnswer { number: 2, ..MemoryAnswer::default() });
    assert_eq!(Lent.symbols(&state, 0), SymbolAnswer { number: 2, ..SymbolAnswer::default() });
    assert_eq!(Lent.undefined(&state, 0), UndefinedAnswer { number: 2, ..UndefinedAnswer::default() });
    assert_eq!(Lent.end(&mut state, &mut []).number, 2);
    assert_eq!(state, damaged);
    assert_eq!(Lent.reset(&mut state).number, 0);
    assert_eq!(state, memory::fresh());
}

#[test]
fn number_3_broken() {
    let mut state = memory::fresh();
    state[MARK] = BROKEN;
    let broken = state.clone();
    assert_eq!(load_lent(&mut state, "8"), refused_load(3, 0));
    assert_eq!(Lent.force(&mut state, b"a").number, 3);
    assert_eq!(Lent.base(&mut state, 4096).number, 3);
    assert_eq!(Lent.end(&mut state, &mut []), EndAnswer { number: 3, ..EndAnswer::default() });
    assert_eq!(Lent.memory(&state).number, 0);
    assert_eq!(Lent.symbols(&state, 0).number, 0);
    assert_eq!(Lent.undefined(&state, 0).number, 0);
    assert_eq!(state, broken);
}

#[test]
fn number_4_frozen() {
    let mut state = memory::fresh();
    state[MARK] = FROZEN;
    let frozen = state.clone();
    let too_long = "\n".repeat(65_537);
    assert_eq!(load_lent(&mut state, &too_long), refused_load(4, 0));
    assert_eq!(Lent.force(&mut state, b"a").number, 4);
    assert_eq!(Lent.base(&mut state, 4096).number, 4);
    assert_eq!(Lent.end(&mut state, &mut [0; 5]), EndAnswer { length: 5, ..EndAnswer::default() });
    assert_eq!(Lent.memory(&state).number, 0);
    assert_eq!(state, frozen);
}

#[test]
fn number_5_too_long() {
    let mut state = memory::fresh();
    assert_eq!(load_lent(&mut state, &"\n".repeat(65_536)), LoadAnswer::default());
    assert_eq!(load_lent(&mut state, &"8".repeat(65_537)), refused_load(5, 0));
    assert_eq!(state, memory::fresh(), "no broken mark");
}

#[test]
fn lines_that_are_read() {
    let cases = [
        " ".repeat(80),
        "6 ***LSB\r\n7 ***LEB".into(),
        " 000006   ***LSB  \n\n   \n 07 ***LEB".into(),
        module("A", "000010 0 A 0 ***DBDB\n"),
        module("A", "4 1 ***ENTRY\nA 0 00\n"),
        module("A", "4 1 ***ENTRY\nA 0 1 177777\n"),
        module("A", "13 1 ***AENTRY\nA 0 0\n"),
        module("A", "0 0 177777 ***CODE\n"),
        module("A", "0 1 0 ***CODE\n* 1 2 3 4 00 1 177777\n"),
        module("A", "0 4 0 ***CODE\n* 0 0 0 0 0 1 1\n* 0 0 0 0 0 2 1\n* 0 0 0 0 0 3 1\n* 0 0 0 0 0 4 0\n"),
        module("A", "11 1 ***DBIB\na ~ *** 8 200000\n"),
        module("A", "12 2 ***FPB\n1 1 7\n1 1\n1 1\n1 1\n1 1\n1 1\n1 1\n1 1\n2 2 0\n"),
    ];
    for file in cases {
        assert!(load(&file).is_ok(), "{file:?}: {:?}", load(&file));
    }
}

#[test]
fn number_7_places() {
    let cases = [
        ("1 ***END".into(), 1),
        ("0 0 0 ***CODE".into(), 1),
        ("4 0 ***ENTRY".into(), 1),
        ("12 0 ***FPB".into(), 1),
        ("7 ***LEB".into(), 1),
        ("6 ***LSB\n6 ***LSB".into(), 2),
        ("6 ***LSB\n0 0 0 ***CODE".into(), 2),
        (module("A", "3 ***TITLE\n"), 3),
        (module("A", "6 ***LSB\n"), 3),
        (section(&module("A", "7 ***LEB\n")), 4),
        (module("A", "").replace("END\nA", "END\nB"), 4),
        // the file ends too soon
        ("6 ***LSB".into(), 2),
        ("6 ***LSB\n\n    \n".into(), 4),
        ("3 ***TITLE".into(), 2),
        ("3 ***TITLE\nA\n".into(), 3),
        ("3 ***TITLE\nA\n1 ***END\n".into(), 4),
        ("3 ***TITLE\nA\n0 2 0 ***CODE\n1 1 1 1\n".into(), 5),
        ("3 ***TITLE\nA\n4 177777 ***ENTRY\n".into(), 4),
    ];
    for (file, line) in cases {
        assert_eq!(load(&file), refused(Reason::Place, line), "{file:?}");
    }
}

#[test]
fn number_8_lists() {
    let names: Vec<String> = (0..257).map(|i| format!("N{i}")).collect();
    let names: Vec<&str> = names.iter().map(String::as_str).collect();
    assert!(load(&module("A", &entries(&names[..64]))).is_ok());
    assert_eq!(load(&module("A", &entries(&names[..65]))), refused(Reason::List, 68));
    let both = entries(&names[..40]) + &entries(&names[40..65]).replace("4 31 ***ENTRY", "13 31 ***AENTRY");
    assert_eq!(load(&module("A", &both)), refused(Reason::List, 69));
    let wrong = entries(&names[..65]).replace("N64 0 0", "N64 0 8");
    assert_eq!(load(&module("A", &wrong)), bad(Reason::Number, 68, 7), "a fault of the line comes before 8");
    assert!(load(&module("A", &externals(&names[..64]))).is_ok());
    assert_eq!(load(&module("A", &externals(&names[..65]))), refused(Reason::List, 68));
    assert_eq!(load(&module("A", &externals(&["A"; 65]))), refused(Reason::List, 68), "a repeated name counts again");
    assert_eq!(load(&section(&module("A", "").repeat(256))), Ok(1));
    assert_eq!(load(&section(&module("A", "").repeat(257))), refused(Reason::List, 256 * 4 + 2));
    assert_eq!(load(&module("A", "").repeat(257)), Ok(0), "free modules are not counted");
}

#[test]
fn number_9_room() {
    assert_eq!(load(&module("A", &code(0, 4096))), Ok(0));
    assert_eq!(load(&module("A", &code(0, 4097))), refused(Reason::Room, 1));
    assert_eq!(load(&module("A", &code(4095, 1))), Ok(0));
    assert_eq!(load(&module("A", &code(4096, 1))), refused(Reason::Room, 1));
    assert_eq!(load(&module("A", &code(65535, 2))), refused(Reason::Room, 1));
    // before 10 to 14
    let all = "5 1 ***EXT\nB\n0 2 10000 ***CODE\n* 0 0 0 0 0 5 2\n0 0 0 0\n0 1 10000 ***CODE\n0 0 0 0\n4 2 ***ENTRY\nA 177777 1 0\nA 0 0\n";
    assert_eq!(load(&module("A", all)), refused(Reason::Room, 1));
}

#[test]
fn number_10_overlap() {
    assert_eq!(load(&module("A", &(code(0, 2) + &code(1, 1)))), refused(Reason::Overlap, 1));
    let mut linker = Linker::new();
    linker.load(module("A", &(code(0, 1) + &code(2, 1))).as_bytes()).unwrap();
    linker.base(1).unwrap();
    assert_eq!(linker.load(module("B", &code(0, 1)).as_bytes()), Ok(0), "a gap holds another module's word");
    linker.base(1).unwrap();
    assert_eq!(linker.load(module("B", &code(0, 1)).as_bytes()), refused(Reason::Overlap, 1));
}

#[test]
fn number_11_arg() {
    let with = |arg: &str| module("A", &format!("0 1 0 ***CODE\n* 0 0 0 0 0 5 {arg}\n5 2 ***EXT\nB\nB\n"));
    assert_eq!(load(&with("2")), Ok(0), "EXT blocks may follow, and a repeated name counts again");
    assert_eq!(load(&with("0")), refused(Reason::Arg, 1));
    assert_eq!(load(&with("3")), refused(Reason::Arg, 1));
    assert_eq!(load(&section(&with("3"))), Ok(1), "never told of a module that is not taken");
    let clash = module("A", &("0 1 0 ***CODE\n* 0 0 0 0 0 5 1\n".to_string() + &code(0, 1)));
    assert_eq!(load(&clash), refused(Reason::Overlap, 1), "10 before 11");
}

#[test]
fn number_12_range() {
    let mut linker = Linker::new();
    linker.base(1).unwrap();
    let entry = |value: &str, kind: &str| module("A", &format!("4 1 ***ENTRY\nA {value} {kind}\n"));
    assert_eq!(linker.clone().load(entry("177776", "1 0").as_bytes()), Ok(0));
    assert_eq!(linker.clone().load(entry("177777", "1 0").as_bytes()), refused(Reason::Range, 1));
    assert_eq!(linker.clone().load(entry("177777", "0").as_bytes()), Ok(0));
    let twice = module("A", "4 2 ***ENTRY\nA 0 0\nA 177777 1 0\n");
    assert_eq!(linker.clone().load(twice.as_bytes()), refused(Reason::Range, 1), "12 before 13");
    assert_eq!(linker.base(4095), Ok(()));
    let too_high = Reason::Range.into();
    for address in [4096, 65536, u64::MAX] {
        assert_eq!(linker.base(address), Err(too_high));
    }
    assert_eq!(linker.load(module("A", &code(0, 1)).as_bytes()), Ok(0));
    assert_eq!(linker.high(), 4095, "a refused BASE leaves the next address");
}

#[test]
fn number_13_duplicate() {
    let a = module("A", &entries(&["A"]));
    assert_eq!(load(&module("A", &entries(&["A", "A"]))), refused(Reason::Duplicate, 1));
    assert_eq!(load(&(a.clone() + &a)), refused(Reason::Duplicate, 7));
    // in a section: at its LSB, also twice in one module, but after an earlier free module's fault
    assert_eq!(load(&section(&module("A", &entries(&["A", "A"])))), refused(Reason::Duplicate, 1));
    let room = module("R", &code(4096, 1));
    assert_eq!(load(&(room.clone() + &section(&(a.clone() + &a)))), refused(Reason::Room, 1));
    assert_eq!(load(&(section(&(a.clone() + &a)) + &room)), refused(Reason::Duplicate, 1));
    // one entry wanted and one defined already
    let both = module("A", &externals(&["B"])) + &a + &section(&module("AB", &entries(&["A", "B"])));
    assert_eq!(load(&both), refused(Reason::Duplicate, 6 + 6 + 2));
    // a symbol defined outside may be an entry of a module that nobody wants
    assert_eq!(load(&(a.clone() + &section(&a))), Ok(1));
}

#[test]
fn number_14_table() {
    let names: Vec<String> = (0..257).map(|i| format!("N{i}")).collect();
    let names: Vec<&str> = names.iter().map(String::as_str).collect();
    let mut file = String::new();
    for chunk in names[..256].chunks(64) {
        file += &module("A", &entries(chunk));
    }
    let mut full = loaded(&file);
    assert_eq!(symbols(&full).len(), 256);
    assert_eq!(full.force(b"N7"), Ok(()));
    assert_eq!(full.force(b"NEW"), Err(Reason::Table.into()));
    assert_eq!(full.force(b"new"), Err(Reason::Name.into()), "15 before 14");
    assert_eq!(full.clone().load(module("A", &externals(&["N0", "N255"])).as_bytes()), Ok(0));
    assert_eq!(full.clone().load(module("A", &externals(&["N256"])).as_bytes()), refused(Reason::Table, 1));
    assert_eq!(full.clone().load(module("A", &entries(&["N256"])).as_bytes()), refused(Reason::Table, 1));
    let known = module("A", &(externals(&["N256"]) + &entries(&["N0"])));
    assert_eq!(full.load(known.as_bytes()), refused(Reason::Duplicate, 1), "13 before 14");
}

#[test]
fn number_15_name() {
    let mut linker = Linker::new();
    for text in ["", "a", "1A", ".A", "$", "ABCDEFG", "A ", "A-B", "\0"] {
        assert_eq!(linker.force(text.as_bytes()), Err(Reason::Name.into()), "{text:?}");
    }
    assert_eq!(linker, Linker::new());
}

#[test]
fn number_16_out() {
    let mut state = state_of(&loaded(MAIN));
    let before = state.clone();
    let mut short = [0xAA; 26];
    assert_eq!(Lent.end(&mut state, &mut short), EndAnswer { number: 16, ..EndAnswer::default() });
    assert_eq!((&state, short), (&before, [0xAA; 26]), "a refusal does not freeze");
    let mut long = [0xAA; 30];
    assert_eq!(Lent.end(&mut state, &mut long), EndAnswer { length: 27, ..EndAnswer::default() });
    assert_eq!(long[..27], image(&loaded(MAIN)));
    assert_eq!(long[27..], [0xAA; 3]);
    assert_eq!(state[MARK], FROZEN);
    let mut again = [0; 27];
    assert_eq!(Lent.end(&mut state, &mut again), EndAnswer { length: 27, ..EndAnswer::default() });
    assert_eq!(again, long[..27]);
}

#[test]
fn entry_and_external_of_one_module_are_one_symbol() {
    let linker = loaded(&module("A", &(externals(&["B", "A"]) + &entries(&["A"]))));
    assert_eq!(symbols(&linker), [("A".to_string(), Some(0)), ("B".to_string(), None)]);
}

#[test]
fn a_later_entry_completes_an_earlier_word() {
    let mut linker = loaded(MAIN);
    linker.load(module("SQ", "4 1 ***ENTRY\nSQ 10 0\n").as_bytes()).unwrap();
    assert_eq!(image(&linker), hex("57 0000 0001 0002 0003 0004  57 0001 0000 0000 0000 0007  45 0001 0000"));
}

#[test]
fn the_highest_reference_is_told() {
    let file = module("A", "5 2 ***EXT\nB\nC\n0 3 4 ***CODE\n* 0 0 0 0 0 5 1\n* 0 0 0 0 0 5 1\n0 0 0 0\n");
    let linker = loaded(&file);
    assert_eq!(undefined(&linker), [("B".to_string(), 5), ("C".to_string(), 65535)]);
}
