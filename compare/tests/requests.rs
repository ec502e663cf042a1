//! The requests of document 02. 3/14 is in `faults.rs`, and 5/14 in `feeding.rs`. 1/14: HIGH is the highest address that holds a
//! placed word, and 65,535 where none is placed. 4/14: `$` and `.` may follow the first letter of a name; the manual's `.LOCAL` is
//! in `samples.rs`.

mod common;
use common::*;

use compare::answer::Reason;
use compare::calls::{CallAnswer, Calls, MemoryAnswer, SymbolAnswer};
use compare::lent::Lent;
use compare::linker::Linker;
use compare::memory;

/// HIGH of the linker, of MEMORY on its cells, and of the END record.
fn assert_high(linker: &Linker, high: u16) {
    assert_eq!(linker.high(), high);
    let mut state = memory::fresh();
    memory::encode(linker, &mut state);
    assert_eq!(Lent.memory(&state), MemoryAnswer { high: high.into(), ..MemoryAnswer::default() });
    let image = image(linker);
    let end_record = &image[image.len() - 5..];
    assert_eq!((end_record[0], &end_record[1..3]), (0x45, &high.to_be_bytes()[..]));
}

/// Loads a module of so many words at an address.
fn load_at(linker: &mut Linker, address: u64, words: usize) {
    linker.base(address).expect("the address is in range");
    linker.load(module("A", &code(0, words)).as_bytes()).expect("the module loads");
}

#[test]
fn high_after_a_step_back() {
    for (first, end) in [(0o200, 130), (200, 202)] {
        let mut linker = Linker::new();
        load_at(&mut linker, first, 3);
        assert_high(&linker, end);
        load_at(&mut linker, 0, 1);
        assert_high(&linker, end);
    }
}

#[test]
fn the_image_after_a_step_back() {
    let mut linker = Linker::new();
    load_at(&mut linker, 0o200, 1);
    load_at(&mut linker, 0, 1);
    let expected = hex("57 0000 0001 0002 0003 0004  57 0080 0001 0002 0003 0004  45 0080 0000");
    assert_eq!(image(&linker), expected);
}

#[test]
fn high_where_no_word_is_placed() {
    let mut linker = Linker::new();
    assert_high(&linker, 65535);
    for address in [0, 1, 4095] {
        linker.base(address).unwrap();
        assert_high(&linker, 65535);
        linker.load(module("A", &code(100, 0)).as_bytes()).unwrap();
        assert_high(&linker, 65535);
    }
    load_at(&mut linker, 7, 1);
    linker.reset();
    assert_high(&linker, 65535);
}

#[test]
fn high_of_a_word_at_either_end() {
    for address in [0, 4095] {
        let mut linker = Linker::new();
        load_at(&mut linker, address, 1);
        for next in [0, 1, 4095] {
            linker.base(next).unwrap();
            assert_high(&linker, address as u16);
        }
    }
}

#[test]
fn high_of_a_word_that_refers() {
    let file = module("A", "5 1 ***EXT\nB\n0 2 3 ***CODE\n0 0 0 0\n* 0 0 0 0 0 5 1\n");
    assert_high(&loaded(&file), 4);
}

#[test]
fn high_of_a_word_behind_a_gap() {
    let mut linker = loaded(&module("A", &(code(9, 1) + &code(0, 1))));
    assert_high(&linker, 9);
    load_at(&mut linker, 1, 8);
    assert_high(&linker, 9);
}

#[test]
fn base_and_force_change_no_high() {
    let mut linker = loaded(&format!("{MAIN}{LIBRARY}"));
    for address in [0, 4, 5, 6, 4095] {
        linker.base(address).unwrap();
        assert_high(&linker, 4);
        linker.force(format!("N{address}").as_bytes()).unwrap();
        assert_high(&linker, 4);
    }
}

#[test]
fn a_refused_load_changes_no_high() {
    let mut linker = loaded(MAIN);
    let file = module("A", &code(0, 3)) + &module("B", &code(4095, 1));
    assert_eq!(linker.load(file.as_bytes()), refused(Reason::Room, 9));
    assert_eq!(linker.high(), 1);
}

/// Two words, of which the second refers to `A.....`.
const DOLLAR: &str = "\
3 ***TITLE
A$B
10 1 L.$ 7 ***DBDB
1 1
4 1 ***ENTRY
IO.1 1 1 0
5 1 ***EXT
A.....
0 2 0 ***CODE
1 2 3 4
* 0 0 0 5 0 5 1
1 ***END
A$B
";

/// `A....` parts from `A.....` in the length alone, and nobody wants it.
const DOTS: &str = "\
6 ***LSB
3 ***TITLE
D
4 1 ***ENTRY
A.... 0 1 0
1 ***END
D
3 ***TITLE
Z.
13 1 ***AENTRY
A..... 1 1 0
5 1 ***EXT
A$$$$$
0 2 0 ***CODE
7 7 7 7
* 0 0 0 6 0 5 1
1 ***END
Z.
7 ***LEB
";

#[test]
fn a_module_and_a_library_with_dollars_and_dots() {
    let mut linker = loaded(DOLLAR);
    assert_eq!(symbols(&linker), [("IO.1".to_string(), Some(1)), ("A.....".to_string(), None)]);
    assert_eq!(undefined(&linker), [("A.....".to_string(), 1)]);
    assert_eq!(linker.load(DOTS.as_bytes()), Ok(2));
    let expected = [("IO.1".to_string(), Some(1)), ("A.....".to_string(), Some(3)), ("A$$$$$".to_string(), None)];
    assert_eq!(symbols(&linker), expected);
    assert_eq!(undefined(&linker), [("A$$$$$".to_string(), 3)]);
    let expected = hex("57 0000 0001 0002 0003 0004
         57 0001 0000 0000 0000 0008
         57 0002 0007 0007 0007 0007
         57 0003 0000 0000 0000 0006
         45 0003 0001");
    assert_eq!(image(&linker), expected);
    assert_eq!(loaded(&format!("{DOLLAR}{DOTS}")), linker, "in one file too");
}

#[test]
fn names_with_dollars_and_dots_in_state_memory() {
    let mut state = memory::fresh();
    memory::encode(&loaded(&format!("{DOLLAR}{DOTS}")), &mut state);
    assert_eq!(state[4..8], [0x494F_2E31_0000, 0x412E_2E2E_2E2E, 0x4124_2424_2424, 0]);
    assert_eq!(Lent.memory(&state).number, 0);
    let listed = SymbolAnswer { name: 0x412E_2E2E_2E2E, value: 3, defined: 1, ..SymbolAnswer::default() };
    assert_eq!(Lent.symbols(&state, 1), listed);
    // $A, .A, and the bytes beside $ and . behind a letter
    for cell in [0x2441, 0x2E41, 0x4123, 0x4125, 0x412D, 0x412F] {
        state[4] = cell << 32;
        assert_eq!(Lent.memory(&state), MemoryAnswer { number: 2, ..MemoryAnswer::default() }, "{cell:x}");
    }
}

#[test]
fn forced_dollars_and_dots() {
    let mut state = memory::fresh();
    for (name, number) in [("A$B", 0), ("IO.1", 0), ("A.....", 0), ("$A", 15), (".A", 15), ("A$B.C1D", 15)] {
        assert_eq!(Lent.force(&mut state, name.as_bytes()), CallAnswer { number, line: 0 }, "{name}");
    }
    assert_eq!(state[..8], [3, 0, 0, 0, 0x4124_4200_0000, 0x494F_2E31_0000, 0x412E_2E2E_2E2E, 0]);
}

/// `$` and `.` in front, the bytes beside them and a seventh character are refused at each place, and the rest of the line is not
/// looked at.
#[test]
fn names_that_are_no_names_yet() {
    for name in ["$A", ".A", "$", ".", "A#B", "A%B", "A-B", "A/B", "A$B.C1D", "A$b"] {
        for (file, line, column) in [
            (module(name, ""), 2, 1),
            (module("A", "").replace("END\nA", &format!("END\n{name}")), 4, 1),
            (module("A", &entries(&[name])), 4, 1),
            (module("A", &externals(&["IO.1", name])), 5, 1),
            (module("A", &format!("13 1 ***AENTRY\n {name} 8 2\n")), 4, 2),
            (module("A", &format!("10 1 {name} 8 ***DBIB\n")), 3, 6),
        ] {
            assert_eq!(load(&file), bad(Reason::Symbol, line, column), "{file}");
        }
    }
    assert_eq!(load(&module("A$B", "").replace("END\nA$B", "END\nA.B")), refused(Reason::Place, 4));
}

/// Without `$` and `.`, files and states have the answers that they had.
#[test]
fn names_of_letters_and_digits_stay() {
    let linker = loaded(&format!("{MAIN}{LIBRARY}"));
    assert_eq!(
        symbols(&linker),
        [("MAIN", 0), ("SQ", 3), ("LOW", 4)].map(|(name, value)| (name.to_string(), Some(value)))
    );
    for (name, answer) in [
        ("A", Ok(0)),
        ("ABCDE9", Ok(0)),
        ("ABCDEFG", bad(Reason::Symbol, 4, 1)),
        ("9A", bad(Reason::Symbol, 4, 1)),
        ("A_B", bad(Reason::Symbol, 4, 1)),
        ("A B", bad(Reason::Fields, 4, 3)),
    ] {
        assert_eq!(load(&module("T", &externals(&[name]))), answer, "{name}");
    }
    let mut state = memory::fresh();
    memory::encode(&linker, &mut state);
    for (cell, number) in [(0x4141_4141_4139, 0), (0x3941_0000_0000, 2), (0x4100_4100_0000, 2), (0x415F_0000_0000, 2)] {
        state[4] = cell;
        assert_eq!(Lent.memory(&state).number, number, "{cell:x}");
    }
}
