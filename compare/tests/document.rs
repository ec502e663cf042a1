//! The runs P1 to P10 of document 01, of which request 3/14 reads P6 and P10 as 18, and the paper's slips that lie close at
//! hand.

mod common;
use common::*;

use compare::answer::Reason;
use compare::linker::Linker;

fn p1() -> Linker {
    loaded(&format!("{MAIN}{LIBRARY}"))
}

#[test]
fn p1_the_library_is_searched_in_three_rounds() {
    assert_eq!(load(&format!("{MAIN}{LIBRARY}")), Ok(3));
    assert_eq!(p1().high(), 4);
}

#[test]
fn p1_in_two_loads() {
    let mut linker = Linker::new();
    assert_eq!(linker.load(MAIN.as_bytes()), Ok(0));
    assert_eq!(linker.load(LIBRARY.as_bytes()), Ok(3));
    assert_eq!(linker, p1());
}

#[test]
fn p2_symbols_in_order() {
    let expected = [("MAIN", 0), ("SQ", 3), ("LOW", 4)].map(|(name, value)| (name.to_string(), Some(value)));
    assert_eq!(symbols(&p1()), expected);
    assert_eq!(undefined(&p1()), []);
}

#[test]
fn p3_the_image() {
    let expected = hex("57 0000 0001 0002 0003 0004
                        57 0001 0000 0000 0000 0002
                        57 0002 0000 0000 0000 0008
                        57 0003 0000 0000 0000 0006
                        57 0004 0007 0007 0007 0007
                        45 0004 0000");
    assert_eq!(expected.len(), 60);
    assert_eq!(image(&p1()), expected);
}

#[test]
fn p4_main_alone() {
    let linker = loaded(MAIN);
    assert_eq!(undefined(&linker), [("SQ".to_string(), 1)]);
    assert_eq!(image(&linker), hex("57 0000 0001 0002 0003 0004  57 0001 0000 0000 0000 FFFF  45 0001 0001"));
}

#[test]
fn p5_the_empty_file() {
    let mut linker = p1();
    assert_eq!(linker.load(b""), Ok(0));
    assert_eq!(linker, p1());
}

#[test]
fn p6_numbers() {
    let file = |quarter: &str| module("A", &format!("0 1 0 ***CODE\n0 0 0 {quarter}\n"));
    assert_eq!(load(&file("177777")), Ok(0));
    assert_eq!(load(&file("200000")), bad(Reason::Number, 4, 7));
    assert_eq!(load(&file("8")), bad(Reason::Number, 4, 7));
}

#[test]
fn p7_the_end_of_program_memory() {
    let mut at_end = Linker::new();
    at_end.base(4095).unwrap();
    let mut two = at_end.clone();
    assert_eq!(two.load(module("A", &code(0, 2)).as_bytes()), refused(Reason::Room, 1));
    assert_eq!(at_end.load(module("A", &code(0, 1)).as_bytes()), Ok(0));
    assert_eq!(at_end.high(), 4095);
    assert_eq!(at_end.load(module("B", &entries(&["B"])).as_bytes()), Ok(0));
    assert_eq!(at_end.high(), 4095);
    assert_eq!(at_end.load(module("C", &code(0, 1)).as_bytes()), refused(Reason::Room, 1));
}

#[test]
fn p8_overlap_breaks_the_state() {
    let mut linker = p1();
    linker.base(0).unwrap();
    let other = MAIN.replace("MAIN", "OTHER");
    assert_eq!(linker.load(other.as_bytes()), refused(Reason::Overlap, 1));
    assert_eq!(symbols(&linker), symbols(&p1()));
    assert_eq!(linker.load(b""), refused(Reason::Reset, 0));
    assert_eq!(linker.load(MAIN.as_bytes()), refused(Reason::Reset, 0));
    linker.reset();
    assert_eq!(linker.load(MAIN.as_bytes()), Ok(0));
}

#[test]
fn p9_an_entry_twice_in_a_library() {
    let low = module("LOW", "4 1 ***ENTRY\nLOW 0 1 0\n0 1 0 ***CODE\n7 7 7 7\n");
    assert_eq!(load(&section(&low)), Ok(1));
    assert_eq!(load(&section(&format!("{low}{low}"))), refused(Reason::Duplicate, 1));
}

#[test]
fn p10_sub_records_of_an_fpb_record() {
    let three = module("A", "12 1 ***FPB\n1 1 3\n1 1\n1 1\n1 1\n");
    assert_eq!(load(&three), Ok(0));
    let two = module("A", "12 1 ***FPB\n1 1 3\n1 1\n1 1\n");
    assert_eq!(load(&two), bad(Reason::Number, 7, 3));
}

#[test]
fn slip_counts_are_octal() {
    assert_eq!(load(&module("A", &code(0, 8))), Ok(0));
    assert!(code(0, 8).starts_with("0 10 0 "));
    assert_eq!(loaded(&module("A", &code(8, 1))).high(), 8);
}

#[test]
fn slip_absolute_entries_stay() {
    let mut linker = Linker::new();
    linker.base(100).unwrap();
    linker.load(module("A", "4 2 ***ENTRY\nA 5 0\nB 5 1 0\n").as_bytes()).unwrap();
    assert_eq!(symbols(&linker), [("A".to_string(), Some(5)), ("B".to_string(), Some(105))]);
}

#[test]
fn slip_a_round_that_took_something_is_followed_by_another() {
    // C needs B and B needs A, in the worst order: three rounds take one module each, the fourth none.
    let modules = module("A", &entries(&["A"]))
        + &module("B", &(entries(&["B"]) + &externals(&["A"])))
        + &module("C", &(entries(&["C"]) + &externals(&["B"])));
    let mut linker = Linker::new();
    linker.force(b"C").unwrap();
    assert_eq!(linker.load(section(&modules).as_bytes()), Ok(4));
    assert_eq!(undefined(&linker), []);
}

#[test]
fn slip_the_fourth_quarter_wraps() {
    let file =
        module("A", "5 1 ***EXT\nB\n0 1 0 ***CODE\n* 0 0 0 177777 0 5 1\n") + &module("B", "4 1 ***ENTRY\nB 3 0\n");
    assert_eq!(image(&loaded(&file)), hex("57 0000 0000 0000 0000 0002  45 0000 0000"));
}

#[test]
fn slip_a_half_walked_file_leaves_no_symbol() {
    let mut linker = Linker::new();
    let file = module("A", &(entries(&["A"]) + &code(0, 1))) + &module("A", &entries(&["A"]));
    assert_eq!(linker.load(file.as_bytes()), refused(Reason::Duplicate, 9));
    assert_eq!(symbols(&linker), []);
    assert_eq!(linker.high(), 65535);
    assert_eq!(linker.load(b""), refused(Reason::Reset, 0));
}
