//! State memory: encoding, decoding, and what is sound.

mod common;
use common::*;

use compare::linker::Linker;
use compare::memory::*;

fn cells_of(linker: &Linker) -> Vec<u64> {
    let mut cells = vec![u64::MAX; STATE_CELLS];
    encode(linker, &mut cells);
    cells
}

fn sample() -> Vec<u64> {
    let mut linker = loaded(&format!("{MAIN}{LIBRARY}"));
    linker.force(b"UNDEF").unwrap();
    cells_of(&linker)
}

#[test]
fn the_fresh_state_is_zero() {
    assert_eq!(cells_of(&Linker::new()), fresh());
    assert_eq!(decode(&fresh()), Some(Linker::new()));
}

#[test]
fn the_layout() {
    let cells = sample();
    assert_eq!(cells[..4], [4, 5, 0, 0]);
    assert_eq!(cells[4], name("MAIN").packed());
    assert_eq!(cells[260..265], [65536, 65536 + 3, 65536 + 4, 0, 0]);
    assert_eq!(cells[516..519], [0x0001_0002_0003_0004, 0x0000_0000_0000_FFFF, 0x0000_0000_0000_0008]);
    assert_eq!(cells[4612..4618], [1, 2 + 1, 1, 2 + 2, 1, 0]);
    assert_eq!(cells[4618..].iter().max(), Some(&0));
    assert_eq!(placed(&cells), 5);
}

#[test]
fn decode_and_encode_are_inverse() {
    let cells = sample();
    assert!(is_sound(&cells));
    assert_eq!(cells_of(&decode(&cells).unwrap()), cells);
    for mark in [BROKEN, FROZEN] {
        let mut marked = cells.clone();
        marked[MARK] = mark;
        assert_eq!(cells_of(&decode(&marked).unwrap()), marked);
    }
}

#[test]
fn sound_and_unsound_cells() {
    let (first_name, first_value, first_text, first_tag) = (NAMES.start, VALUES.start, TEXTS.start, TAGS.start);
    let sound = [
        (NEXT, 4096),
        (NEXT, 0),
        (MARK, 2),
        (first_name, name("Z9Z9Z9").packed()),
        (first_value, 0),
        (first_value, 131_071),
        (first_text, u64::MAX),
        (first_tag + 1, 2 + 3),
        (first_tag + 4095, 1),
    ];
    let unsound = [
        (COUNT, 3),
        (COUNT, 5),
        (COUNT, 257),
        (COUNT, u64::MAX),
        (NEXT, 4097),
        (NEXT, u64::MAX),
        (MARK, 3),
        (SPARE, 1),
        (first_name, 0),
        (first_name, name("SQ").packed()),
        (first_name, name("SQ").packed() + 1),
        (first_name, u64::from(b'A')),
        (first_name + 4, name("NEW").packed()),
        (first_value, 1),
        (first_value, 65_535),
        (first_value, 131_072),
        (first_value + 4, 65_536),
        (first_text + 5, 1),
        (first_tag, 0),
        (first_tag + 1, 2 + 4),
        (first_tag + 1, u64::MAX),
    ];
    for (pokes, expected) in [(&sound[..], true), (&unsound[..], false)] {
        for &(cell, value) in pokes {
            let mut cells = sample();
            cells[cell] = value;
            assert_eq!(is_sound(&cells), expected, "cell {cell} = {value}");
            assert_eq!(decode(&cells).is_some(), expected);
            if let Some(linker) = decode(&cells) {
                assert_eq!(cells_of(&linker), cells);
            }
        }
    }
}

#[test]
fn a_full_table() {
    let mut cells = fresh();
    cells[COUNT] = 256;
    for i in 0..256 {
        cells[NAMES.start + i] = name(&format!("N{i}")).packed();
        cells[TAGS.start + i] = REFERENCE + i as u64;
    }
    assert!(is_sound(&cells));
    cells[NAMES.start + 255] = cells[NAMES.start];
    assert!(!is_sound(&cells));
}
