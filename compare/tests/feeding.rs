//! Request 5/14: a load that is opened, fed and closed, sentence by sentence.

mod common;
use common::*;

use compare::calls::*;
use compare::feed::{decode, encode, Feed, FEED_CELLS};
use compare::lent::Lent;
use compare::memory::{self, BROKEN, FROZEN, MARK, STATE_CELLS, WORK_CELLS};

const JUNK: u64 = 0xDEAD_BEEF;

fn zero() -> Vec<u64> {
    vec![0; FEED_CELLS]
}

/// Feed memory that an open and these pieces leave, none of them refused.
fn fed(pieces: &[&[u8]]) -> Vec<u64> {
    let mut feed = zero();
    assert_eq!(Lent.open(&mut feed), CallAnswer::default());
    pieces.iter().for_each(|piece| assert_eq!(Lent.feed(&mut feed, piece).number, 0));
    feed
}

fn filled(bytes: usize) -> Vec<u64> {
    fed(&vec![b'\n'; bytes].chunks(512).collect::<Vec<_>>())
}

/// CLOSE with work memory of the right length, which must come back zero.
fn close(feed: &mut [u64], state: &mut [u64]) -> LoadAnswer {
    let mut work = vec![JUNK; WORK_CELLS];
    let answer = Lent.close(feed, state, &mut work);
    assert!(work.iter().all(|&cell| cell == 0));
    answer
}

fn advice(advice: u64, line: u64, column: u64) -> FeedAnswer {
    FeedAnswer { number: 0, advice, line, column }
}

fn refused(number: u64) -> FeedAnswer {
    FeedAnswer { number, ..FeedAnswer::default() }
}

#[test]
fn the_cells() {
    assert_eq!(FEED_CELLS, 8193);
    let mut cells = zero();
    cells[0] = 11;
    cells[1] = u64::from_le_bytes(*b"6 ***LSB");
    cells[2] = u64::from_le_bytes([b'\r', b'\n', 0, 0, 0, 0, 0, 0]);
    assert_eq!(fed(&[b"6 ***", b"", b"LSB\r", b"\n"]), cells);
    assert_eq!(filled(0)[..2], [1, 0]);
    let full = filled(65_536);
    assert_eq!((full[0], full[8192]), (65_537, 0x0A0A_0A0A_0A0A_0A0A));
    cells = zero();
    cells[0] = 65_538;
    for total in [65_537, 66_048, 70_000] {
        assert_eq!(filled(total), cells);
    }
}

#[test]
fn what_is_sound() {
    for feed in [Feed::Idle, Feed::TooLong, Feed::Open(vec![]), Feed::Open(vec![0; 9]), Feed::Open(vec![255; 65_536])] {
        let cells = encode(&feed);
        assert_eq!(decode(&cells), Some(feed));
        for cell in [1, 2, 3, 8192] {
            let mut harmed = cells.clone();
            harmed[cell] ^= 1 << 60;
            let is_byte = cells[0] == 65_537 || cell == 1 && cells[0] == 10;
            assert_eq!(decode(&harmed).is_some(), is_byte, "cell {cell} beside {}", cells[0]);
        }
        for first in [65_539, 1 << 32, u64::MAX] {
            let mut harmed = cells.clone();
            harmed[0] = first;
            assert_eq!(decode(&harmed), None);
        }
    }
}

#[test]
fn a_close_is_one_load_of_all_bytes() {
    let file = format!("{MAIN}{LIBRARY}");
    for size in [1, 2, 7, 100, 512] {
        let (mut feed, mut state, mut loaded) = (filled(0), memory::fresh(), memory::fresh());
        file.as_bytes().chunks(size).for_each(|piece| assert_eq!(Lent.feed(&mut feed, piece), FeedAnswer::default()));
        assert_eq!(close(&mut feed, &mut state), LoadAnswer { rounds: 3, ..LoadAnswer::default() });
        Lent.load(&mut loaded, &mut vec![0; WORK_CELLS], file.as_bytes());
        assert!(state == loaded && feed == zero());
    }
}

#[test]
fn a_close_loads_from_the_state_that_is_there_then() {
    let mut feed = fed(&[LIBRARY.as_bytes()]);
    let mut state = memory::fresh();
    Lent.force(&mut state, b"CUBE");
    assert_eq!(close(&mut feed, &mut state).rounds, 2);
    assert_eq!(Lent.symbols(&state, 0).value, 5);
}

#[test]
fn the_checks_of_the_state_are_made_at_the_close() {
    for (mark, number) in [(BROKEN, 3), (FROZEN, 4), (3, 2)] {
        let mut state = memory::fresh();
        state[MARK] = mark;
        let before = state.clone();
        for mut feed in [fed(&[b"2\n"]), filled(0), filled(65_537)] {
            assert_eq!(close(&mut feed, &mut state), LoadAnswer { number, ..LoadAnswer::default() });
            assert!(feed == zero() && state == before);
        }
    }
    for length in [0, STATE_CELLS - 1, STATE_CELLS + 1] {
        let mut feed = fed(&[b"2"]);
        assert_eq!(close(&mut feed, &mut vec![JUNK; length]).number, 1);
        assert_eq!(feed, zero());
    }
    let (mut feed, mut work) = (fed(&[b"2"]), vec![JUNK; WORK_CELLS + 1]);
    assert_eq!(Lent.close(&mut feed, &mut memory::fresh(), &mut work).number, 1);
    assert!(feed == zero() && work.iter().all(|&cell| cell == JUNK));
}

#[test]
fn number_5_by_the_total() {
    for (total, number) in [(65_535, 0), (65_536, 0), (65_537, 5), (66_048, 5)] {
        let (mut feed, mut state) = (filled(total), memory::fresh());
        assert_eq!(close(&mut feed, &mut state).number, number);
        assert!(feed == zero() && state == memory::fresh());
    }
}

#[test]
fn the_piece_that_brings_the_line_end_advises() {
    let mut feed = filled(0);
    for (piece, answer) in [
        ("6 ***LSB", FeedAnswer::default()),
        (" 0", FeedAnswer::default()),
        ("\r", FeedAnswer::default()),
        ("", FeedAnswer::default()),
        ("\n2", advice(17, 1, 10)),
        ("\n2\n", FeedAnswer::default()),
    ] {
        assert_eq!(Lent.feed(&mut feed, piece.as_bytes()), answer, "{piece:?}");
    }
    let refusal = LoadAnswer { number: 17, line: 1, column: 10, rounds: 0 };
    assert_eq!(close(&mut feed, &mut memory::fresh()), refusal);
}

#[test]
fn what_is_not_advised() {
    for (file, number, line) in [("6 ***LSB\n", 7, 2), ("\n2", 20, 2), ("7 ***LEB", 7, 1), ("3 ***TITLE\nA\n", 7, 3)] {
        let mut feed = filled(0);
        assert_eq!(Lent.feed(&mut feed, file.as_bytes()), FeedAnswer::default());
        let answer = close(&mut feed, &mut memory::fresh());
        assert_eq!((answer.number, answer.line), (number, line));
    }
}

#[test]
fn advice_at_the_longest_total() {
    assert_eq!(Lent.feed(&mut filled(65_534), b"2\n"), advice(20, 65_535, 1));
    assert_eq!(Lent.feed(&mut filled(65_535), b"2\n"), FeedAnswer::default());
    assert_eq!(Lent.feed(&mut filled(65_533), b"2\n\n\n"), FeedAnswer::default());
    assert_eq!(Lent.feed(&mut filled(65_537), b"2\n"), FeedAnswer::default());
}

#[test]
fn a_drop_changes_nothing_else() {
    let mut feed = fed(&[b"2\n"]);
    assert_eq!(Lent.drop(&mut feed), CallAnswer::default());
    assert_eq!(feed, zero());
    let mut feed = filled(70_000);
    assert_eq!(Lent.drop(&mut feed), CallAnswer::default());
    assert_eq!(feed, zero());
}

/// Every call on this memory is refused, and leaves it; a close leaves the state too.
fn assert_refused(feed: &[u64], open: u64, short: u64, longer: u64, end: u64) {
    let mut cells = feed.to_vec();
    assert_eq!(Lent.open(&mut cells).number, open);
    assert_eq!(Lent.feed(&mut cells, b""), refused(short));
    assert_eq!(Lent.feed(&mut cells, b"2\n"), refused(short));
    assert_eq!(Lent.feed(&mut cells, &[b'\n'; 513]), refused(longer));
    assert_eq!(Lent.drop(&mut cells).number, end);
    for length in [STATE_CELLS, 0] {
        let mut state = vec![JUNK; length];
        assert_eq!(close(&mut cells, &mut state), LoadAnswer { number: end, ..LoadAnswer::default() });
        assert!(state.iter().all(|&cell| cell == JUNK));
    }
    assert_eq!(cells, feed);
}

#[test]
fn number_1_then_2_then_23() {
    for length in [0, 1, FEED_CELLS - 1, FEED_CELLS + 1] {
        assert_refused(&vec![JUNK; length], 1, 1, 1, 1);
        assert_refused(&vec![0; length], 1, 1, 1, 1);
    }
    for (first, second) in [(0, 1), (JUNK, 0), (65_538, 1), (1, 1), (2, 256)] {
        let mut cells = zero();
        (cells[0], cells[1]) = (first, second);
        assert_refused(&cells, 2, 2, 2, 2);
    }
    let mut cells = zero();
    assert_eq!(Lent.feed(&mut cells, b""), refused(23));
    assert_eq!(Lent.feed(&mut cells, &[0; 513]), refused(23));
    assert_eq!(Lent.drop(&mut cells).number, 23);
    assert_eq!(close(&mut cells, &mut vec![JUNK; STATE_CELLS]).number, 23);
    assert_eq!(cells, zero());
    for feed in [filled(0), fed(&[b"2"]), filled(65_537)] {
        let mut cells = feed.clone();
        assert_eq!(Lent.open(&mut cells).number, 23);
        assert_eq!(Lent.feed(&mut cells, &[b'\n'; 513]), refused(23));
        assert_eq!(cells, feed);
    }
}
