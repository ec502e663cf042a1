//! Errors of loads in pieces, planted one at a time around the Rust linker: the cases at the limits notice each of them, and so
//! do the random ones.

use std::cell::Cell;

use compare::calls::*;
use compare::differ::run::{run, Options};
use compare::feed::{decode, encode, Feed, FEED_CELLS};
use compare::lent::Lent;
use compare::memory::{fresh, WORK_CELLS};

#[derive(Clone, Copy, Debug, PartialEq, Eq)]
enum Error {
    AdviceToldAgain,
    AdviceWithoutLf,
    LastPieceForgotten,
    DropLeavesMemory,
    PieceOf513Taken,
    TotalWraps,
    TotalGoesOn,
    RefusedPieceKept,
    OpenBehindRefusalBy3,
    WorkKeptByARefusedClose,
    NoneOpenBehindTheState,
    UnsoundAheadOfLength,
    UnsoundAccepted,
}

use Error::*;

const ALL: [Error; 13] = [
    AdviceToldAgain,
    AdviceWithoutLf,
    LastPieceForgotten,
    DropLeavesMemory,
    PieceOf513Taken,
    TotalWraps,
    TotalGoesOn,
    RefusedPieceKept,
    OpenBehindRefusalBy3,
    WorkKeptByARefusedClose,
    NoneOpenBehindTheState,
    UnsoundAheadOfLength,
    UnsoundAccepted,
];

/// The Rust linker with an error.
struct Planted {
    error: Error,
    /// The bytes of the last piece.
    last: Cell<usize>,
}

fn bytes_in(feed: &[u64]) -> Vec<u8> {
    match (feed.len() == FEED_CELLS).then(|| decode(feed)).flatten() {
        Some(Feed::Open(bytes)) => bytes,
        _ => Vec::new(),
    }
}

/// The fault that a load of these bytes tells, as advice.
fn fault(bytes: &[u8]) -> FeedAnswer {
    let LoadAnswer { number, line, column, .. } = Lent.load(&mut fresh(), &mut vec![0; WORK_CELLS], bytes);
    match number {
        6..=8 | 17..=21 => FeedAnswer { number: 0, advice: number, line, column },
        _ => FeedAnswer::default(),
    }
}

/// The first cell again, with nothing but the bytes that it counts.
fn sound(feed: &[u64]) -> Vec<u64> {
    let bytes: Vec<u8> = feed[1..].iter().flat_map(|cell| cell.to_le_bytes()).collect();
    match feed[0] as usize {
        0 => encode(&Feed::Idle),
        first @ 1..=65_537 => encode(&Feed::Open(bytes[..first - 1].to_vec())),
        _ => encode(&Feed::TooLong),
    }
}

impl Planted {
    /// What is done to a piece that the Rust linker has answered.
    fn after_piece(&self, feed: &mut [u64], before: &[u8], piece: &[u8], answer: FeedAnswer) -> FeedAnswer {
        let bytes = bytes_in(feed);
        let told = answer != FeedAnswer::default();
        match self.error {
            AdviceToldAgain if !told && piece.contains(&b'\n') => {
                let end = bytes.iter().rposition(|&byte| byte == b'\n').map_or(0, |place| place + 1);
                let again = fault(&bytes[..end]);
                if again.column > 0 {
                    return again;
                }
            }
            AdviceWithoutLf if !told && !bytes.ends_with(b"\n") => {
                let early = fault(&bytes);
                if early.line == 1 + bytes.iter().filter(|&&byte| byte == b'\n').count() as u64 && early.column > 0 {
                    return early;
                }
            }
            TotalWraps if answer.number == 0 && feed[0] == 65_538 && !before.is_empty() => {
                feed.copy_from_slice(&encode(&Feed::Open([before, piece].concat()[65_536..].to_vec())));
            }
            TotalGoesOn if answer.number == 0 && feed[0] == 65_538 => feed[0] += piece.len() as u64,
            RefusedPieceKept if answer.number == 23 && piece.len() > 512 => {
                Lent.feed(feed, &piece[..512]);
            }
            _ => {}
        }
        answer
    }
}

impl Calls for Planted {
    fn open(&self, feed: &mut [u64]) -> CallAnswer {
        Lent.open(feed)
    }

    fn feed(&self, feed: &mut [u64], piece: &[u8]) -> FeedAnswer {
        let before = bytes_in(feed);
        if self.error == UnsoundAccepted && feed.len() == FEED_CELLS {
            feed.copy_from_slice(&sound(feed));
        }
        let answer = match piece.len() {
            513 if self.error == PieceOf513Taken => {
                Lent.feed(feed, &piece[..1]);
                Lent.feed(feed, &piece[1..])
            }
            _ => Lent.feed(feed, piece),
        };
        self.last.set(piece.len());
        self.after_piece(feed, &before, piece, answer)
    }

    fn close(&self, feed: &mut [u64], state: &mut [u64], work: &mut [u64]) -> LoadAnswer {
        let (feed_before, work_before) = (feed.to_vec(), work.to_vec());
        let by_state = Lent.load(&mut state.to_vec(), &mut work.to_vec(), b"");
        if self.error == UnsoundAheadOfLength
            && feed.len() != FEED_CELLS
            && feed.len() > 1
            && sound(feed)[1..] != feed[1..]
        {
            if work.len() == WORK_CELLS {
                work.fill(0);
            }
            return LoadAnswer { number: 2, ..LoadAnswer::default() };
        }
        if self.error == LastPieceForgotten && !bytes_in(feed).is_empty() {
            let bytes = bytes_in(feed);
            feed.copy_from_slice(&encode(&Feed::Open(bytes[..bytes.len().saturating_sub(self.last.get())].to_vec())));
        }
        let answer = Lent.close(feed, state, work);
        match (self.error, answer.number) {
            (OpenBehindRefusalBy3, 3) => feed.copy_from_slice(&feed_before),
            (WorkKeptByARefusedClose, 23) => work.copy_from_slice(&work_before),
            (NoneOpenBehindTheState, 23) if matches!(by_state.number, 1..=4) => return by_state,
            _ => {}
        }
        answer
    }

    fn drop(&self, feed: &mut [u64]) -> CallAnswer {
        if self.error == DropLeavesMemory {
            return Lent.drop(&mut feed.to_vec());
        }
        Lent.drop(feed)
    }

    fn load(&self, state: &mut [u64], work: &mut [u64], file: &[u8]) -> LoadAnswer {
        Lent.load(state, work, file)
    }

    fn force(&self, state: &mut [u64], name: &[u8]) -> CallAnswer {
        Lent.force(state, name)
    }

    fn base(&self, state: &mut [u64], address: u64) -> CallAnswer {
        Lent.base(state, address)
    }

    fn reset(&self, state: &mut [u64]) -> CallAnswer {
        Lent.reset(state)
    }

    fn memory(&self, state: &[u64]) -> MemoryAnswer {
        Lent.memory(state)
    }

    fn symbols(&self, state: &[u64], index: u64) -> SymbolAnswer {
        Lent.symbols(state, index)
    }

    fn undefined(&self, state: &[u64], index: u64) -> UndefinedAnswer {
        Lent.undefined(state, index)
    }

    fn end(&self, state: &mut [u64], out: &mut [u8]) -> EndAnswer {
        Lent.end(state, out)
    }
}

fn assert_noticed(cases: u64, limits: bool) {
    for error in ALL {
        let options = Options { cases, seed: 7, first: 0, limits, longest: None, trace: false };
        let found = run(&Planted { error, last: Cell::new(0) }, &options).err();
        let found = found.unwrap_or_else(|| panic!("{error:?} was not noticed"));
        println!("{error:?}: case {:?}, {}, {}", found.number, found.case.label, found.failure);
    }
}

#[test]
fn planted_errors_are_noticed_at_the_limits() {
    assert_noticed(0, true);
}

#[test]
fn planted_errors_are_noticed_in_random_cases() {
    assert_noticed(5000, false);
}
