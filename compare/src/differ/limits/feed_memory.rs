//! Request 5/14: feed memory. Its length, what it may hold, and the order of its checks, which come ahead of the state's.

use super::super::case::Harm;
use super::super::tape::FEED_CELLS;
use super::feeding::{close, dropped, fed, open, piece};
use super::*;
use crate::memory::{BROKEN, FROZEN, MARK, STATE_CELLS, WORK_CELLS};

/// The first cell behind a total of 65,536, and behind more.
const FULL: u64 = 65_537;
const TOO_MANY: u64 = 65_538;

pub fn all() -> Vec<Case> {
    [lengths(), first_cells(), bytes_behind_the_total(), bytes_with_none_open(), sound_pokes(), order()].concat()
}

/// Each call, refused by this number.
fn all_refused(number: u64) -> Vec<Step> {
    vec![
        open(number),
        piece("", number),
        piece("2\n", number),
        piece(vec![0; 513], number),
        close(number, 0),
        dropped(number),
    ]
}

fn harm(harm: Harm) -> Step {
    Call::Harm(harm).into()
}

fn mend() -> Step {
    Call::Mend.into()
}

/// Harm that every call refuses by 2, and the same memory without it, which is dropped or, where nothing is open, opened.
fn unsound(label: String, before: &[Step], harms: Harm) -> Case {
    let idle = before.is_empty();
    let end = if idle { open(0) } else { dropped(0) };
    case(label, [before.to_vec(), vec![harm(harms)], all_refused(2), vec![mend(), end]].concat())
}

fn lengths() -> Vec<Case> {
    let mut cases = Vec::new();
    for feed_cells in [0, 1, 2, FEED_CELLS - 1, FEED_CELLS + 1, 2 * FEED_CELLS] {
        let refused = all_refused(1).into_iter().map(|step| Step { feed_cells, ..step });
        let label = |how: &str| format!("{feed_cells} cells of feed, {how}");
        cases.push(case(label("none open"), refused.clone().chain([open(0)]).collect::<Vec<_>>()));
        let opened = [fed("2")].into_iter().chain(refused.clone()).chain([dropped(0)]);
        cases.push(case(label("one open"), opened.collect::<Vec<_>>()));
        let harmed = [fed("2"), harm(Harm::Byte(0, 1))].into_iter().chain(refused).chain([dropped(2)]);
        cases.push(case(label("unsound"), harmed.collect::<Vec<_>>()));
    }
    cases
}

/// The first cell: one more than the total, up to 65,538.
fn first_cells() -> Vec<Case> {
    let mut cases = Vec::new();
    for first in [TOO_MANY + 1, TOO_MANY + 2, 1 << 17, 1 << 32, (1 << 32) + 1, 1 << 63, u64::MAX - 1, u64::MAX] {
        for (label, before) in
            [("nothing", vec![]), ("a byte", vec![fed("2")]), ("too many", vec![fed(vec![0; 65_537])])]
        {
            let label = format!("the first cell holds {first:#x} behind {label}");
            cases.push(unsound(label, &before, Harm::First(first)));
        }
    }
    for first in [0, 1, TOO_MANY] {
        let label = format!("the first cell holds {first} beside two bytes");
        cases.push(unsound(label, &[fed("22")], Harm::First(first)));
        let label = format!("the first cell holds {first} beside 65,536 bytes");
        cases.push(unsound(label, &[fed(vec![b'2'; 65_536])], Harm::First(first)));
    }
    for (total, less) in [(1, 1), (8, 1), (9, 1), (9, 8), (512, 1), (65_536, 1), (65_536, 65_536)] {
        let label = format!("the first cell is {less} less, of {total} bytes");
        cases.push(unsound(label, &[fed(vec![b'2'; total])], Harm::Grown(-less)));
    }
    cases
}

/// Totals about the borders of cells, and of memory.
const TOTALS: [usize; 16] = [0, 1, 2, 6, 7, 8, 9, 15, 16, 17, 511, 512, 65_527, 65_528, 65_529, 65_535];

/// A byte that is not zero behind the total: in each place of its cell, at the next ones, and at the last.
fn bytes_behind_the_total() -> Vec<Case> {
    let mut cases = Vec::new();
    for total in TOTALS {
        let before = [fed(vec![b'2'; total])];
        for distance in (0..17).filter(|distance| total + distance < 65_536) {
            for byte in [1, 0x80] {
                let label = format!("byte {distance} behind {total} holds {byte}");
                cases.push(unsound(label, &before, Harm::Byte(distance as isize, byte)));
            }
        }
        for content in [1, 1 << 63] {
            let label = format!("the last cell holds {content:#x} beside {total} bytes");
            if total <= 65_528 {
                cases.push(unsound(label, &before, Harm::Cell(FEED_CELLS - 1, content)));
            }
        }
    }
    cases
}

/// A byte where none is open, and where too many were fed.
fn bytes_with_none_open() -> Vec<Case> {
    let mut cases = Vec::new();
    for cell in [1, 2, 3, 4096, FEED_CELLS - 2, FEED_CELLS - 1] {
        for content in [1, u64::from(b'\n'), 1 << 56, 1 << 63, u64::MAX] {
            let label = |what: &str| format!("{what}, and cell {cell} holds {content:#x}");
            cases.push(unsound(label("none open"), &[], Harm::Cell(cell, content)));
            cases.push(unsound(label("too many fed"), &[fed(vec![b'2'; 65_537])], Harm::Cell(cell, content)));
        }
    }
    cases
}

/// What someone else writes and is sound all the same: an open and pieces could have left it.
fn sound_pokes() -> Vec<Case> {
    let nul = |line, column| Step { expected: Some((6, line, column)), ..close(6, line) };
    let poked = |before: Step, harms: Harm| [before, harm(harms), open(23), piece("", 0)];
    let mut cases = vec![
        case("1 in zero memory opens", [harm(Harm::First(1)), open(23), piece("\n", 0), close(0, 0), open(0)]),
        case("0 in the memory of an empty load", [open(0), harm(Harm::First(0)), close(23, 0), open(0), close(0, 0)]),
        case("too many in zero memory", [harm(Harm::First(TOO_MANY)), open(23), piece("\n", 0), close(5, 0), open(0)]),
        case("65,536 zero bytes", [harm(Harm::First(FULL)), open(23), piece("", 0), nul(1, 1), open(0)]),
    ];
    for total in [1usize, 7, 8, 9, 512, 65_535] {
        let blank = || fed(vec![b'\n'; total]);
        let last = [poked(blank(), Harm::Byte(-1, b' ')).to_vec(), vec![close(0, 0), close(23, 0)]].concat();
        cases.push(case(format!("the last of {total} bytes is another"), last));
        let more = [poked(blank(), Harm::Grown(1)).to_vec(), vec![nul(total as u64 + 1, 1), close(23, 0)]].concat();
        cases.push(case(format!("one more than {total} bytes, a zero"), more));
        let zero = fed([vec![b'\n'; total - 1], vec![0]].concat());
        let less = [poked(zero, Harm::Grown(-1)).to_vec(), vec![close(0, 0), close(23, 0)]].concat();
        cases.push(case(format!("the last of {total} bytes, a zero, taken away"), less));
    }
    cases
}

/// Of several refusals: the feed's 1, its 2, its 23, then the state's.
fn order() -> Vec<Case> {
    let mark = |mark| Step::from(Call::Poke(vec![(MARK, mark)]));
    let closes = |number: u64, feed_cells: usize| -> Vec<Step> {
        let close =
            |state_cells, work_cells| Step { state_cells, feed_cells, ..call(Call::Close { work_cells }, number, 0) };
        vec![
            close(STATE_CELLS, WORK_CELLS),
            close(STATE_CELLS - 1, WORK_CELLS),
            close(STATE_CELLS, WORK_CELLS + 1),
            close(0, 0),
        ]
    };
    let mut cases = Vec::new();
    for content in [0, BROKEN, FROZEN, 3] {
        let label = |what: &str| format!("{what} on mark {content}");
        let then = |steps: &[Step]| [vec![mark(content)], steps.to_vec()].concat();
        let short = [vec![fed("2")], closes(1, FEED_CELLS - 1), vec![dropped(0)]].concat();
        cases.push(case(label("feed memory too short"), then(&short)));
        let harmed = [vec![fed("2"), harm(Harm::Byte(0, 1))], closes(2, FEED_CELLS), vec![mend(), dropped(0)]].concat();
        cases.push(case(label("feed memory unsound"), then(&harmed)));
        cases.push(case(label("none open"), then(&[closes(23, FEED_CELLS), vec![open(0), dropped(0)]].concat())));
    }
    cases
}
