//! Cases: a start state and calls on it. Random ones are made here, those at the limits in `limits`.

use std::fmt;

use super::author::Author;
use super::damage::{damaged, odd_lines};
use super::long;
use super::names::misspelled;
use super::pieces;
use super::rng::Rng;
use super::states;
use super::tape::FEED_CELLS;
use crate::calls::{SymbolAnswer, UndefinedAnswer};
use crate::memory::{fresh, STATE_CELLS, WORK_CELLS};

#[derive(Clone, Debug)]
pub struct Case {
    pub label: String,
    /// State memory at the start, of the right length; its cells may hold anything. Feed memory is zero at the start.
    pub state: Vec<u64>,
    pub steps: Vec<Step>,
}

#[derive(Clone, Debug)]
pub struct Step {
    pub call: Call,
    /// How many cells of state memory are lent; another number than the fixed one is cut or filled up for this call.
    pub state_cells: usize,
    /// The same of feed memory.
    pub feed_cells: usize,
    /// The number, line and column of the answer where the paper gives them, whatever the implementations say.
    pub expected: Option<(u64, u64, u64)>,
    /// The same of a load's rounds.
    pub rounds: Option<u64>,
    /// The same of HIGH, in MEMORY's answer or in the END record.
    pub high: Option<u64>,
    /// The same of the whole answer of SYMBOLS, and of UNDEFINED.
    pub symbol: Option<SymbolAnswer>,
    pub undefined: Option<UndefinedAnswer>,
    /// The same of a piece's advice, with its line and column.
    pub advice: Option<(u64, u64, u64)>,
}

impl From<Call> for Step {
    fn from(call: Call) -> Step {
        Step {
            call,
            state_cells: STATE_CELLS,
            feed_cells: FEED_CELLS,
            expected: None,
            rounds: None,
            high: None,
            symbol: None,
            undefined: None,
            advice: None,
        }
    }
}

#[derive(Clone)]
pub enum Call {
    Load {
        file: Vec<u8>,
        work_cells: usize,
        origin: Origin,
    },
    Force(Vec<u8>),
    Base(u64),
    Reset,
    Memory,
    Symbols(Index),
    Undefined(Index),
    End(Room),
    Open,
    Feed(Vec<u8>),
    Close {
        work_cells: usize,
    },
    Drop,
    /// No call: someone else writes into state memory.
    Poke(Vec<(usize, u64)>),
    /// No call: feed memory becomes what an open and pieces of these bytes leave.
    Fed(Vec<u8>),
    /// No call: someone else writes into feed memory. What stood there is kept for `Mend`.
    Harm(Harm),
    /// No call: feed memory is again what it was before it was harmed.
    Mend,
}

impl Call {
    pub fn load(file: impl Into<Vec<u8>>) -> Call {
        Call::Load { file: file.into(), work_cells: WORK_CELLS, origin: Origin::Given }
    }

    pub fn close() -> Call {
        Call::Close { work_cells: WORK_CELLS }
    }

    /// What the call is lent for reading.
    pub fn bytes(&self) -> &[u8] {
        match self {
            Call::Load { file, .. } => file,
            Call::Force(name) => name,
            Call::Feed(piece) => piece,
            _ => &[],
        }
    }

    /// Whether the call is lent feed memory.
    pub fn takes_feed(&self) -> bool {
        matches!(self, Call::Open | Call::Feed(_) | Call::Close { .. } | Call::Drop)
    }

    /// Whether the call is lent state memory.
    pub fn takes_state(&self) -> bool {
        !matches!(self, Call::Open | Call::Feed(_) | Call::Drop)
    }
}

/// Where the file of a LOAD comes from.
#[derive(Clone, Copy, Debug, PartialEq, Eq)]
pub enum Origin {
    /// Written out in a case at a limit.
    Given,
    /// Drawn at random, every line of it well formed and every block in its place.
    Whole,
    /// A whole one, damaged.
    Damaged,
    /// No file at all, or nearly.
    Odd,
}

/// An index, also relative to the end of the list that the state has when the call is made.
#[derive(Clone, Copy, Debug)]
pub enum Index {
    At(u64),
    FromEnd(i64),
}

/// The bytes of output that are lent, also relative to the image that the state has when the call is made.
#[derive(Clone, Copy, Debug)]
pub enum Room {
    Bytes(usize),
    FromImage(isize),
}

/// What someone else writes into feed memory, also relative to what stands there when it is done.
#[derive(Clone, Copy, Debug)]
pub enum Harm {
    /// The first cell holds this.
    First(u64),
    /// The first cell is so much more, or less.
    Grown(i64),
    /// The byte so far behind the last one that was fed, or before it, holds this. Behind 65,536 nothing is done.
    Byte(isize, u8),
    /// A cell holds this.
    Cell(usize, u64),
}

impl fmt::Debug for Call {
    fn fmt(&self, f: &mut fmt::Formatter<'_>) -> fmt::Result {
        match self {
            Call::Load { file, work_cells, .. } => write!(f, "LOAD of {} bytes, work {work_cells}", file.len()),
            Call::Force(name) => write!(f, "FORCE {:?}", String::from_utf8_lossy(name)),
            Call::Base(address) => write!(f, "BASE {address}"),
            Call::Reset => write!(f, "RESET"),
            Call::Memory => write!(f, "MEMORY"),
            Call::Symbols(index) => write!(f, "SYMBOLS {index:?}"),
            Call::Undefined(index) => write!(f, "UNDEFINED {index:?}"),
            Call::End(room) => write!(f, "END {room:?}"),
            Call::Open => write!(f, "OPEN"),
            Call::Feed(piece) => write!(f, "FEED of {} bytes", piece.len()),
            Call::Close { work_cells } => write!(f, "CLOSE, work {work_cells}"),
            Call::Drop => write!(f, "DROP"),
            Call::Fed(bytes) => write!(f, "{} bytes fed", bytes.len()),
            Call::Harm(harm) => write!(f, "harm {harm:?}"),
            Call::Mend => write!(f, "mend"),
            Call::Poke(cells) => write!(f, "poke {cells:?}"),
        }
    }
}

/// A case drawn at random.
pub fn random(rng: &mut Rng) -> Case {
    let case = match rng.below(100) {
        0..10 => long::table(rng),
        10..13 => long::section(rng),
        13..20 => return pieces::fed(rng),
        _ => random_calls(rng),
    };
    if rng.percent(8) {
        return pieces::in_pieces(case, rng);
    }
    case
}

fn random_calls(rng: &mut Rng) -> Case {
    let mut author = Author::new(rng);
    let (label, state) = random_start(&author, rng);
    let mut steps: Vec<Step> = Vec::new();
    for _ in 0..rng.within(1..=8) {
        let (call, reset_chance) = random_call(&mut author, rng);
        steps.push(Step { state_cells: random_length(rng, STATE_CELLS), ..Step::from(call) });
        if rng.percent(reset_chance) {
            steps.push(Call::Reset.into());
        }
    }
    Case { label: label.into(), state, steps }
}

/// The state that a case starts from, and a word for it.
pub fn random_start(author: &Author, rng: &mut Rng) -> (&'static str, Vec<u64>) {
    match rng.below(100) {
        0..60 => ("from fresh", fresh()),
        60..85 => ("from a random sound state", states::sound(author, rng)),
        _ => {
            let mut cells = if rng.percent(80) { states::sound(author, rng) } else { fresh() };
            for _ in 0..*rng.pick(&[1, 1, 1, 2]) {
                let (cell, content) = states::poke(&cells, rng);
                cells[cell] = content;
            }
            ("from a damaged state", cells)
        }
    }
}

/// A call, and the chance in percent that a reset follows: little can be seen behind a refused load.
pub fn random_call(author: &mut Author, rng: &mut Rng) -> (Call, usize) {
    let load =
        |file: Vec<u8>, origin, rng: &mut Rng| Call::Load { file, work_cells: random_length(rng, WORK_CELLS), origin };
    let call = match rng.below(100) {
        0..34 => return (load(author.file(rng).laid_out(rng), Origin::Whole, rng), 10),
        34..52 => return (load(damaged(&author.file(rng), rng), Origin::Damaged, rng), 85),
        52..55 => return (load(odd_file(rng), Origin::Odd, rng), 50),
        55..67 => Call::Force(random_forced(author, rng)),
        67..74 => Call::Base(random_base(rng)),
        74..76 => Call::Reset,
        76..80 => Call::Memory,
        80..86 => Call::Symbols(random_index(rng)),
        86..92 => Call::Undefined(random_index(rng)),
        92..98 => Call::End(random_room(rng)),
        _ => Call::Poke(vec![(rng.below(STATE_CELLS), rng.next() % 4)]),
    };
    (call, 0)
}

/// The right length, and now and then another.
pub fn random_length(rng: &mut Rng, right: usize) -> usize {
    if !rng.percent(2) {
        return right;
    }
    let any = rng.below(right);
    *rng.pick(&[0, 1, any, right - 1, right + 1, right + 100])
}

pub fn odd_file(rng: &mut Rng) -> Vec<u8> {
    match rng.below(6) {
        0 => vec![b'\n'; rng.within(65_530..=65_540)],
        1 => (0..rng.below(200)).map(|_| rng.next() as u8).collect(),
        2 => (0..rng.below(200)).map(|_| *rng.pick(b"0123456789* \n\rABE")).collect(),
        3 | 4 => odd_lines(rng).tidy(),
        _ => vec![*rng.pick(b" \n\r0A\0"); rng.below(100)],
    }
}

fn random_forced(author: &Author, rng: &mut Rng) -> Vec<u8> {
    let mut name = author.any_name(rng).into_bytes();
    if rng.percent(15) {
        match rng.below(6) {
            0 => name.clear(),
            1 => name.push(rng.next() as u8),
            2 => name.extend_from_slice(b"ABC"),
            3 | 4 => name = misspelled(&name, rng),
            _ => {
                let at = rng.below(name.len());
                name[at] = *rng.pick(b"\0 a0Z.$*\x7f\xff/:@[");
            }
        }
    }
    name
}

fn random_base(rng: &mut Rng) -> u64 {
    let (low, any) = (rng.next() % 200, rng.next() % 4096);
    *rng.pick(&[0, 0, low, low, any, 4000, 4095, 4096, 65_536, u64::MAX])
}

fn random_index(rng: &mut Rng) -> Index {
    match rng.below(4) {
        0 => Index::At(rng.next() % 8),
        1 => Index::At(*rng.pick(&[255, 256, 257, 65_536, 1 << 32, u64::MAX])),
        2 => Index::At(rng.next()),
        _ => Index::FromEnd(rng.within(0..=3) as i64 - 2),
    }
}

fn random_room(rng: &mut Rng) -> Room {
    match rng.below(4) {
        0 => Room::Bytes(rng.below(50_000)),
        1 => Room::FromImage(0),
        2 => Room::FromImage(rng.within(0..=4) as isize - 2),
        _ => Room::FromImage(rng.below(100) as isize),
    }
}
