//! What was fed in a case, kept apart from feed memory, and what must therefore hold of the calls, whatever the Rust linker
//! says.

use super::case::Call;
use crate::calls::{FeedAnswer, LoadAnswer};

pub const FEED_CELLS: usize = 8193;
pub const MOST_BYTES: usize = 65_536;
const MOST_IN_PIECE: usize = 512;

/// Whether a number tells a fault of reading.
pub fn is_reading_fault(number: u64) -> bool {
    matches!(number, 6..=8 | 17..=21)
}

#[derive(Clone, Debug, Default)]
pub enum Tape {
    #[default]
    Idle,
    Open(Fed),
    /// Someone else wrote into feed memory.
    Unknown,
}

/// Everything since the open.
#[derive(Clone, Debug, Default)]
pub struct Fed {
    pub bytes: Vec<u8>,
    pieces: Vec<Piece>,
}

/// The bytes of a piece, from the first to before the last, and what it advised.
#[derive(Clone, Debug)]
struct Piece {
    start: usize,
    end: usize,
    advice: (u64, u64, u64),
}

impl Tape {
    /// As if these bytes had been fed before the case began.
    pub fn of(bytes: &[u8]) -> Tape {
        Tape::Open(Fed { bytes: bytes.to_vec(), pieces: Vec::new() })
    }

    /// What the feed's own checks answer a call, 0 where they let it pass. `None` where feed memory alone can tell.
    pub fn own_answer(&self, call: &Call, cells: usize) -> Option<u64> {
        if cells != FEED_CELLS {
            return Some(1);
        }
        let fits = match (self, call) {
            (Tape::Unknown, _) => return None,
            (Tape::Idle, Call::Open) => true,
            (Tape::Open(_), Call::Feed(piece)) => piece.len() <= MOST_IN_PIECE,
            (Tape::Open(_), Call::Close { .. } | Call::Drop) => true,
            _ => false,
        };
        Some(if fits { 0 } else { 23 })
    }

    /// A call that the feed's own checks let pass.
    pub fn pass(&mut self, call: &Call, answer: Option<FeedAnswer>) {
        match (&mut *self, call) {
            (_, Call::Open) => *self = Tape::Open(Fed::default()),
            (_, Call::Close { .. } | Call::Drop) => *self = Tape::Idle,
            (Tape::Open(fed), Call::Feed(piece)) => {
                let start = fed.bytes.len();
                fed.bytes.extend_from_slice(piece);
                let advice = answer.map_or((0, 0, 0), |answer| (answer.advice, answer.line, answer.column));
                fed.pieces.push(Piece { start, end: fed.bytes.len(), advice });
            }
            _ => {}
        }
    }

    /// The one form that feed memory has then. `None` where feed memory alone can tell.
    pub fn form(&self) -> Option<Vec<u64>> {
        let mut cells = vec![0; FEED_CELLS];
        match self {
            Tape::Unknown => return None,
            Tape::Idle => {}
            Tape::Open(fed) if fed.bytes.len() > MOST_BYTES => cells[0] = MOST_BYTES as u64 + 2,
            Tape::Open(fed) => {
                cells[0] = fed.bytes.len() as u64 + 1;
                for (cell, bytes) in cells[1..].iter_mut().zip(fed.bytes.chunks(8)) {
                    *cell = bytes.iter().rev().fold(0, |cell, &byte| cell << 8 | u64::from(byte));
                }
            }
        }
        Some(cells)
    }
}

impl Fed {
    pub fn has_advised(&self) -> bool {
        self.pieces.iter().any(|piece| piece.advice.0 != 0)
    }

    /// The bytes as far as pieces could advise: up to the end of the last one with which the total is in its limit.
    pub fn advised_part(&self) -> &[u8] {
        let first = self.pieces.first().map_or(self.bytes.len(), |piece| piece.start);
        let ends = self.pieces.iter().map(|piece| piece.end).filter(|&end| end <= MOST_BYTES);
        &self.bytes[..ends.last().unwrap_or(first)]
    }

    /// Whether the fault that a load of that part tells was told by the piece that brings its line's LF, and nothing by any
    /// other.
    pub fn check_advice(&self, load: LoadAnswer) -> Result<(), String> {
        let fault = (load.number, load.line, load.column);
        let place = if is_reading_fault(load.number) { end_of_line(self.advised_part(), load.line) } else { None };
        for (number, piece) in (1..).zip(&self.pieces) {
            let brings_it = place.is_some_and(|place| (piece.start..piece.end).contains(&place));
            let due = if brings_it { fault } else { (0, 0, 0) };
            if piece.advice != due {
                return Err(format!(
                    "piece {number} advised (number, line, column) {:?}, and should have {due:?}",
                    piece.advice
                ));
            }
        }
        Ok(())
    }
}

/// Where the LF of a line stands; lines count from 1.
pub fn end_of_line(bytes: &[u8], line: u64) -> Option<usize> {
    let mut ends = bytes.iter().enumerate().filter(|(_, &byte)| byte == b'\n').map(|(place, _)| place);
    ends.nth((line as usize).checked_sub(1)?)
}
