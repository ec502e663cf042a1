//! Request 5/14: a load that comes in pieces. Feed memory, which the caller lends, keeps the bytes until the close.

use crate::answer::{Reason, Refusal};
use crate::linker::LONGEST_FILE;
use crate::reader;

/// Feed memory, in cells: one that tells what is open, and eight bytes in each of the others, the first byte lowest.
pub const FEED_CELLS: usize = 1 + LONGEST_FILE / BYTES_IN_CELL;
pub const LONGEST_PIECE: usize = 512;
const BYTES_IN_CELL: usize = 8;

/// The first cell where nothing is open. Where a load is open, it is one more than the bytes fed.
const IDLE: u64 = 0;
/// The first cell where more bytes were fed than a file may have, however many more.
const TOO_LONG: u64 = LONGEST_FILE as u64 + 2;

/// What feed memory says.
#[derive(Clone, Debug, Default, PartialEq, Eq)]
pub enum Feed {
    /// No load is open.
    #[default]
    Idle,
    /// A load is open, with all bytes that were fed.
    Open(Vec<u8>),
    /// A load is open that can only be refused for its length, so that none of its bytes is kept.
    TooLong,
}

impl Feed {
    pub fn open(&mut self) -> Result<(), Refusal> {
        if *self != Feed::Idle {
            return Err(Reason::Feed.into());
        }
        *self = Feed::Open(Vec::new());
        Ok(())
    }

    /// Takes a piece. Tells the first reading fault if this piece ends the line that has it.
    pub fn feed(&mut self, piece: &[u8]) -> Result<Option<Refusal>, Refusal> {
        if piece.len() > LONGEST_PIECE || *self == Feed::Idle {
            return Err(Reason::Feed.into());
        }
        let Feed::Open(bytes) = self else { return Ok(None) };
        let before = line_ends(bytes);
        bytes.extend_from_slice(piece);
        if bytes.len() > LONGEST_FILE {
            *self = Feed::TooLong;
            return Ok(None);
        }
        if !piece.contains(&b'\n') {
            return Ok(None);
        }
        Ok(fault(bytes).filter(|fault| fault.line > before))
    }

    /// Ends the load and hands out the file.
    pub fn take(&mut self) -> Result<Vec<u8>, Refusal> {
        match std::mem::take(self) {
            Feed::Idle => Err(Reason::Feed.into()),
            Feed::Open(bytes) => Ok(bytes),
            // every file that is too long is answered alike
            Feed::TooLong => Ok(vec![b'\n'; LONGEST_FILE + 1]),
        }
    }
}

fn line_ends(bytes: &[u8]) -> u64 {
    bytes.iter().filter(|&&byte| byte == b'\n').count() as u64
}

/// The first reading fault of the lines that have their LF. What follows them may still come, so their end is none.
fn fault(bytes: &[u8]) -> Option<Refusal> {
    let end = bytes.iter().rposition(|&byte| byte == b'\n')? + 1;
    let lines = &bytes[..end];
    reader::read(lines).err().filter(|fault| fault.line <= line_ends(lines))
}

/// A call on feed memory, which is as it was where the call is refused.
pub fn change<T>(cells: &mut [u64], call: impl FnOnce(&mut Feed) -> Result<T, Refusal>) -> Result<T, Refusal> {
    if cells.len() != FEED_CELLS {
        return Err(Reason::Buffer.into());
    }
    let mut feed = decode(cells).ok_or(Reason::Damaged)?;
    let answer = call(&mut feed)?;
    cells.copy_from_slice(&encode(&feed));
    Ok(answer)
}

/// What the cells, of the right number, say. Each feed has one form, and cells of any other form are unsound.
pub fn decode(cells: &[u64]) -> Option<Feed> {
    let feed = match cells[0] {
        IDLE => Feed::Idle,
        TOO_LONG => Feed::TooLong,
        total => Feed::Open(bytes_of(&cells[1..], total - 1)),
    };
    (encode(&feed) == cells).then_some(feed)
}

/// At most as many bytes as the cells have.
fn bytes_of(cells: &[u64], total: u64) -> Vec<u8> {
    let total = (total as usize).min(BYTES_IN_CELL * cells.len());
    let mut bytes = Vec::with_capacity(total + BYTES_IN_CELL);
    for cell in &cells[..total.div_ceil(BYTES_IN_CELL)] {
        bytes.extend_from_slice(&cell.to_le_bytes());
    }
    bytes.truncate(total);
    bytes
}

pub fn encode(feed: &Feed) -> Vec<u64> {
    let mut cells = vec![0; FEED_CELLS];
    match feed {
        Feed::Idle => {}
        Feed::TooLong => cells[0] = TOO_LONG,
        Feed::Open(bytes) => {
            cells[0] = bytes.len() as u64 + 1;
            for (cell, bytes) in cells[1..].iter_mut().zip(bytes.chunks(BYTES_IN_CELL)) {
                let mut eight = [0; BYTES_IN_CELL];
                eight[..bytes.len()].copy_from_slice(bytes);
                *cell = u64::from_le_bytes(eight);
            }
        }
    }
    cells
}
