//! What the calls on feed memory met, so that it can be told what a run reached.

use std::fmt;

use super::case::Call;
use super::play::resized;
use super::tape::{end_of_line, is_reading_fault, Fed, Tape, FEED_CELLS, MOST_BYTES};
use crate::memory::{is_sound, BROKEN, FROZEN, MARK, STATE_CELLS, WORK_CELLS};
use crate::reader;

/// A call on feed memory: what had been fed and what was lent before it, and how it was answered.
pub struct Met<'a> {
    pub call: &'a Call,
    pub tape: &'a Tape,
    pub number: u64,
    pub advice: u64,
    pub feed: &'a [u64],
    pub state: &'a [u64],
}

/// What is counted, group by group.
const GROUPS: [(&str, &[&str]); 15] = [
    ("pieces", &["0 bytes", "1", "2 to 511", "512", "513 refused", "more refused"]),
    ("cuts", &["between CR and LF", "just before LF", "just behind LF", "elsewhere in a line"]),
    ("advice", &["6", "7", "8", "17", "18", "19", "20", "21"]),
    ("its LF in the piece", &["the only byte", "first", "between", "last", "the 65,536th in all"]),
    ("told at the close alone", &["a last line without LF", "a file that ends too soon"]),
    ("a fault not told", &["its piece goes over 65,536", "told earlier", "told earlier, then 1 to 4", "then 5"]),
    ("23", &["a longer piece", "the same with none open", "a second open", "piece", "close", "drop with none open"]),
    ("1 ahead", &["of a longer piece", "of a second open", "of none open", "of 2"]),
    ("2 ahead", &["of a longer piece", "of a second open or none open"]),
    ("feed's 1, 2 and 23 ahead of the state's", &["1", "1 by work memory", "2", "3", "4"]),
    ("closes past the feed's checks", &["0", "1", "1 by work memory", "2", "3", "4", "5", "for the file"]),
    ("bytes at a close", &["0", "to 512", "to 65,534", "65,535", "65,536", "65,537", "more"]),
    ("another state than at the open", &["accepted", "refused"]),
    ("unsound feed memory", &["OPEN", "FEED", "CLOSE", "DROP"]),
    (
        "unsound by",
        &["the first cell", "the total's cell", "a later cell", "bytes with none open", "bytes of too many"],
    ),
];

/// The groups in their order.
#[derive(Clone, Copy)]
enum Group {
    Pieces,
    Cuts,
    Advice,
    Ends,
    AtClose,
    Untold,
    Refused,
    OneAhead,
    TwoAhead,
    Ahead,
    Closes,
    Totals,
    OtherState,
    Unsound,
    Harms,
}

#[derive(Clone, Debug)]
pub struct Feeding {
    counts: Vec<Vec<u64>>,
    /// The state at the last open.
    opened: Vec<u64>,
}

impl Default for Feeding {
    fn default() -> Feeding {
        Feeding { counts: GROUPS.iter().map(|(_, names)| vec![0; names.len()]).collect(), opened: Vec::new() }
    }
}

impl Feeding {
    pub fn note(&mut self, met: &Met) {
        self.note_own_refusal(met);
        if let Some(harm) = harm_of(met.feed) {
            self.count(Group::Unsound, call_row(met.call));
            self.count(Group::Harms, Some(harm));
        }
        match (met.call, met.tape) {
            (Call::Open, _) if met.number == 0 => self.opened = met.state.to_vec(),
            (Call::Feed(piece), _) if met.number == 23 => self.count(Group::Pieces, refused_size(piece.len())),
            (Call::Feed(piece), Tape::Open(fed)) if met.number == 0 => self.note_piece(met, fed, piece),
            (Call::Close { work_cells }, Tape::Open(fed)) if met.feed.len() == FEED_CELLS => {
                self.note_close(met, fed, *work_cells);
            }
            _ => {}
        }
    }

    /// Counts where there is something to count.
    fn count(&mut self, group: Group, row: Option<usize>) {
        row.into_iter().for_each(|row| self.counts[group as usize][row] += 1);
    }

    /// The feed's own refusals, and which others they go ahead of.
    fn note_own_refusal(&mut self, met: &Met) {
        let too_long = matches!(met.call, Call::Feed(piece) if piece.len() > 512);
        let (is_open, is_idle) = (met.feed.first().is_some_and(|&first| first != 0), met.feed.first() == Some(&0));
        let is_open_call = matches!(met.call, Call::Open);
        let unfit = is_open_call && is_open || !is_open_call && is_idle;
        let own = if met.feed.len() != FEED_CELLS {
            self.count(Group::OneAhead, too_long.then_some(0));
            self.count(Group::OneAhead, unfit.then_some(if is_open_call { 1 } else { 2 }));
            self.count(Group::OneAhead, harm_of(&resized(met.feed, FEED_CELLS)).map(|_| 3));
            true
        } else if harm_of(met.feed).is_some() {
            self.count(Group::TwoAhead, too_long.then_some(0));
            self.count(Group::TwoAhead, unfit.then_some(1));
            true
        } else {
            let row = match met.call {
                Call::Feed(_) if too_long => Some(usize::from(is_idle)),
                Call::Open => Some(2),
                Call::Feed(_) => Some(3),
                Call::Close { .. } => Some(4),
                _ => Some(5),
            };
            self.count(Group::Refused, row.filter(|_| met.number == 23));
            met.number == 23
        };
        if let (true, Call::Close { work_cells }) = (own, met.call) {
            self.count(Group::Ahead, state_check(met.state, *work_cells));
        }
    }

    fn note_piece(&mut self, met: &Met, fed: &Fed, piece: &[u8]) {
        let size = match piece.len() {
            0 => 0,
            1 => 1,
            512 => 3,
            _ => 2,
        };
        self.count(Group::Pieces, Some(size));
        let total = fed.bytes.len() + piece.len();
        if let (Some(last), Some(first)) = (fed.bytes.last(), piece.first()) {
            self.count(Group::Cuts, Some(cut_row(*last, *first)));
        }
        if is_reading_fault(met.advice) {
            self.count(
                Group::Advice,
                GROUPS[Group::Advice as usize].1.iter().position(|n| *n == met.advice.to_string()),
            );
            self.note_end(fed, piece);
        }
        if fed.bytes.len() <= MOST_BYTES && total > MOST_BYTES {
            let joined = [&fed.bytes, piece].concat();
            let end = reader::read(&joined).err().and_then(|fault| end_of_line(&joined, fault.line));
            self.count(Group::Untold, end.filter(|&end| end >= fed.bytes.len()).map(|_| 0));
        }
        self.count(Group::Untold, (fed.has_advised() && piece.contains(&b'\n')).then_some(1));
    }

    /// Where in its piece the LF stands that brought the advice.
    fn note_end(&mut self, fed: &Fed, piece: &[u8]) {
        let joined = [&fed.bytes, piece].concat();
        let Some(end) = reader::read(&joined).err().and_then(|fault| end_of_line(&joined, fault.line)) else { return };
        let row = match end - fed.bytes.len() {
            0 if piece.len() == 1 => 0,
            0 => 1,
            place if place + 1 == piece.len() => 3,
            _ => 2,
        };
        self.count(Group::Ends, Some(row));
        self.count(Group::Ends, (end + 1 == MOST_BYTES).then_some(4));
    }

    fn note_close(&mut self, met: &Met, fed: &Fed, work_cells: usize) {
        let total = match fed.bytes.len() {
            0 => 0,
            1..=512 => 1,
            513..65_535 => 2,
            total => 3 + (total - 65_535).min(3),
        };
        self.count(Group::Totals, Some(total));
        let row = match met.number {
            0 => 0,
            1..=4 => 1 + state_check(met.state, work_cells).unwrap_or(0),
            5 => 6,
            _ => 7,
        };
        self.count(Group::Closes, Some(row));
        if met.state != self.opened {
            self.count(Group::OtherState, Some(usize::from(met.number != 0)));
        }
        if fed.has_advised() {
            self.count(Group::Untold, matches!(met.number, 1..=4).then_some(2));
            self.count(Group::Untold, (met.number == 5).then_some(3));
        }
        if is_reading_fault(met.number) && !fed.has_advised() {
            let too_soon = fed.bytes.is_empty() || fed.bytes.ends_with(b"\n");
            self.count(Group::AtClose, Some(usize::from(met.number == 7 && too_soon)));
        }
    }

    /// What a run should have met and did not.
    pub fn missing(&self) -> Vec<String> {
        let mut missing = Vec::new();
        for ((group, names), counts) in GROUPS.iter().zip(&self.counts) {
            for (name, _) in names.iter().zip(counts).filter(|(_, &count)| count == 0) {
                missing.push(format!("feeding, {group}: {name}"));
            }
        }
        missing
    }
}

fn call_row(call: &Call) -> Option<usize> {
    match call {
        Call::Open => Some(0),
        Call::Feed(_) => Some(1),
        Call::Close { .. } => Some(2),
        Call::Drop => Some(3),
        _ => None,
    }
}

fn refused_size(bytes: usize) -> Option<usize> {
    match bytes {
        513 => Some(4),
        514.. => Some(5),
        _ => None,
    }
}

fn cut_row(last: u8, first: u8) -> usize {
    match (last, first) {
        (b'\r', b'\n') => 0,
        (b'\n', _) => 2,
        (_, b'\n') => 1,
        _ => 3,
    }
}

/// The row of `Ahead` for the check that refuses a load from this state, whatever its file.
fn state_check(state: &[u64], work_cells: usize) -> Option<usize> {
    if state.len() != STATE_CELLS {
        return Some(0);
    }
    if work_cells != WORK_CELLS {
        return Some(1);
    }
    if !is_sound(state) {
        return Some(2);
    }
    match state[MARK] {
        BROKEN => Some(3),
        FROZEN => Some(4),
        _ => None,
    }
}

/// Why feed memory of the right length is unsound, as a row of `Harms`.
fn harm_of(cells: &[u64]) -> Option<usize> {
    if cells.len() != FEED_CELLS {
        return None;
    }
    let (first, rest) = (cells[0], &cells[1..]);
    let has_bytes = rest.iter().any(|&cell| cell != 0);
    let too_many = MOST_BYTES as u64 + 2;
    if first == 0 || first == too_many {
        return has_bytes.then_some(if first == 0 { 3 } else { 4 });
    }
    if first > too_many {
        return Some(0);
    }
    let total = first as usize - 1;
    let (full, over) = (total / 8, total % 8);
    if over > 0 && rest[full] >> (8 * over) != 0 {
        return Some(1);
    }
    rest[full + usize::from(over > 0)..].iter().any(|&cell| cell != 0).then_some(2)
}

impl fmt::Display for Feeding {
    fn fmt(&self, f: &mut fmt::Formatter<'_>) -> fmt::Result {
        write!(f, "loads in pieces")?;
        for ((group, names), counts) in GROUPS.iter().zip(&self.counts) {
            let shown: Vec<String> = names.iter().zip(counts).map(|(name, count)| format!("{name} {count}")).collect();
            write!(f, "\n    {group}: {}", shown.join(", "))?;
        }
        Ok(())
    }
}
