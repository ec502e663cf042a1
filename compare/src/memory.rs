//! State memory: the linker's state as 8,708 cells that the caller lends.
//!
//! Cells are sound exactly if they are the encoding of a sound state, so equal states are equal memories.

use std::ops::Range;

use crate::linker::{highest, Linker, Mark, Table, Word, Words, MOST_SYMBOLS, PROGRAM_WORDS};
use crate::name::Name;

pub const STATE_CELLS: usize = 8708;
include!(concat!(env!("OUT_DIR"), "/work_cells.rs"));

pub const COUNT: usize = 0;
pub const NEXT: usize = 1;
pub const MARK: usize = 2;
pub const SPARE: usize = 3;
pub const NAMES: Range<usize> = 4..260;
pub const VALUES: Range<usize> = 260..516;
pub const TEXTS: Range<usize> = 516..4612;
pub const TAGS: Range<usize> = 4612..8708;

/// Marks as cell 2 has them.
pub const UNMARKED: u64 = 0;
pub const BROKEN: u64 = 1;
pub const FROZEN: u64 = 2;

/// Added to the value of a defined symbol, so that 0 is left for an undefined one.
pub const DEFINED: u64 = 65_536;

/// Tags: what stands at an address. A reference to symbol i is `REFERENCE + i`.
pub const UNPLACED: u64 = 0;
pub const PLAIN: u64 = 1;
pub const REFERENCE: u64 = 2;

/// Whether the cells, of the right number, are the encoding of a sound state.
pub fn is_sound(cells: &[u64]) -> bool {
    let (count, next) = (cells[COUNT], cells[NEXT]);
    if count > MOST_SYMBOLS as u64 || next > PROGRAM_WORDS as u64 || cells[MARK] > FROZEN || cells[SPARE] != 0 {
        return false;
    }
    let (names, no_names) = cells[NAMES].split_at(count as usize);
    let (values, no_values) = cells[VALUES].split_at(count as usize);
    no_names.iter().chain(no_values).all(|&cell| cell == 0)
        && names.iter().all(|&cell| Name::from_packed(cell).is_some())
        && all_different(names)
        && values.iter().all(|&cell| cell == 0 || (DEFINED..2 * DEFINED).contains(&cell))
        && cells[TAGS].iter().all(|&tag| tag < REFERENCE + count)
        && cells[TEXTS].iter().zip(&cells[TAGS]).all(|(&text, &tag)| tag != UNPLACED || text == 0)
}

/// At most 256 cells, which are cheaper sorted than hashed.
fn all_different(names: &[u64]) -> bool {
    let mut room = [0; MOST_SYMBOLS];
    let sorted = &mut room[..names.len()];
    sorted.copy_from_slice(names);
    sorted.sort_unstable();
    sorted.windows(2).all(|pair| pair[0] != pair[1])
}

/// The state that the cells hold, if they are sound.
pub fn decode(cells: &[u64]) -> Option<Linker> {
    if !is_sound(cells) {
        return None;
    }
    let count = cells[COUNT] as usize;
    let mut table = Table::with_capacity(count);
    for (&name, &value) in cells[NAMES].iter().zip(&cells[VALUES]).take(count) {
        let symbol = table.mention(Name::from_packed(name)?);
        table.symbols[symbol].value = value.checked_sub(DEFINED).map(|value| value as u16);
    }
    let words = cells[TEXTS].iter().zip(&cells[TAGS]).map(|(&text, &tag)| {
        (tag != UNPLACED).then(|| Word {
            quarters: quarters_of(text),
            symbol: tag.checked_sub(REFERENCE).map(|symbol| symbol as u16),
        })
    });
    Some(Linker {
        table,
        words: Words(words.collect()),
        next: cells[NEXT] as usize,
        mark: match cells[MARK] {
            UNMARKED => Mark::None,
            BROKEN => Mark::Broken,
            _ => Mark::Frozen,
        },
    })
}

/// Writes every cell.
pub fn encode(linker: &Linker, cells: &mut [u64]) {
    let symbols = &linker.table.symbols;
    cells[COUNT] = symbols.len() as u64;
    cells[NEXT] = linker.next as u64;
    cells[MARK] = match linker.mark {
        Mark::None => UNMARKED,
        Mark::Broken => BROKEN,
        Mark::Frozen => FROZEN,
    };
    cells[SPARE] = 0;
    cells[NAMES].fill(0);
    cells[VALUES].fill(0);
    for (i, symbol) in symbols.iter().enumerate() {
        cells[NAMES.start + i] = symbol.name.packed();
        cells[VALUES.start + i] = symbol.value.map_or(0, |value| DEFINED + u64::from(value));
    }
    for (address, word) in linker.words.0.iter().enumerate() {
        cells[TEXTS.start + address] = word.map_or(0, |word| text_of(word.quarters));
        cells[TAGS.start + address] = match word {
            None => UNPLACED,
            Some(Word { symbol: None, .. }) => PLAIN,
            Some(Word { symbol: Some(symbol), .. }) => REFERENCE + u64::from(*symbol),
        };
    }
}

/// The fresh state, in memory of its own.
pub fn fresh() -> Vec<u64> {
    vec![0; STATE_CELLS]
}

/// The words placed, in cells that are sound.
pub fn placed(cells: &[u64]) -> usize {
    cells[TAGS].iter().filter(|&&tag| tag != UNPLACED).count()
}

/// HIGH, in cells that are sound.
pub fn high(cells: &[u64]) -> u16 {
    highest(&cells[TAGS], |&tag| tag != UNPLACED)
}

fn quarters_of(text: u64) -> [u16; 4] {
    [(text >> 48) as u16, (text >> 32) as u16, (text >> 16) as u16, text as u16]
}

fn text_of(quarters: [u16; 4]) -> u64 {
    quarters.iter().fold(0, |text, &quarter| text << 16 | u64::from(quarter))
}
