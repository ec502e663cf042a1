//! Random states: sound ones that no sequence of calls need reach, and damaged ones that lie close to them.

use super::author::{random_name, Author};
use super::names::{cell_of, misspelled};
use super::rng::Rng;
use crate::memory::*;
use crate::name::Name;

/// A sound state over the author's names.
pub fn sound(author: &Author, rng: &mut Rng) -> Vec<u64> {
    let mut cells = fresh();
    let names = some_names(author, rng);
    cells[COUNT] = names.len() as u64;
    for (i, &name) in names.iter().enumerate() {
        cells[NAMES.start + i] = name;
        if rng.percent(60) {
            let any = rng.next() % DEFINED;
            cells[VALUES.start + i] = DEFINED + *rng.pick(&[0, 1, DEFINED - 1, any]);
        }
    }
    let density = *rng.pick(&[0, 0, 2, 30, 95, 100]);
    for address in 0..TAGS.len() {
        if rng.percent(density) {
            let any = rng.next();
            cells[TEXTS.start + address] = *rng.pick(&[0, 0xFFFF, u64::MAX, any]);
            cells[TAGS.start + address] =
                if names.is_empty() || rng.percent(60) { PLAIN } else { REFERENCE + rng.below(names.len()) as u64 };
        }
    }
    let placed_end = cells[TAGS].iter().rposition(|&tag| tag != UNPLACED).map_or(0, |address| address + 1);
    let any = rng.next() % 4097;
    cells[NEXT] = *rng.pick(&[0, 1, 4095, 4096, any, placed_end as u64]);
    cells[MARK] = *rng.pick(&[UNMARKED, UNMARKED, UNMARKED, UNMARKED, UNMARKED, UNMARKED, BROKEN, FROZEN]);
    cells
}

/// Different names, some or all of them the author's.
fn some_names(author: &Author, rng: &mut Rng) -> Vec<u64> {
    let count = *rng.pick(&[0, 1, 5, 40, 255, 256]);
    let mut names: Vec<u64> = author.names.iter().map(|name| packed(name)).collect();
    rng.shuffle(&mut names);
    names.truncate(count.min(rng.within(0..=names.len())));
    while names.len() < count {
        let name = packed(&random_name(rng));
        if !names.contains(&name) {
            names.push(name);
        }
    }
    names
}

fn packed(name: &str) -> u64 {
    Name::parse(name.as_bytes()).map_or(0, Name::packed)
}

/// A change of one cell, as cell and new content. Most leave a sound state unsound, and some do not.
pub fn poke(cells: &[u64], rng: &mut Rng) -> (usize, u64) {
    let count = (cells[COUNT] as usize).min(NAMES.len());
    let symbol = rng.below(count.max(1));
    let unused = count.min(NAMES.len() - 1);
    let address = rng.below(TAGS.len());
    let name = cells[NAMES.start + symbol];
    match rng.below(27) {
        0 => (COUNT, *rng.pick(&[0, 1, 256, 257, u64::MAX])),
        1 => (COUNT, cells[COUNT].wrapping_add(1)),
        2 => (COUNT, cells[COUNT].wrapping_sub(1)),
        3 => (NEXT, *rng.pick(&[0, 4095, 4096, 4097, 65536, u64::MAX])),
        4 => (MARK, *rng.pick(&[0, 1, 2, 3, 4, 1 << 32])),
        5 => (SPARE, *rng.pick(&[0, 1, u64::MAX])),
        6 => (NAMES.start + symbol, cells[NAMES.start + rng.below(count.max(1))]),
        7 => (NAMES.start + symbol, *rng.pick(&[0, 0x41, 0x41 << 40, 0x30 << 40, 0x61 << 40, 0x41 << 48, u64::MAX])),
        8 => (NAMES.start + symbol, name ^ 1 << rng.below(64)),
        9 => (NAMES.start + symbol, name & !(0xFF << (8 * rng.below(6)))),
        10 => (NAMES.start + symbol, packed(&random_name(rng))),
        11 => (NAMES.start + unused, packed(&random_name(rng))),
        12 => (VALUES.start + symbol, *rng.pick(&[0, 1, 65535, 65536, 131_071, 131_072, u64::MAX])),
        13 => (VALUES.start + unused, *rng.pick(&[0, 1, 65536])),
        14 => (NAMES.start + rng.below(NAMES.len()), rng.next()),
        15 => (VALUES.start + rng.below(VALUES.len()), 65536 + rng.next() % 65536),
        16 => (TEXTS.start + address, *rng.pick(&[0, 1, u64::MAX])),
        17 => (TAGS.start + address, *rng.pick(&[0, 1, 2, 257, 258, u64::MAX])),
        18 => (TAGS.start + address, REFERENCE + count as u64),
        19 => (TAGS.start + address, (REFERENCE + count as u64).saturating_sub(1)),
        20 => (TAGS.start + *rng.pick(&[0, TAGS.len() - 1]), *rng.pick(&[0, 1, 2])),
        21 => (TEXTS.start + *rng.pick(&[0, TEXTS.len() - 1]), *rng.pick(&[0, 1])),
        22..=24 => (NAMES.start + symbol, cell_of(&misspelled(random_name(rng).as_bytes(), rng))),
        _ => {
            let cell = rng.below(STATE_CELLS);
            (cell, if rng.percent(50) { cells[cell] ^ 1 << rng.below(64) } else { rng.next() })
        }
    }
}
