//! The floor: one pass over the same bytes and cells, with nothing done to them.

use std::hint::black_box;

/// Reads the file and the state once, and clears work memory.
pub fn load(state: &[u64], work: &mut [u64], file: &[u8]) {
    read_bytes(file);
    read_cells(state);
    work.fill(0);
    black_box(work);
}

/// Reads the state once and writes the bytes of the image.
pub fn end(state: &[u64], image: &mut [u8]) {
    image.fill(read_cells(state) as u8);
    black_box(image);
}

/// Reads the state once.
pub fn state(state: &[u64]) {
    read_cells(state);
}

fn read_bytes(bytes: &[u8]) -> u64 {
    black_box(bytes.iter().fold(0, |sum: u64, &byte| sum.wrapping_add(byte.into())))
}

fn read_cells(cells: &[u64]) -> u64 {
    black_box(cells.iter().fold(0, |sum: u64, &cell| sum.wrapping_add(cell)))
}
