//! Damages one line of a file, often in several places: fields, illegal bytes where they are hard to tell from a wrong field,
//! and lengths about 80. Nothing else is wrong in the file, so that this line's faults are told.

use std::collections::BTreeMap;
use std::ops::Range;

use super::damage::ODD_FIELDS;
use super::rng::Rng;

const ILLEGAL: &[u8] = &[0, 9, 13, 27, 31, 127, 128, 160, 255];

/// Damages some line of the file, if there is one with a field.
pub fn damage_a_line(file: &mut Vec<u8>, rng: &mut Rng) {
    let Some(range) = pick_line(file, rng) else { return };
    let mut line = file[range.clone()].to_vec();
    for _ in 0..*rng.pick(&[1, 1, 1, 2, 2, 3, 4]) {
        damage(&mut line, rng);
    }
    file.splice(range, line);
}

/// A line without its end: any, or one of a shape that is drawn first, for most lines of a file are alike.
fn pick_line(file: &[u8], rng: &mut Rng) -> Option<Range<usize>> {
    let mut shapes: BTreeMap<(usize, u8, bool), Vec<Range<usize>>> = BTreeMap::new();
    let mut start = 0;
    for line in file.split(|&byte| byte == b'\n') {
        let range = start..start + line.strip_suffix(b"\r").unwrap_or(line).len();
        start += line.len() + 1;
        let text = &file[range.clone()];
        let fields = fields(text);
        if let (Some(first), Some(last)) = (fields.first(), fields.last()) {
            let (first, last) = (text[first.start], &text[last.clone()]);
            shapes.entry((fields.len(), first.min(b'A'), last.starts_with(b"***"))).or_default().push(range);
        }
    }
    let shapes: Vec<Vec<Range<usize>>> = shapes.into_values().collect();
    if shapes.is_empty() {
        return None;
    }
    let alike = if rng.percent(70) { rng.pick(&shapes).clone() } else { shapes.concat() };
    Some(rng.pick(&alike).clone())
}

/// The places of a line's fields.
pub fn fields(line: &[u8]) -> Vec<Range<usize>> {
    let mut start = 0;
    let mut fields = Vec::new();
    for part in line.split(|&byte| byte == b' ') {
        if !part.is_empty() {
            fields.push(start..start + part.len());
        }
        start += part.len() + 1;
    }
    fields
}

fn damage(line: &mut Vec<u8>, rng: &mut Rng) {
    let fields = fields(line);
    if fields.is_empty() {
        line.extend_from_slice(rng.pick(ODD_FIELDS).as_bytes());
        return;
    }
    let field = rng.pick(&fields).clone();
    let illegal = *rng.pick(ILLEGAL);
    match rng.below(13) {
        0 | 1 => drop(line.splice(field, rng.pick(ODD_FIELDS).bytes())),
        2 => drop(line.drain(field)),
        3 => drop(line.splice(field.start..field.start, format!("{} ", rng.pick(ODD_FIELDS)).into_bytes())),
        4 => add_field(line, rng),
        5 => line[field.start] = illegal,
        6 => line.insert(field.start, illegal),
        7 => line.insert(rng.within(field.start + 1..=field.end), illegal),
        8 => join(line, field.start),
        9 => lengthen(line, rng.within(79..=83), *rng.pick(&[0, field.start, line.len()])),
        10 => push_to(line, field.start, rng.within(78..=82)),
        11 => {
            line.truncate(fields[fields.len() - 1].start);
            lengthen(line, rng.within(79..=82), line.len());
        }
        _ => line.push(b'\r'),
    }
}

/// A field too many, now and then with illegal bytes in it and behind it.
fn add_field(line: &mut Vec<u8>, rng: &mut Rng) {
    line.extend(format!(" {}", rng.pick(ODD_FIELDS)).into_bytes());
    while rng.percent(30) {
        line.push(*rng.pick(ILLEGAL));
    }
}

/// A TAB in place of the space in front of a field, which parts nothing.
fn join(line: &mut [u8], start: usize) {
    if start > 0 {
        line[start - 1] = b'\t';
    }
}

/// Spaces put in so that the line has so many bytes.
fn lengthen(line: &mut Vec<u8>, length: usize, at: usize) {
    let spaces = length.saturating_sub(line.len());
    line.splice(at..at, std::iter::repeat_n(b' ', spaces));
}

/// Spaces put in front of what stands at a place, so that it stands at another.
fn push_to(line: &mut Vec<u8>, from: usize, to: usize) {
    let spaces = to.saturating_sub(from);
    line.splice(from..from, std::iter::repeat_n(b' ', spaces));
}
