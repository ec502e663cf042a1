//! Random cases of loads that come in pieces: files cut anywhere, with other calls, refused ones and damage in between.

use super::author::Author;
use super::case::{odd_file, random_call, random_length, random_start, Call, Case, Harm, Step};
use super::damage::damaged;
use super::rng::Rng;
use super::tape::{FEED_CELLS, MOST_BYTES};
use crate::memory::{STATE_CELLS, WORK_CELLS};

/// Behind so many pieces, the rest of a file comes in large ones, to save time.
const MANY_PIECES: usize = 24;

/// Lines that are bad where no module is open.
const BAD_LINES: [&str; 9] =
    ["2", "6", "7 ***LEB", "6 ***LSB 0", "\t", "6 ***LEB", "4 X ***ENTRY", "10 1 1 0 ***DBDB", "1 ***END"];

/// One load after the other.
pub fn fed(rng: &mut Rng) -> Case {
    let mut author = Author::new(rng);
    let (start, state) = random_start(&author, rng);
    let mut steps = Vec::new();
    for _ in 0..rng.within(1..=3) {
        if rng.percent(15) {
            disturb(&mut author, rng, &mut steps);
        }
        if rng.percent(10) {
            near_the_limit(&mut author, rng, &mut steps);
        } else {
            steps.push(on_feed(Call::Open, rng));
            let file = random_file(&mut author, rng);
            feed(&file, &mut author, rng, &mut steps);
        }
        finish(rng, &mut steps);
    }
    Case { label: format!("in pieces, {start}"), state, steps }
}

/// The same case with its files in pieces.
pub fn in_pieces(case: Case, rng: &mut Rng) -> Case {
    let mut steps = Vec::new();
    for step in case.steps {
        let Call::Load { file, work_cells, .. } = &step.call else {
            steps.push(step);
            continue;
        };
        steps.push(Call::Open.into());
        steps.extend(cut(file, rng).into_iter().map(|piece| Step::from(Call::Feed(piece))));
        steps.push(Step { call: Call::Close { work_cells: *work_cells }, ..step });
    }
    Case { label: format!("in pieces, {}", case.label), steps, ..case }
}

fn random_file(author: &mut Author, rng: &mut Rng) -> Vec<u8> {
    match rng.below(100) {
        0..50 => author.file(rng).laid_out(rng),
        50..85 => damaged(&author.file(rng), rng),
        85..90 => cut_off(author.file(rng).tidy(), rng),
        90..97 => [random_blank(rng, 40), rng.pick(&BAD_LINES).as_bytes().to_vec(), b"\n".to_vec()].concat(),
        _ => odd_file(rng),
    }
}

/// Some lines of a file, which most likely ends too soon then.
fn cut_off(file: Vec<u8>, rng: &mut Rng) -> Vec<u8> {
    let lines: Vec<&[u8]> = file.split_inclusive(|&byte| byte == b'\n').collect();
    lines[..rng.within(0..=lines.len())].concat()
}

/// A file whose end stands about the longest total. All of it but the last bytes are there at once.
fn near_the_limit(author: &mut Author, rng: &mut Rng, steps: &mut Vec<Step>) {
    let any = rng.within(65_000..=67_000);
    let total = *rng.pick(&[65_535, 65_536, 65_536, 65_537, 65_537, 66_048, any]);
    let end = match rng.below(3) {
        0 => author.file(rng).laid_out(rng),
        1 => damaged(&author.file(rng), rng),
        _ => format!("{}\n", rng.pick(&BAD_LINES)).into_bytes(),
    };
    let behind = if rng.percent(30) { random_blank(rng, 600) } else { Vec::new() };
    let end = [end, behind].concat();
    let mut file = blank_lines(total.saturating_sub(end.len()), rng);
    file.extend(end);
    let there = MOST_BYTES - *rng.pick(&[0, 1, 2, 100, 511, 512, 513, 1500]);
    steps.push(Call::Fed(file[..there.min(file.len())].to_vec()).into());
    feed(&file[there.min(file.len())..], author, rng, steps);
}

/// Lines without a field, so many bytes in all.
fn blank_lines(bytes: usize, rng: &mut Rng) -> Vec<u8> {
    let width = *rng.pick(&[2, 20, 40, 80]);
    (1..=bytes).map(|place| if place == bytes || place % width == 0 { b'\n' } else { b' ' }).collect()
}

fn random_blank(rng: &mut Rng, most: usize) -> Vec<u8> {
    let bytes = rng.below(most);
    blank_lines(bytes, rng)
}

fn feed(file: &[u8], author: &mut Author, rng: &mut Rng, steps: &mut Vec<Step>) {
    for piece in cut(file, rng) {
        if rng.percent(5) {
            disturb(author, rng, steps);
        }
        steps.push(on_feed(Call::Feed(piece), rng));
    }
}

/// The pieces of a file, in one manner of cutting.
fn cut(file: &[u8], rng: &mut Rng) -> Vec<Vec<u8>> {
    let manner = rng.below(6);
    let mut pieces = Vec::new();
    let mut rest = file;
    while !rest.is_empty() {
        let size = if pieces.len() < MANY_PIECES { piece_size(manner, rest, rng) } else { 512 };
        let (piece, behind) = rest.split_at(size.min(rest.len()));
        pieces.push(piece.to_vec());
        rest = behind;
    }
    if rng.percent(20) {
        pieces.insert(rng.within(0..=pieces.len()), Vec::new());
    }
    pieces
}

fn piece_size(manner: usize, rest: &[u8], rng: &mut Rng) -> usize {
    let line = rest.iter().position(|&byte| byte == b'\n').map_or(rest.len(), |place| place + 1).min(512);
    match manner {
        0 => rng.within(0..=3),
        1 => 512,
        // a line and no more, all of it but its LF, or but its CR and LF
        2 => line.saturating_sub(rng.below(3)).max(1),
        3 => rng.within(0..=512),
        4 => *rng.pick(&[0, 1, 2, 511, 512]),
        _ => (line + rng.below(40)).min(512),
    }
}

fn finish(rng: &mut Rng, steps: &mut Vec<Step>) {
    let call = match rng.below(100) {
        0..88 => Call::Close { work_cells: random_length(rng, WORK_CELLS) },
        88..96 => Call::Drop,
        _ => return,
    };
    steps.push(on_feed(call, rng));
    if rng.percent(40) {
        steps.push(Call::Reset.into());
    }
}

/// A call with feed and state memory most often of the right lengths.
fn on_feed(call: Call, rng: &mut Rng) -> Step {
    let (state_cells, feed_cells) = (random_length(rng, STATE_CELLS), random_length(rng, FEED_CELLS));
    Step { state_cells, feed_cells, ..Step::from(call) }
}

/// Something that is not the next piece.
fn disturb(author: &mut Author, rng: &mut Rng, steps: &mut Vec<Step>) {
    match rng.below(10) {
        0 => steps.push(on_feed(Call::Open, rng)),
        1 => steps.push(on_feed(longer_piece(rng), rng)),
        2 => {
            let call = feed_call(rng);
            steps.push(Step { feed_cells: other_length(rng), ..Step::from(call) });
        }
        3..7 => harm(rng, steps),
        _ => {
            let (call, reset_chance) = random_call(author, rng);
            steps.push(call.into());
            if rng.percent(reset_chance) {
                steps.push(Call::Reset.into());
            }
        }
    }
}

/// Of feed memory.
fn other_length(rng: &mut Rng) -> usize {
    let any = rng.below(FEED_CELLS);
    *rng.pick(&[0, 1, any, FEED_CELLS - 1, FEED_CELLS + 1, 2 * FEED_CELLS])
}

fn longer_piece(rng: &mut Rng) -> Call {
    let any = rng.within(513..=2000);
    Call::Feed(vec![*rng.pick(b"\n 2"); *rng.pick(&[513, 513, 514, 1024, any, 65_536])])
}

fn feed_call(rng: &mut Rng) -> Call {
    match rng.below(5) {
        0 => Call::Open,
        1 => Call::Feed(random_blank(rng, 512)),
        2 => longer_piece(rng),
        3 => Call::Close { work_cells: random_length(rng, WORK_CELLS) },
        _ => Call::Drop,
    }
}

/// Feed memory that someone else wrote to, some calls on it, and most often all of it as before.
fn harm(rng: &mut Rng, steps: &mut Vec<Step>) {
    steps.push(Call::Harm(random_harm(rng)).into());
    for _ in 0..rng.within(1..=3) {
        let call = feed_call(rng);
        let state_cells = if rng.percent(15) { STATE_CELLS - 1 } else { STATE_CELLS };
        let feed_cells = if rng.percent(10) { other_length(rng) } else { FEED_CELLS };
        steps.push(Step { state_cells, feed_cells, ..Step::from(call) });
    }
    if rng.percent(90) {
        steps.push(Call::Mend.into());
    }
}

fn random_harm(rng: &mut Rng) -> Harm {
    let last = MOST_BYTES as u64 + 1;
    let any = rng.next();
    let byte = *rng.pick(&[1, b'\n', b' ', 0x80, 0xFF]);
    match rng.below(7) {
        0 => Harm::First(*rng.pick(&[0, 1, last, last + 1, last + 2, 1 << 32, u64::MAX, any])),
        1 => Harm::First(*rng.pick(&[0, last + 1])),
        2 => Harm::Grown(*rng.pick(&[1, -1, 8, -8, 1 << 32])),
        3 | 4 => Harm::Byte(*rng.pick(&[-1, 0, 0, 1, 2, 6, 7, 8, 64]), byte),
        5 => Harm::Cell(FEED_CELLS - 1 - rng.below(2), u64::from(byte) << *rng.pick(&[0, 56])),
        _ => Harm::Cell(1 + rng.below(FEED_CELLS - 1), any),
    }
}
