//! Loads in pieces (request 5/14), in a table of their own: an open, all pieces and the close, beside one LOAD of the same
//! bytes by the same library.

use std::time::{Duration, Instant};

use compare::calls::{Calls, FeedAnswer, LoadAnswer};
use compare::feed::FEED_CELLS;
use compare::lent::Lent;
use compare::linker::LONGEST_FILE;
use compare::memory::fresh;

use crate::inputs::{self, Input, Job};
use crate::{lent_memory, median, run_lent, Memory, FEWEST_RUNS, LONGEST_ROW, SUBJECT};

/// A file, and the size of its pieces.
struct Row {
    label: &'static str,
    input: fn() -> Input,
    piece: usize,
    limit: Limit,
}

/// What the verified library may take at most.
enum Limit {
    /// So many times one LOAD of the same bytes.
    Loads(f64),
    Seconds(f64),
}

const LOADS: Limit = Limit::Loads(40.0);

const ROWS: [Row; 12] = [
    Row { label: "a full file of modules", input: || inputs::modules(1), piece: 512, limit: LOADS },
    Row { label: "modules in columns", input: inputs::modules_in_columns, piece: 512, limit: LOADS },
    Row { label: "one block of words", input: inputs::plain_words, piece: 512, limit: LOADS },
    Row { label: "words in columns, CR LF", input: inputs::words_in_columns, piece: 512, limit: LOADS },
    Row { label: "a section of entries", input: || inputs::entries_empty_table(1), piece: 512, limit: LOADS },
    Row { label: "one-letter externals", input: || inputs::one_letter_externals(1), piece: 512, limit: LOADS },
    Row { label: "data records", input: inputs::data_records, piece: 512, limit: LOADS },
    Row { label: "headers and titles alone", input: inputs::headers_alone, piece: 512, limit: LOADS },
    Row { label: "refused at its first line", input: inputs::refused_at_once, piece: 512, limit: LOADS },
    Row { label: "refused at its last line", input: || inputs::refused_by_reading(1), piece: 512, limit: LOADS },
    Row { label: "a full file of modules", input: || inputs::modules(1), piece: 1, limit: Limit::Seconds(10.0) },
    Row { label: "line ends alone", input: line_ends, piece: 1, limit: Limit::Seconds(10.0) },
];

fn line_ends() -> Input {
    let file = vec![b'\n'; LONGEST_FILE];
    Input { size: format!("{LONGEST_FILE} bytes"), state: fresh(), job: Job::Load(file), expected: 0 }
}

/// A whole load in pieces: how long it took, what the close answered and which pieces advised.
struct Fed {
    time: Duration,
    answer: LoadAnswer,
    advice: Vec<(usize, FeedAnswer)>,
}

/// Times of the subject, of Rust, and of one LOAD of the subject.
struct Times {
    subject: Duration,
    rust: Duration,
    load: Duration,
    runs: usize,
}

pub fn table(runs: usize, only: Option<usize>) {
    let name = SUBJECT.1;
    println!("\nLoads in pieces, in milliseconds: an open, all pieces and the close, beside one LOAD of the same bytes by the {name} linker.");
    println!("Pieces of one byte are timed once, the others up to {runs} times; medians:\n");
    println!(
        "| {:25} | piece | {name:>9} | {:>9} | {:>8} | {:>8} | {:>9} | {:7} | {:>4} | bytes |",
        "", "Rust", "one LOAD", "/ LOAD", "at most", "", "runs"
    );
    println!("|---|--:|--:|--:|--:|--:|--:|---|--:|--:|");
    let mut memory = lent_memory();
    for (_, row) in ROWS.iter().enumerate().filter(|&(number, _)| only.is_none_or(|only| only == number)) {
        print(row, &measure(row, &mut memory, runs));
    }
}

fn print(row: &Row, times: &Times) {
    let Times { subject, rust, load, runs } = times;
    let millis = |time: &Duration| time.as_secs_f64() * 1e3;
    let ratio = subject.as_secs_f64() / load.as_secs_f64().max(1e-9);
    let (limit, is_met) = match row.limit {
        Limit::Loads(most) => (format!("{most} LOADs"), ratio <= most),
        Limit::Seconds(most) => (format!("{most} s"), subject.as_secs_f64() <= most),
    };
    println!(
        "| {:25} | {:5} | {:9.3} | {:9.3} | {:8.3} | {ratio:8.1} | {limit:>9} | {:7} | {runs:4} | {:5} |",
        row.label,
        row.piece,
        millis(subject),
        millis(rust),
        millis(load),
        if is_met { "met" } else { "NOT MET" },
        file_of(&(row.input)()).len(),
    );
}

fn file_of(input: &Input) -> &[u8] {
    match &input.job {
        Job::Load(file) => file,
        _ => &[],
    }
}

fn measure(row: &Row, memory: &mut Memory, runs: usize) -> Times {
    let input = (row.input)();
    let start = Instant::now();
    let mut times: [Vec<Duration>; 3] = Default::default();
    // the first of the long rows counts, and of the others it warms the memory up
    let (first, runs) = if row.piece == 1 { (0, 1) } else { (1, runs.max(1) + 1) };
    while times[0].len() < runs && (start.elapsed() < LONGEST_ROW || times[0].len() <= FEWEST_RUNS) {
        let subject = run_in_pieces(&SUBJECT.0, &input, row.piece, memory);
        let state = memory.state.clone();
        let rust = run_in_pieces(&Lent, &input, row.piece, memory);
        assert!(state == memory.state && subject.answer == rust.answer, "{} and Rust part", SUBJECT.1);
        assert_eq!(subject.advice, rust.advice, "{} and Rust advise differently", SUBJECT.1);
        let load = run_lent(&SUBJECT.0, &input, memory);
        assert!(state == memory.state, "a close and a LOAD part");
        times.iter_mut().zip([subject.time, rust.time, load]).for_each(|(times, time)| times.push(time));
    }
    let runs = times[0].len() - first;
    let [subject, rust, load] = times.map(|times| median(times[first..].to_vec()));
    Times { subject, rust, load, runs }
}

fn run_in_pieces(calls: &dyn Calls, input: &Input, piece: usize, memory: &mut Memory) -> Fed {
    memory.state.copy_from_slice(&input.state);
    let mut feed = vec![0; FEED_CELLS];
    let mut advice = Vec::new();
    let start = Instant::now();
    let opened = calls.open(&mut feed).number;
    for (number, bytes) in file_of(input).chunks(piece).enumerate() {
        let answer = calls.feed(&mut feed, bytes);
        if answer != FeedAnswer::default() {
            advice.push((number, answer));
        }
    }
    let answer = calls.close(&mut feed, &mut memory.state, &mut memory.work);
    let time = start.elapsed();
    assert_eq!((opened, answer.number), (0, input.expected), "the input is answered as it was meant to be");
    assert!(feed.iter().chain(&memory.work).all(|&cell| cell == 0), "feed and work memory come back zero");
    Fed { time, answer, advice }
}
