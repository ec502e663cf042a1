//! Times the verified linker beside the Rust linker and the floor, and prints the ratios and the growth.
//!
//!     bench [RUNS]
//!     bench --rows                   the numbers of the rows
//!     bench --play ROW WHO [RUNS]    plays a row on one linker (verified or rust) and times nothing: for a profiler
//!     bench --feeds [RUNS [ROW]]     the table of loads in pieces alone, or one of its rows, which count from 0

mod feeds;
mod floor;
mod inputs;
mod tables;

use std::hint::black_box;
use std::process::ExitCode;
use std::time::{Duration, Instant};
use std::{env, fs};

use compare::calls::Calls;
use compare::lent::Lent;
use compare::linker::{Linker, PROGRAM_WORDS};
use compare::memory::{decode, fresh, STATE_CELLS, WORK_CELLS};

use inputs::{Input, Job, ROWS};

#[cfg(feature = "library")]
const SUBJECT: (compare::ffi::Verified, &str) = (compare::ffi::Verified, "verified");
#[cfg(not(feature = "library"))]
const SUBJECT: (Lent, &str) = (Lent, "stand-in");

const RUNS: usize = 201;
const DIVISORS: [usize; 3] = [16, 4, 1];
/// A row that takes longer than this gets fewer runs, but never fewer than `FEWEST_RUNS`.
const LONGEST_ROW: Duration = Duration::from_secs(5);
const FEWEST_RUNS: usize = 11;

/// The memory that is lent, the same for all.
struct Memory {
    state: Vec<u64>,
    work: Vec<u64>,
    out: Vec<u8>,
}

/// A row of the table, measured: its three sizes in words, and the times.
struct Measured {
    label: &'static str,
    sizes: [(String, Times); 3],
}

/// Medians of the runs of one input.
struct Times {
    subject: Duration,
    rust: Duration,
    own: Duration,
    floor: Duration,
    runs: usize,
}

fn main() -> ExitCode {
    let args: Vec<String> = env::args().skip(1).collect();
    let args: Vec<&str> = args.iter().map(String::as_str).collect();
    if obey(&args).is_none() {
        eprintln!("usage: bench [RUNS] | --rows | --play ROW verified|rust [RUNS] | --feeds [RUNS [ROW]]");
        return ExitCode::from(2);
    }
    ExitCode::SUCCESS
}

/// `None` where the arguments make no sense.
fn obey(args: &[&str]) -> Option<()> {
    match *args {
        [] => table(RUNS),
        ["--rows"] => ROWS.iter().enumerate().for_each(|(number, row)| println!("{number:2} {}", row.label)),
        ["--feeds"] => feeds::table(RUNS, None),
        ["--feeds", runs] => feeds::table(runs.parse().ok()?, None),
        ["--feeds", runs, row] => feeds::table(runs.parse().ok()?, Some(row.parse().ok()?)),
        ["--play", row, who] => play(row, who, 1)?,
        ["--play", row, who, runs] => play(row, who, runs.parse().ok()?)?,
        [runs] => table(runs.parse().ok()?),
        _ => return None,
    }
    Some(())
}

fn lent_memory() -> Memory {
    Memory { state: fresh(), work: vec![0; WORK_CELLS], out: vec![0; 11 * PROGRAM_WORDS + 5] }
}

/// Plays a row at full size on one linker.
fn play(row: &str, who: &str, runs: usize) -> Option<()> {
    let row = ROWS.get(row.parse::<usize>().ok()?)?;
    let calls: &dyn Calls = match who {
        "verified" => &SUBJECT.0,
        "rust" => &Lent,
        _ => return None,
    };
    let (input, mut memory) = ((row.input)(1), lent_memory());
    println!("{}: {}", row.label, input.size);
    for _ in 0..runs {
        run_lent(calls, &input, &mut memory);
    }
    Some(())
}

fn table(runs: usize) {
    explain(runs);
    let mut memory = lent_memory();
    let mut results = Vec::new();
    for row in ROWS {
        let sizes = DIVISORS.map(|divisor| {
            let input = (row.input)(divisor);
            let times = measure(&input, &mut memory, runs);
            (input.size, times)
        });
        results.push(Measured { label: row.label, sizes });
    }
    tables::print(SUBJECT.1, &results);
    feeds::table(runs, None);
}

fn explain(runs: usize) {
    let name = SUBJECT.1;
    println!("On {}, both built for release.", processor().unwrap_or("an unknown processor".into()));
    println!("- {name} and Rust: the calls on lent memory, each by the same rules. Both test all {STATE_CELLS} cells of the state for");
    println!("  soundness, and at LOAD both clear all {WORK_CELLS} cells of work memory. Rust decodes the cells, works on hash maps and");
    println!("  vectors of its own, and encodes them back.");
    println!(
        "- Rust own: the same linker on its own structures, with no lent memory and no test of it, for information."
    );
    println!("- floor: one pass over the same bytes and cells, with nothing done to them. LOAD: file and state read, work memory");
    println!("  cleared; END: state read, image written; FORCE and MEMORY: state read.");
    println!("- Buffers: one state, one work memory and one output, lent to each in turn. Before each run the state is copied back,");
    println!("  which is not timed and leaves it in the cache; work memory is zero, as the run before left it.");
    println!("- Up to {runs} runs of each, alternating; medians.");
    #[cfg(feature = "library")]
    println!("- {name}: {}", compare::ffi::ARCHIVE);
    #[cfg(not(feature = "library"))]
    println!("- {name}: the Rust linker once more, since the feature 'library' is off.");
}

fn measure(input: &Input, memory: &mut Memory, runs: usize) -> Times {
    check(input, memory);
    let own = decode(&input.state).expect("the state of an input is sound");
    let start = Instant::now();
    let mut times: [Vec<Duration>; 4] = Default::default();
    while times[0].len() < runs.max(1) && (start.elapsed() < LONGEST_ROW || times[0].len() < FEWEST_RUNS) {
        times[0].push(run_lent(&SUBJECT.0, input, memory));
        times[1].push(run_lent(&Lent, input, memory));
        times[2].push(run_own(own.clone(), input, memory));
        times[3].push(run_floor(input, memory));
    }
    let runs = times[0].len();
    let [subject, rust, own, floor] = times.map(median);
    Times { subject, rust, own, floor, runs }
}

/// Both do the same work: they leave equal states and outputs, and work memory zero. It also warms the memory up.
fn check(input: &Input, memory: &mut Memory) {
    run_lent(&SUBJECT.0, input, memory);
    let (state, out) = (memory.state.clone(), memory.out.clone());
    assert!(memory.work.iter().all(|&cell| cell == 0), "{} leaves work memory zero", SUBJECT.1);
    run_lent(&Lent, input, memory);
    assert!(state == memory.state && out == memory.out, "{} and Rust part on {}", SUBJECT.1, input.size);
    assert!(memory.work.iter().all(|&cell| cell == 0), "Rust leaves work memory zero");
}

fn run_lent(calls: &dyn Calls, input: &Input, memory: &mut Memory) -> Duration {
    memory.state.copy_from_slice(&input.state);
    let Memory { state, work, out } = memory;
    let start = Instant::now();
    let number = match &input.job {
        Job::Load(file) => calls.load(state, work, file).number,
        Job::Force(name) => calls.force(state, name).number,
        Job::End => calls.end(state, out).number,
        Job::Memory => calls.memory(state).number,
    };
    let time = start.elapsed();
    assert_eq!(number, input.expected, "the input is answered as it was meant to be");
    time
}

fn run_own(mut linker: Linker, input: &Input, memory: &mut Memory) -> Duration {
    let start = Instant::now();
    let number = match &input.job {
        Job::Load(file) => linker.load(file).map_or_else(|refusal| refusal.number(), |_| 0),
        Job::Force(name) => linker.force(name).map_or_else(|refusal| refusal.number(), |_| 0),
        Job::End => linker.end(&mut memory.out).map_or_else(|refusal| refusal.number(), |_| 0),
        Job::Memory => {
            black_box(black_box(&linker).high());
            0
        }
    };
    let time = start.elapsed();
    assert_eq!(number, input.expected, "the input is answered as it was meant to be");
    time
}

fn run_floor(input: &Input, memory: &mut Memory) -> Duration {
    memory.state.copy_from_slice(&input.state);
    let image = 11 * compare::memory::placed(&memory.state) + 5;
    let start = Instant::now();
    match &input.job {
        Job::Load(file) => floor::load(&memory.state, &mut memory.work, file),
        Job::End => floor::end(&memory.state, &mut memory.out[..image]),
        Job::Force(_) | Job::Memory => floor::state(&memory.state),
    }
    start.elapsed()
}

fn processor() -> Option<String> {
    let text = fs::read_to_string("/proc/cpuinfo").ok()?;
    let line = text.lines().find(|line| line.starts_with("model name"))?;
    Some(line.split_once(':')?.1.trim().to_string())
}

fn median(mut times: Vec<Duration>) -> Duration {
    times.sort_unstable();
    times[times.len() / 2]
}
