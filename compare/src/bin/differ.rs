//! Compares the verified linker with the Rust linker on many cases.
//!
//!     differ [CASES] [SEED] [--first N] [--seconds S] [--no-limits] [--reach-all] [--trace]
//!     differ --limits
//!
//! A failure names its case; `differ 1 SEED --first N --no-limits` plays that one alone. With `--reach-all` it is a failure
//! too if the random cases miss an answer, a fault of a line, a name, a number of rounds or a way of feeding. `--limits` lists
//! the cases at the limits and what the papers answer them with.

use std::process::ExitCode;
use std::time::{Duration, Instant};
use std::{env, fs, path::PathBuf};

use compare::differ::limits;
use compare::differ::run::{run, Found, Options, Summary};

const USAGE: &str =
    "usage: differ [CASES] [SEED] [--first N] [--seconds S] [--no-limits] [--reach-all] [--trace] | --limits";

#[cfg(feature = "library")]
const SUBJECT: (compare::ffi::Verified, &str) = (compare::ffi::Verified, compare::ffi::ARCHIVE);
#[cfg(not(feature = "library"))]
const SUBJECT: (compare::lent::Lent, &str) = (compare::lent::Lent, "the Rust linker itself, as a stand-in");

fn main() -> ExitCode {
    if env::args().skip(1).eq(["--limits"]) {
        list_limits();
        return ExitCode::SUCCESS;
    }
    let Some((options, reach_all)) = parse(env::args().skip(1)) else {
        eprintln!("{USAGE}");
        return ExitCode::from(2);
    };
    println!("{} against the Rust linker, seed {}", SUBJECT.1, options.seed);
    let start = Instant::now();
    match run(&SUBJECT.0, &options) {
        Ok(summary) => {
            report(&summary, start.elapsed());
            let missing = if reach_all { summary.random.coverage.missing() } else { Vec::new() };
            missing.iter().for_each(|what| println!("NOT REACHED by the random cases: {what}"));
            if missing.is_empty() {
                ExitCode::SUCCESS
            } else {
                ExitCode::FAILURE
            }
        }
        Err(found) => {
            report_failure(&found, options.seed);
            ExitCode::FAILURE
        }
    }
}

fn parse(mut args: impl Iterator<Item = String>) -> Option<(Options, bool)> {
    let mut reach_all = false;
    let mut options = Options { cases: 10_000, seed: 1, first: 0, limits: true, longest: None, trace: false };
    let mut plain = 0;
    while let Some(arg) = args.next() {
        match arg.as_str() {
            "--first" => options.first = args.next()?.parse().ok()?,
            "--seconds" => options.longest = Some(Duration::from_secs(args.next()?.parse().ok()?)),
            "--no-limits" => options.limits = false,
            "--reach-all" => reach_all = true,
            "--trace" => options.trace = true,
            _ => {
                let number = arg.parse().ok()?;
                match plain {
                    0 => options.cases = number,
                    1 => options.seed = number,
                    _ => return None,
                }
                plain += 1;
            }
        }
    }
    Some((options, reach_all))
}

fn list_limits() {
    for case in limits::all() {
        println!("{}", case.label);
        for step in case.steps {
            match step.expected {
                Some((number, line, 0)) => println!("    {:?}: {number} at line {line}", step.call),
                Some((number, line, column)) => {
                    println!("    {:?}: {number} at line {line}, column {column}", step.call);
                }
                None => {}
            }
            if let Some((advice @ 1.., line, column)) = step.advice {
                println!("    {:?}: advises {advice} at line {line}, column {column}", step.call);
            }
        }
    }
}

fn report(summary: &Summary, time: Duration) {
    let Summary { limits, random } = summary;
    println!(
        "{} cases at the limits and {} random ones agree: {} calls in {:.1} s",
        limits.cases,
        random.cases,
        limits.coverage.calls + random.coverage.calls,
        time.as_secs_f64()
    );
    if limits.cases > 0 {
        println!("\nCases at the limits (LOAD: given files):\n{}", limits.coverage);
    }
    println!("\nRandom cases (LOAD: whole, damaged and odd files):\n{}", random.coverage);
}

fn report_failure(found: &Found, seed: u64) {
    let Found { number, case, failure } = found;
    match number {
        Some(number) => println!("FAILED: case {number} of seed {seed}, {}", case.label),
        None => println!("FAILED: {}", case.label),
    }
    for (number, step) in case.steps.iter().enumerate() {
        println!("  step {}: {:?}", number + 1, step.call);
    }
    println!("{failure}");
    if let Some(file) = &failure.file {
        let path = PathBuf::from(env!("CARGO_MANIFEST_DIR")).join("target/differ-failure.txt");
        match fs::write(&path, file) {
            Ok(()) => println!("the file stands in {}", path.display()),
            Err(error) => println!("the file could not be written to {}: {error}", path.display()),
        }
    }
    if let Some(number) = number {
        println!("to repeat: differ 1 {seed} --first {number} --no-limits");
    }
}
