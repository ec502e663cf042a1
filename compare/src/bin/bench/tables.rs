//! The two tables, in Markdown: times and ratios at full size, and growth.

use std::time::Duration;

use crate::{Measured, Times};

pub fn print(name: &str, results: &[Measured]) {
    println!("\nMicroseconds at full size, and the ratios to the Rust linker and to the floor:\n");
    println!(
        "| {:42} | {name:>9} | {:>9} | {:>9} | {:>9} | {:>7} | {:>7} | {:>8} | {:>4} | size |",
        "", "Rust", "Rust own", "floor", "/ Rust", "/ floor", "Rust/fl.", "runs"
    );
    println!("|---|--:|--:|--:|--:|--:|--:|--:|--:|---|");
    for Measured { label, sizes: [.., (size, times)] } in results {
        let Times { subject, rust, own, floor, runs } = times;
        println!(
            "| {label:42} | {:9.1} | {:9.1} | {:9.1} | {:9.1} | {:7.2} | {:7.1} | {:8.1} | {runs:4} | {size} |",
            micros(*subject),
            micros(*rust),
            micros(*own),
            micros(*floor),
            ratio(*subject, *rust),
            ratio(*subject, *floor),
            ratio(*rust, *floor),
        );
    }

    println!("\nGrowth: microseconds at 1/16, 1/4 and all of the size, and how many times longer each takes than the one before:\n");
    println!("| {:42} | {:9} | {:>9} | {:>9} | {:>9} | {:>7} | {:>7} |", "", "", "1/16", "1/4", "all", "", "");
    println!("|---|---|--:|--:|--:|--:|--:|");
    for Measured { label, sizes } in results {
        let of = |time: fn(&Times) -> Duration| [0, 1, 2].map(|i| time(&sizes[i].1));
        let kinds = [
            (name, of(|times| times.subject)),
            ("Rust", of(|times| times.rust)),
            ("Rust own", of(|times| times.own)),
            ("floor", of(|times| times.floor)),
        ];
        for (label, (who, [small, middle, whole])) in [label, "", "", ""].into_iter().zip(kinds) {
            println!(
                "| {label:42} | {who:9} | {:9.1} | {:9.1} | {:9.1} | x {:5.2} | x {:5.2} |",
                micros(small),
                micros(middle),
                micros(whole),
                ratio(middle, small),
                ratio(whole, middle)
            );
        }
    }
    println!("\nThe sizes:\n");
    for Measured { label, sizes: [(small, _), (middle, _), (whole, _)] } in results {
        println!("- {label}: {small}; {middle}; {whole}");
    }
}

fn micros(time: Duration) -> f64 {
    time.as_secs_f64() * 1e6
}

fn ratio(time: Duration, other: Duration) -> f64 {
    time.as_secs_f64() / other.as_secs_f64().max(1e-9)
}
