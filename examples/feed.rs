//! feed: links object files that come slowly to an image, over the proved library, as feed.c does.
//!
//!     feed IMAGE FILE ..
#[path = "../rust/lnk100.rs"]
mod lnk100;

use lnk100::{Feed, Linker, Refused};
use std::io::{self, Read, Write};
use std::{env, fs, process::exit};

// A column of 0 is none.
fn tell(path: &str, what: &str, number: u64, line: u64, column: u64) {
    let column = if column == 0 { String::new() } else { format!(", column {column}") };
    println!("{path}: {what} {number} at line {line}{column}");
}

fn stop(what: &str, r: Refused) -> ! {
    tell(what, "refused by", r.number, r.line, r.column);
    exit(1)
}

fn source(path: &str) -> io::Result<Box<dyn Read>> {
    Ok(if path == "-" { Box::new(io::stdin()) } else { Box::new(fs::File::open(path)?) })
}

// Reads whatever is there at a time, and tells advice before it waits for more.
fn feed_file(path: &str) -> io::Result<Feed> {
    let mut source = source(path)?;
    let mut feed = Feed::open();
    let mut bytes = [0; 4096];
    loop {
        let n = source.read(&mut bytes)?;
        if n == 0 {
            return Ok(feed);
        }
        feed.write_all(&bytes[..n])?;
        if let Some(a) = feed.take_advice() {
            tell(path, "advice", a.number, a.line, a.column);
        }
    }
}

fn load(linker: &mut Linker, path: &str) {
    let Ok(feed) = feed_file(path) else {
        println!("{path}: cannot be read");
        exit(1)
    };
    match feed.close(linker) {
        Ok(rounds) => println!("{path}: loaded, {rounds} rounds"),
        Err(r) => stop(path, r),
    }
}

fn main() {
    let words: Vec<String> = env::args().skip(1).collect();
    if words.len() < 2 {
        println!("usage: feed IMAGE FILE ..");
        exit(2)
    }
    let image = &words[0];
    let mut linker = Linker::new();
    for path in &words[1..] {
        load(&mut linker, path);
    }
    let bytes = linker.end().unwrap_or_else(|r| stop("END", r));
    if fs::write(image, &bytes).is_err() {
        println!("{image}: cannot be written");
        exit(1)
    }
    println!("{image}: {} bytes", bytes.len());
}
