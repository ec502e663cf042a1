//! link: links object files to an image, over the proved library, as link.c does.
//!
//!     link IMAGE FILE ..
#[path = "../rust/lnk100.rs"]
mod lnk100;

use lnk100::{Linker, Refused};
use std::{env, fs, process::exit};

fn stop(what: &str, r: Refused) -> ! {
    let column = if r.column == 0 { String::new() } else { format!(", column {}", r.column) };
    println!("{what}: refused by {} at line {}{column}", r.number, r.line);
    exit(1)
}

fn load(linker: &mut Linker, path: &str) {
    let Ok(bytes) = fs::read(path) else {
        println!("{path}: cannot be read");
        exit(1)
    };
    match linker.load(&bytes) {
        Ok(rounds) => println!("{path}: loaded, {rounds} rounds"),
        Err(r) => stop(path, r),
    }
}

fn print_symbols(linker: &Linker) -> Result<(), Refused> {
    let mut index = 0;
    while let Some(s) = linker.symbol(index)? {
        println!("{:6} {:06o}{}", s.name, s.value, if s.defined { "" } else { " U" });
        index += 1;
    }
    Ok(())
}

fn main() {
    let words: Vec<String> = env::args().skip(1).collect();
    if words.len() < 2 {
        println!("usage: link IMAGE FILE ..");
        exit(2)
    }
    let image = &words[0];
    let mut linker = Linker::new();
    for path in &words[1..] {
        load(&mut linker, path);
    }
    print_symbols(&linker).unwrap_or_else(|r| stop("SYMBOLS", r));
    let bytes = linker.end().unwrap_or_else(|r| stop("END", r));
    if fs::write(image, &bytes).is_err() {
        println!("{image}: cannot be written");
        exit(1)
    }
    println!("{image}: {} bytes", bytes.len());
}
