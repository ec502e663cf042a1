//! Takes LNK100_WORK_CELLS from the C header, and links the verified library where the feature `library` asks for it.
//!
//! LNK100_LIB names the folder that holds liblinker.a; by default it is ../target/staticlib.

use std::path::{Path, PathBuf};
use std::{env, fs};

const HEADER: &str = "../include/lnk100.h";
/// Used only as long as the header does not exist.
const WORK_CELLS_WITHOUT_HEADER: usize = 65_536;

fn main() {
    let root = PathBuf::from(env::var("CARGO_MANIFEST_DIR").expect("cargo sets CARGO_MANIFEST_DIR"));
    write_work_cells(&root.join(HEADER));
    if env::var_os("CARGO_FEATURE_LIBRARY").is_some() {
        link_library(&root);
    }
}

fn write_work_cells(header: &Path) {
    println!("cargo:rerun-if-changed={}", header.display());
    let cells = match fs::read_to_string(header) {
        Ok(text) => define(&text, "LNK100_WORK_CELLS")
            .unwrap_or_else(|| panic!("{} has no '#define LNK100_WORK_CELLS number'", header.display())),
        Err(_) => WORK_CELLS_WITHOUT_HEADER,
    };
    let out = PathBuf::from(env::var("OUT_DIR").expect("cargo sets OUT_DIR")).join("work_cells.rs");
    let text = format!("/// LOAD's work memory, in cells.\npub const WORK_CELLS: usize = {cells};\n");
    fs::write(out, text).expect("OUT_DIR can be written");
}

/// The value of `#define NAME 123`, also written as `(123)`, `123u` or `123UL`.
fn define(text: &str, name: &str) -> Option<usize> {
    text.lines().find_map(|line| {
        let mut words = line.trim_start().strip_prefix('#')?.split_whitespace();
        if words.next() != Some("define") || words.next() != Some(name) {
            return None;
        }
        words.next()?.trim_start_matches('(').trim_end_matches(')').trim_end_matches(['u', 'U', 'l', 'L']).parse().ok()
    })
}

fn link_library(root: &Path) {
    println!("cargo:rerun-if-env-changed=LNK100_LIB");
    let folder = match env::var_os("LNK100_LIB") {
        Some(folder) => PathBuf::from(folder),
        None => root.join("../target/staticlib"),
    };
    let archive = folder.join("liblinker.a");
    if !archive.exists() {
        panic!("{} does not exist: run 'scripts/build.sh linker', or set LNK100_LIB", archive.display());
    }
    println!("cargo:rerun-if-changed={}", archive.display());
    println!("cargo:rustc-env=LNK100_ARCHIVE={}", archive.display());
    println!("cargo:rustc-link-search=native={}", folder.display());
    println!("cargo:rustc-link-lib=static=linker");
}
