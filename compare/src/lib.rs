//! A linker for FPS-100 object files by document 01 and requests 1/14, 3/14, 4/14 and 5/14 of document 02, written in plain Rust
//! from the papers alone. It shares no code with the verified linker, so that the two can be compared: call by call (`differ`) and in time
//! (`bench`).
//!
//! - [`linker::Linker`] is the linker with its own structures; [`lent::Lent`] plays the same calls on lent memory.
//! - [`calls::Calls`] is the interface that both the verified library and this one are called through.
//! - [`differ`] makes cases out of a seed, plays them on two implementations and compares every cell and byte.

pub mod answer;
pub mod calls;
pub mod differ;
pub mod fault;
pub mod feed;
#[cfg(feature = "library")]
pub mod ffi;
pub mod lent;
pub mod linker;
pub mod memory;
pub mod name;
pub mod object;
pub mod reader;
pub mod text;
