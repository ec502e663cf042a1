//! The Rust linker on lent memory: it tests the cells, decodes them, works on its own structures and encodes them back.

use crate::answer::{Reason, Refusal};
use crate::calls::*;
use crate::feed::{self, Feed};
use crate::linker::Linker;
use crate::memory::{self, BROKEN, MARK, STATE_CELLS, WORK_CELLS};

#[derive(Clone, Copy, Debug, Default)]
pub struct Lent;

impl Calls for Lent {
    fn load(&self, state: &mut [u64], work: &mut [u64], file: &[u8]) -> LoadAnswer {
        let work_fits = work.len() == WORK_CELLS;
        let outcome = load(state, work_fits, file);
        if work_fits {
            // This linker has memory of its own; the promise that work memory comes back zero is kept all the same.
            work.fill(0);
        }
        match outcome {
            Ok(rounds) => LoadAnswer { rounds, ..LoadAnswer::default() },
            Err(refusal) => refused_load(refusal),
        }
    }

    fn force(&self, state: &mut [u64], name: &[u8]) -> CallAnswer {
        call_answer(change(state, |linker| linker.force(name)))
    }

    fn base(&self, state: &mut [u64], address: u64) -> CallAnswer {
        call_answer(change(state, |linker| linker.base(address)))
    }

    fn reset(&self, state: &mut [u64]) -> CallAnswer {
        call_answer(test_length(state).map(|()| memory::encode(&Linker::new(), state)))
    }

    fn memory(&self, state: &[u64]) -> MemoryAnswer {
        // The answer hangs on the tags alone, so the state is tested and not decoded.
        match test_sound(state) {
            Ok(()) => MemoryAnswer { high: memory::high(state).into(), ..MemoryAnswer::default() },
            Err(refusal) => MemoryAnswer { number: refusal.number(), line: refusal.line, high: 0 },
        }
    }

    fn symbols(&self, state: &[u64], index: u64) -> SymbolAnswer {
        match decode(state).map(|linker| linker.symbol(index)) {
            Ok(Some(symbol)) => SymbolAnswer {
                name: symbol.name.packed(),
                value: symbol.value.unwrap_or(0).into(),
                defined: symbol.value.is_some().into(),
                ..SymbolAnswer::default()
            },
            Ok(None) => SymbolAnswer { none: 1, ..SymbolAnswer::default() },
            Err(refusal) => SymbolAnswer { number: refusal.number(), line: refusal.line, ..SymbolAnswer::default() },
        }
    }

    fn undefined(&self, state: &[u64], index: u64) -> UndefinedAnswer {
        match decode(state).map(|linker| linker.undefined(index)) {
            Ok(Some(symbol)) => UndefinedAnswer {
                name: symbol.name.packed(),
                highest: symbol.highest.into(),
                ..UndefinedAnswer::default()
            },
            Ok(None) => UndefinedAnswer { none: 1, ..UndefinedAnswer::default() },
            Err(refusal) => {
                UndefinedAnswer { number: refusal.number(), line: refusal.line, ..UndefinedAnswer::default() }
            }
        }
    }

    fn end(&self, state: &mut [u64], out: &mut [u8]) -> EndAnswer {
        match change(state, |linker| linker.end(out)) {
            Ok(length) => EndAnswer { length: length as u64, ..EndAnswer::default() },
            Err(refusal) => EndAnswer { number: refusal.number(), line: refusal.line, length: 0 },
        }
    }

    fn open(&self, feed: &mut [u64]) -> CallAnswer {
        call_answer(feed::change(feed, Feed::open))
    }

    fn feed(&self, feed: &mut [u64], piece: &[u8]) -> FeedAnswer {
        match feed::change(feed, |feed| feed.feed(piece)) {
            Ok(None) => FeedAnswer::default(),
            Ok(Some(fault)) => {
                FeedAnswer { number: 0, advice: fault.number(), line: fault.line, column: fault.column.into() }
            }
            Err(refusal) => FeedAnswer { number: refusal.number(), ..FeedAnswer::default() },
        }
    }

    fn close(&self, feed: &mut [u64], state: &mut [u64], work: &mut [u64]) -> LoadAnswer {
        match feed::change(feed, Feed::take) {
            Ok(file) => self.load(state, work, &file),
            Err(refusal) => {
                clear(work);
                refused_load(refusal)
            }
        }
    }

    fn drop(&self, feed: &mut [u64]) -> CallAnswer {
        call_answer(feed::change(feed, Feed::take).map(drop))
    }
}

/// Work memory comes back zero, also from a call that had no use for it; of another length it is left alone.
fn clear(work: &mut [u64]) {
    if work.len() == WORK_CELLS {
        work.fill(0);
    }
}

fn refused_load(refusal: Refusal) -> LoadAnswer {
    LoadAnswer { number: refusal.number(), line: refusal.line, column: refusal.column.into(), rounds: 0 }
}

fn load(state: &mut [u64], work_fits: bool, file: &[u8]) -> Result<u64, Refusal> {
    test_length(state)?;
    if !work_fits {
        return Err(Reason::Buffer.into());
    }
    // The decoded state is a copy already, so it may be walked to ruins: a refusal touches the mark alone.
    match decode(state)?.loaded(file) {
        Ok((loaded, rounds)) => {
            memory::encode(&loaded, state);
            Ok(rounds)
        }
        Err(refusal) => {
            if refusal.breaks() {
                state[MARK] = BROKEN;
            }
            Err(refusal)
        }
    }
}

fn test_length(state: &[u64]) -> Result<(), Refusal> {
    if state.len() != STATE_CELLS {
        return Err(Reason::Buffer.into());
    }
    Ok(())
}

fn test_sound(state: &[u64]) -> Result<(), Refusal> {
    test_length(state)?;
    if !memory::is_sound(state) {
        return Err(Reason::Damaged.into());
    }
    Ok(())
}

fn decode(state: &[u64]) -> Result<Linker, Refusal> {
    test_length(state)?;
    memory::decode(state).ok_or(Reason::Damaged.into())
}

/// A call that changes the state, or refuses and leaves it.
fn change<T>(state: &mut [u64], call: impl FnOnce(&mut Linker) -> Result<T, Refusal>) -> Result<T, Refusal> {
    let mut linker = decode(state)?;
    let answer = call(&mut linker)?;
    memory::encode(&linker, state);
    Ok(answer)
}

fn call_answer(outcome: Result<(), Refusal>) -> CallAnswer {
    match outcome {
        Ok(()) => CallAnswer::default(),
        Err(refusal) => CallAnswer { number: refusal.number(), line: refusal.line },
    }
}
