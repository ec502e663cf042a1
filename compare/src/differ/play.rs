//! Plays a case on two implementations, side by side, and compares everything that was lent after each call.

use std::fmt;

use super::case::{Call, Case, Harm, Index, Room, Step};
use super::coverage::{Column, Coverage};
use super::feeding::Met;
use super::rng::Rng;
use super::tape::{Tape, FEED_CELLS, MOST_BYTES};
use super::told;
use crate::calls::*;
use crate::lent::Lent;
use crate::linker::{MOST_SYMBOLS, PROGRAM_WORDS};
use crate::memory::*;
use crate::name::Name;
use crate::object::Item;
use crate::reader;

const LONGEST_IMAGE: usize = 11 * PROGRAM_WORDS + 5;

/// Where two implementations part, or one leaves the paper.
#[derive(Debug)]
pub struct Failure {
    pub step: usize,
    pub call: String,
    pub what: String,
    /// The file, where the call was a LOAD or a CLOSE.
    pub file: Option<Vec<u8>>,
}

impl fmt::Display for Failure {
    fn fmt(&self, f: &mut fmt::Formatter<'_>) -> fmt::Result {
        write!(f, "step {}: {}: {}", self.step, self.call, self.what)
    }
}

/// An answer of any call.
#[derive(Clone, Copy, Debug, PartialEq, Eq)]
enum Answer {
    Load(LoadAnswer),
    Call(CallAnswer),
    Memory(MemoryAnswer),
    Symbol(SymbolAnswer),
    Undefined(UndefinedAnswer),
    End(EndAnswer),
    Feed(FeedAnswer),
}

impl Answer {
    /// The number, the line and the column, which LOAD and CLOSE alone have.
    fn parts(self) -> (u64, u64, u64) {
        match self {
            Answer::Load(a) => (a.number, a.line, a.column),
            Answer::Call(a) => (a.number, a.line, 0),
            Answer::Memory(a) => (a.number, a.line, 0),
            Answer::Symbol(a) => (a.number, a.line, 0),
            Answer::Undefined(a) => (a.number, a.line, 0),
            Answer::End(a) => (a.number, a.line, 0),
            // its line and column belong to the advice
            Answer::Feed(a) => (a.number, 0, 0),
        }
    }

    /// Whether every other field is 0.
    fn rest_is_zero(self) -> bool {
        match self {
            Answer::Load(a) => a.rounds == 0,
            Answer::Call(_) => true,
            Answer::Memory(a) => a.high == 0,
            Answer::Symbol(a) => a == SymbolAnswer { number: a.number, line: a.line, ..Default::default() },
            Answer::Undefined(a) => a == UndefinedAnswer { number: a.number, line: a.line, ..Default::default() },
            Answer::End(a) => a.length == 0,
            Answer::Feed(a) => a == FeedAnswer { number: a.number, ..Default::default() },
        }
    }
}

/// Memory to lend, between two margins that nobody may write to.
struct Guarded<T> {
    memory: Vec<T>,
    guard: T,
}

const MARGIN: usize = 32;

impl<T: Copy + PartialEq> Guarded<T> {
    fn new(content: &[T], guard: T) -> Guarded<T> {
        let mut memory = vec![guard; content.len() + 2 * MARGIN];
        memory[MARGIN..MARGIN + content.len()].copy_from_slice(content);
        Guarded { memory, guard }
    }

    fn lent(&mut self) -> &mut [T] {
        let end = self.memory.len() - MARGIN;
        &mut self.memory[MARGIN..end]
    }

    fn view(&self) -> &[T] {
        &self.memory[MARGIN..self.memory.len() - MARGIN]
    }

    fn is_intact(&self) -> bool {
        let (front, back) = (&self.memory[..MARGIN], &self.memory[self.memory.len() - MARGIN..]);
        front.iter().chain(back).all(|&cell| cell == self.guard)
    }
}

const CELL_GUARD: u64 = 0x5AFE_5AFE_5AFE_5AFE;
const BYTE_GUARD: u8 = 0x5A;

/// What one implementation is lent.
struct Side<'a> {
    calls: &'a dyn Calls,
    state: Guarded<u64>,
    work: Guarded<u64>,
    out: Guarded<u8>,
    feed: Guarded<u64>,
}

impl<'a> Side<'a> {
    fn new(calls: &'a dyn Calls) -> Side<'a> {
        Side {
            calls,
            state: Guarded::new(&fresh(), CELL_GUARD),
            work: Guarded::new(&vec![0; WORK_CELLS], CELL_GUARD),
            out: Guarded::new(&[], BYTE_GUARD),
            feed: Guarded::new(&[], CELL_GUARD),
        }
    }

    fn call(&mut self, call: &ResolvedCall) -> Answer {
        let (calls, state) = (self.calls, self.state.lent());
        match *call {
            ResolvedCall::Load(file) => Answer::Load(calls.load(state, self.work.lent(), file)),
            ResolvedCall::Force(name) => Answer::Call(calls.force(state, name)),
            ResolvedCall::Base(address) => Answer::Call(calls.base(state, address)),
            ResolvedCall::Reset => Answer::Call(calls.reset(state)),
            ResolvedCall::Memory => Answer::Memory(calls.memory(state)),
            ResolvedCall::Symbols(index) => Answer::Symbol(calls.symbols(state, index)),
            ResolvedCall::Undefined(index) => Answer::Undefined(calls.undefined(state, index)),
            ResolvedCall::End => Answer::End(calls.end(state, self.out.lent())),
            ResolvedCall::Open => Answer::Call(calls.open(self.feed.lent())),
            ResolvedCall::Feed(piece) => Answer::Feed(calls.feed(self.feed.lent(), piece)),
            ResolvedCall::Close => Answer::Load(calls.close(self.feed.lent(), state, self.work.lent())),
            ResolvedCall::Drop => Answer::Call(calls.drop(self.feed.lent())),
        }
    }

    fn is_intact(&self) -> bool {
        self.state.is_intact() && self.work.is_intact() && self.out.is_intact() && self.feed.is_intact()
    }
}

/// A call with its arguments worked out; work memory and output stand in the side.
#[derive(Clone, Copy)]
enum ResolvedCall<'a> {
    Load(&'a [u8]),
    Force(&'a [u8]),
    Base(u64),
    Reset,
    Memory,
    Symbols(u64),
    Undefined(u64),
    End,
    Open,
    Feed(&'a [u8]),
    Close,
    Drop,
}

/// Two implementations with equal memories: the Rust linker, and the one that is compared with it.
pub struct Player<'a> {
    reference: Side<'a>,
    subject: Side<'a>,
    junk: Rng,
    tape: Tape,
    /// The tape and feed memory before they were harmed.
    unharmed: Option<(Tape, Vec<u64>)>,
    /// Work memory for calls beside the case.
    scratch: Vec<u64>,
    pub coverage: Coverage,
}

/// What stood in the memory that a call is lent, before it. What it is not lent is left out, to save time.
struct Before {
    state: Vec<u64>,
    feed: Vec<u64>,
    /// Where it has not its fixed length.
    work: Option<Vec<u64>>,
    out: Vec<u8>,
}

impl<'a> Player<'a> {
    pub fn new(subject: &'a dyn Calls) -> Player<'a> {
        let (reference, subject) = (Side::new(&Lent), Side::new(subject));
        Player {
            reference,
            subject,
            junk: Rng::new(0),
            tape: Tape::Idle,
            unharmed: None,
            scratch: vec![0; WORK_CELLS],
            coverage: Coverage::default(),
        }
    }

    /// Plays the steps and then looks at the end state with every call that reads it.
    pub fn play(&mut self, case: &Case, rng: &mut Rng) -> Result<(), Failure> {
        self.junk = rng.clone();
        self.put_state(&case.state);
        self.put_feed(Tape::Idle, &vec![0; FEED_CELLS]);
        for (number, step) in case.steps.iter().enumerate() {
            let file = self.file_of(&step.call);
            self.step(step).map_err(|what| Failure {
                step: number + 1,
                call: format!("{:?} on {} cells{}", step.call, step.state_cells, feed_shown(step)),
                what,
                file,
            })?;
        }
        for call in self.last_looks() {
            let shown = format!("{call:?}");
            self.step(&call.into()).map_err(|what| Failure {
                step: case.steps.len() + 1,
                call: shown,
                what: format!("{what} (looking at the end state)"),
                file: None,
            })?;
        }
        Ok(())
    }

    /// The calls that read the end state. Now and then they list every symbol, which takes its time.
    fn last_looks(&mut self) -> Vec<Call> {
        let any = Index::At(self.junk.next() % MOST_SYMBOLS as u64);
        let mut indices = vec![Index::At(0), any, Index::FromEnd(-1), Index::FromEnd(0)];
        if self.junk.percent(2) {
            indices.extend((0..=MOST_SYMBOLS as u64).map(Index::At));
        }
        let mut looks = vec![Call::Memory];
        looks.extend(indices.iter().copied().map(Call::Symbols));
        looks.extend(indices.iter().copied().map(Call::Undefined));
        looks.extend([Call::End(Room::FromImage(-1)), Call::End(Room::FromImage(7))]);
        looks
    }

    /// What a call loads.
    fn file_of(&self, call: &Call) -> Option<Vec<u8>> {
        match (call, &self.tape) {
            (Call::Load { file, .. }, _) => Some(file.clone()),
            (Call::Close { .. }, Tape::Open(fed)) => Some(fed.bytes.clone()),
            _ => None,
        }
    }

    fn put_state(&mut self, cells: &[u64]) {
        for side in [&mut self.reference, &mut self.subject] {
            side.state = Guarded::new(cells, CELL_GUARD);
        }
    }

    fn put_feed(&mut self, tape: Tape, cells: &[u64]) {
        self.tape = tape;
        for side in [&mut self.reference, &mut self.subject] {
            side.feed = Guarded::new(cells, CELL_GUARD);
        }
    }

    fn step(&mut self, step: &Step) -> Result<(), String> {
        if self.meddle(&step.call) {
            return Ok(());
        }
        // Another length: this call gets a copy, cut or filled up, and the memory itself stays for the next one.
        let other = |memory: &Guarded<u64>, cells: usize, right: usize| {
            (cells != right).then(|| (resized(memory.view(), cells), memory.view().to_vec()))
        };
        let state = other(&self.reference.state, step.state_cells, STATE_CELLS);
        let feed = other(&self.reference.feed, step.feed_cells, FEED_CELLS);
        state.iter().for_each(|(other, _)| self.put_state(other));
        feed.iter().for_each(|(other, _)| self.put_feed(self.tape.clone(), other));
        let outcome = self.call(step);
        state.iter().for_each(|(_, kept)| self.put_state(kept));
        feed.iter().for_each(|(_, kept)| self.put_feed(self.tape.clone(), kept));
        outcome
    }

    /// Does what is no call. Tells whether it was none.
    fn meddle(&mut self, call: &Call) -> bool {
        match call {
            Call::Poke(cells) => {
                for side in [&mut self.reference, &mut self.subject] {
                    cells.iter().for_each(|&(cell, content)| side.state.lent()[cell] = content);
                }
            }
            Call::Fed(bytes) => {
                let tape = Tape::of(bytes);
                let cells = tape.form().unwrap_or_default();
                self.put_feed(tape, &cells);
            }
            Call::Harm(harm) => {
                let cells = self.reference.feed.view().to_vec();
                let tape = std::mem::take(&mut self.tape);
                self.put_feed(Tape::Unknown, &harmed(&cells, *harm));
                self.unharmed = Some((tape, cells));
            }
            Call::Mend => {
                if let Some((tape, cells)) = self.unharmed.take() {
                    self.put_feed(tape, &cells);
                }
            }
            _ => return false,
        }
        true
    }

    fn call(&mut self, step: &Step) -> Result<(), String> {
        // What is lent for reading is a copy, so that it can be seen whether somebody wrote to it.
        let bytes = step.call.bytes().to_vec();
        let call = self.prepare(&step.call, &bytes);
        let before = self.before(&step.call);

        let expected = self.reference.call(&call);
        let answer = self.subject.call(&call);
        let noted = self.note(&step.call, answer);

        if answer != expected {
            return Err(format!("answered {answer:?}, the Rust linker {expected:?}"));
        }
        noted?;
        self.note_file(&step.call, answer, &before.state);
        let (number, line, _) = answer.parts();
        self.coverage.spelling.note(&step.call, number, line, &before.state);
        self.check_paper(step, answer)?;
        if bytes != step.call.bytes() {
            return Err("wrote into the bytes that were lent for reading".into());
        }
        self.compare_memory(&step.call)?;
        self.check_promises(&step.call, answer, &before)?;
        if step.call.takes_feed() {
            self.note_feed(step, answer, &before);
            self.check_feed(step, answer, &before)?;
        }
        Ok(())
    }

    fn before(&self, call: &Call) -> Before {
        let Side { state, feed, work, out, .. } = &self.subject;
        let copy = |memory: &Guarded<u64>, is_lent: bool| if is_lent { memory.view().to_vec() } else { Vec::new() };
        Before {
            state: copy(state, call.takes_state()),
            feed: copy(feed, call.takes_feed()),
            work: (work.view().len() != WORK_CELLS).then(|| work.view().to_vec()),
            out: if let Call::End(_) = call { out.view().to_vec() } else { Vec::new() },
        }
    }

    /// What the paper says of this very step, where it is given.
    fn check_paper(&self, step: &Step, answer: Answer) -> Result<(), String> {
        let parts = answer.parts();
        if let Some(expected) = step.expected.filter(|&expected| expected != parts) {
            return Err(format!("both answered (number, line, column) {parts:?}, the paper says {expected:?}"));
        }
        if let (Some(rounds), Answer::Load(load)) = (step.rounds, answer) {
            if load.rounds != rounds {
                return Err(format!("both answered {} rounds, the paper says {rounds}", load.rounds));
            }
        }
        if let (Some(expected), Answer::Symbol(symbol)) = (step.symbol, answer) {
            if symbol != expected {
                return Err(format!("both answered {symbol:?}, the paper says {expected:?}"));
            }
        }
        if let (Some(expected), Answer::Undefined(undefined)) = (step.undefined, answer) {
            if undefined != expected {
                return Err(format!("both answered {undefined:?}, the paper says {expected:?}"));
            }
        }
        if let (Some(expected), Answer::Feed(FeedAnswer { advice, line, column, .. })) = (step.advice, answer) {
            if (advice, line, column) != expected {
                return Err(format!("both advised {answer:?}, the paper says {expected:?}"));
            }
        }
        let high = self.high(answer);
        if step.high.is_some() && high != step.high {
            return Err(format!("HIGH is {high:?}, the paper says {:?}", step.high));
        }
        Ok(())
    }

    /// HIGH as the subject tells it: in MEMORY's answer, or in the record that ends the image.
    fn high(&self, answer: Answer) -> Option<u64> {
        match answer {
            Answer::Memory(MemoryAnswer { number: 0, high, .. }) => Some(high),
            Answer::End(EndAnswer { number: 0, length, .. }) => {
                let &[_, high, low, _, _] = self.subject.out.view().get(..length as usize)?.last_chunk()?;
                Some(u16::from_be_bytes([high, low]).into())
            }
            _ => None,
        }
    }

    /// Works out the arguments, and fills work memory and output with anything.
    fn prepare<'b>(&mut self, call: &Call, bytes: &'b [u8]) -> ResolvedCall<'b> {
        let state = self.reference.state.view();
        match *call {
            Call::Load { work_cells, .. } => {
                self.fill_work(work_cells);
                ResolvedCall::Load(bytes)
            }
            Call::Force(_) => ResolvedCall::Force(bytes),
            Call::Base(address) => ResolvedCall::Base(address),
            Call::Reset => ResolvedCall::Reset,
            Call::Memory => ResolvedCall::Memory,
            Call::Symbols(index) => ResolvedCall::Symbols(resolve_index(index, symbols_in(state))),
            Call::Undefined(index) => ResolvedCall::Undefined(resolve_index(index, undefined_in(state))),
            Call::End(room) => {
                self.fill_out(resolve_room(room, state));
                ResolvedCall::End
            }
            Call::Open => ResolvedCall::Open,
            Call::Feed(_) => ResolvedCall::Feed(bytes),
            Call::Close { work_cells } => {
                self.fill_work(work_cells);
                ResolvedCall::Close
            }
            Call::Drop => ResolvedCall::Drop,
            Call::Poke(_) | Call::Fed(_) | Call::Harm(_) | Call::Mend => unreachable!("no call"),
        }
    }

    /// Work memory of some length with anything in it. All of it is filled only now and then, to save time.
    fn fill_work(&mut self, cells: usize) {
        let (seed, stride) = (self.junk.next(), *self.junk.pick(&[1, 61, 61, 61, 61, 61, 61, 61]));
        for side in [&mut self.reference, &mut self.subject] {
            if side.work.view().len() != cells {
                side.work = Guarded::new(&vec![0; cells], CELL_GUARD);
            }
            let mut junk = Rng::new(seed);
            side.work.lent().iter_mut().step_by(stride).for_each(|cell| *cell = junk.next());
        }
    }

    fn fill_out(&mut self, bytes: usize) {
        let mut junk = Rng::new(self.junk.next());
        let content: Vec<u8> = (0..bytes).map(|_| junk.next() as u8).collect();
        for side in [&mut self.reference, &mut self.subject] {
            side.out = Guarded::new(&content, BYTE_GUARD);
        }
    }

    /// Counts the answer. Whatever the Rust linker says, it must be one that document 01 has for the call.
    fn note(&mut self, call: &Call, answer: Answer) -> Result<(), String> {
        let Some(column) = Column::of(call) else { return Ok(()) };
        let (number, _, _) = answer.parts();
        self.coverage.note(column, number);
        if let Answer::Symbol(SymbolAnswer { none: 1, .. }) | Answer::Undefined(UndefinedAnswer { none: 1, .. }) =
            answer
        {
            self.coverage.note_past_end(column);
        }
        if let (Some(high), Some(&next)) = (self.high(answer), self.subject.state.view().get(NEXT)) {
            self.coverage.note_high(column, high, next);
        }
        if !column.can_give(number) {
            return Err(format!("{number} is no answer of this call"));
        }
        Ok(())
    }

    /// Counts the fault of a line that a load told, or its rounds, and the names that a load or FORCE has looked for.
    fn note_file(&mut self, call: &Call, answer: Answer, before: &[u64]) {
        match answer {
            // a CLOSE, whose file is another matter
            Answer::Load(_) if call.takes_feed() => {}
            Answer::Load(LoadAnswer { number: 6 | 17..=21, .. }) => self.coverage.faults.note(call.bytes()),
            Answer::Load(LoadAnswer { number: number @ (0 | 9..=14), line, rounds, .. }) => {
                let Ok(items) = reader::read(call.bytes()) else { return };
                if number == 0 {
                    let sections = items.iter().filter(|item| matches!(item, Item::Section(_))).count();
                    self.coverage.note_rounds(rounds, sections);
                }
                self.coverage.lookups.note_load(before, &items, number, line);
            }
            Answer::Call(CallAnswer { number: number @ (0 | 14), .. }) => {
                if let (Call::Force(_), Some(name)) = (call, Name::parse(call.bytes())) {
                    self.coverage.lookups.note_force(before, name, number);
                }
            }
            _ => {}
        }
    }

    fn compare_memory(&self, call: &Call) -> Result<(), String> {
        if call.takes_state() {
            same("state cell", self.subject.state.view(), self.reference.state.view())?;
        }
        if call.takes_feed() {
            same("feed cell", self.subject.feed.view(), self.reference.feed.view())?;
        }
        match call {
            Call::Load { .. } | Call::Close { .. } => {
                same("work cell", self.subject.work.view(), self.reference.work.view())?;
            }
            Call::End(_) => same("output byte", self.subject.out.view(), self.reference.out.view())?,
            _ => {}
        }
        if !self.subject.is_intact() {
            return Err("wrote outside the memory that was lent".into());
        }
        Ok(())
    }

    /// A refusal has zeros in its answer, and changes nothing but the broken mark, which a load sets that was refused for its
    /// file.
    fn check_refusal(&self, call: &Call, answer: Answer, before: &Before) -> Result<(), String> {
        if !answer.rest_is_zero() {
            return Err(format!("a refused answer has more than a number, a line and a column: {answer:?}"));
        }
        if let Call::End(_) = call {
            same("after a refusal, output byte", self.subject.out.view(), &before.out)?;
        }
        if !call.takes_state() {
            return Ok(());
        }
        let mut kept = before.state.clone();
        if let Answer::Load(LoadAnswer { number: 6..=14 | 17..=21, .. }) = answer {
            kept[MARK] = BROKEN;
        }
        same("after a refusal, state cell", self.subject.state.view(), &kept)
    }

    /// What must hold of the subject whatever the Rust linker says.
    fn check_promises(&self, call: &Call, answer: Answer, before: &Before) -> Result<(), String> {
        let (number, _, _) = answer.parts();
        let after = self.subject.state.view();
        let refused = number != 0;
        if let (Call::Load { file, .. }, Answer::Load(load)) = (call, answer) {
            told::check(file, load)?;
        }
        if refused {
            self.check_refusal(call, answer, before)?;
        }
        if !refused && call.takes_state() && !is_sound(after) {
            return Err("left a state that is not sound".into());
        }
        if let Answer::Load(_) = answer {
            let lent = self.subject.work.view();
            if lent.len() != WORK_CELLS {
                same("work memory of another length, cell", lent, before.work.as_deref().unwrap_or(lent))?;
            } else if lent.iter().any(|&cell| cell != 0) {
                return Err("work memory did not come back zero".into());
            }
        }
        if let Answer::End(EndAnswer { number: 0, length, .. }) = answer {
            let image = 11 * placed(after) + 5;
            if length != image as u64 {
                return Err(format!("the image has {image} bytes, and not {length}"));
            }
            same("past the image, output byte", &self.subject.out.view()[image..], &before.out[image..])?;
        }
        Ok(())
    }

    fn note_feed(&mut self, step: &Step, answer: Answer, before: &Before) {
        self.coverage.feeding.note(&Met {
            call: &step.call,
            tape: &self.tape,
            number: answer.parts().0,
            advice: if let Answer::Feed(feed) = answer { feed.advice } else { 0 },
            feed: &before.feed,
            // a call that is not lent the state leaves it
            state: if step.call.takes_state() { &before.state } else { self.subject.state.view() },
        });
    }

    /// What must hold of a call on feed memory, by what was fed before it.
    fn check_feed(&mut self, step: &Step, answer: Answer, before: &Before) -> Result<(), String> {
        let own = self.tape.own_answer(&step.call, step.feed_cells);
        let (number, _, _) = answer.parts();
        // a close that passes the feed's own checks meets the state's
        let is_close = matches!(step.call, Call::Close { .. });
        if own.is_some_and(|own| own != number && !(is_close && own == 0)) {
            return Err(format!("answered {number}, by the feed's own checks it is {own:?}"));
        }
        if own.is_some_and(|own| own != 0) || number != 0 && !is_close {
            return same("after a refusal, feed cell", self.subject.feed.view(), &before.feed);
        }
        if let Answer::Load(load) = answer {
            self.check_joined(load, before)?;
        }
        if is_close || matches!(step.call, Call::Drop) {
            self.check_advice()?;
        }
        if own.is_none() {
            // a harmed memory that is sound all the same; what it comes to is known again where nothing is open
            let is_idle = self.subject.feed.view().iter().all(|&cell| cell == 0);
            self.tape = if is_idle { Tape::Idle } else { Tape::Unknown };
            return Ok(());
        }
        self.tape.pass(&step.call, if let Answer::Feed(feed) = answer { Some(feed) } else { None });
        same("feed cell", self.subject.feed.view(), &self.tape.form().unwrap_or_default())
    }

    /// A close does what a LOAD of all bytes fed does, by the same implementation and from the same memories.
    fn check_joined(&mut self, close: LoadAnswer, before: &Before) -> Result<(), String> {
        let Tape::Open(fed) = &self.tape else { return Ok(()) };
        let mut state = before.state.clone();
        let mut work = before.work.clone().unwrap_or_else(|| std::mem::take(&mut self.scratch));
        let load = self.subject.calls.load(&mut state, &mut work, &fed.bytes);
        if before.work.is_none() {
            self.scratch = work;
        }
        if close != load {
            return Err(format!("answered {close:?}, and its own LOAD of the joined bytes {load:?}"));
        }
        told::check(&fed.bytes, close)?;
        same("beside a LOAD of the joined bytes, state cell", self.subject.state.view(), &state)
    }

    /// The pieces have advised what a LOAD from the fresh state tells of the bytes that they brought.
    fn check_advice(&mut self) -> Result<(), String> {
        let Tape::Open(fed) = &self.tape else { return Ok(()) };
        let load = self.subject.calls.load(&mut fresh(), &mut self.scratch, fed.advised_part());
        fed.check_advice(load)
    }
}

/// Cut, or filled up with zeros.
pub fn resized(cells: &[u64], length: usize) -> Vec<u64> {
    let mut other = cells.to_vec();
    other.resize(length, 0);
    other
}

fn feed_shown(step: &Step) -> String {
    if step.call.takes_feed() {
        format!(", feed {}", step.feed_cells)
    } else {
        String::new()
    }
}

/// Feed memory after someone else wrote into it.
fn harmed(cells: &[u64], harm: Harm) -> Vec<u64> {
    let mut cells = cells.to_vec();
    match harm {
        Harm::First(content) => cells[0] = content,
        Harm::Grown(more) => cells[0] = cells[0].wrapping_add_signed(more),
        Harm::Byte(distance, byte) => {
            let total = cells[0].saturating_sub(1).min(MOST_BYTES as u64) as usize;
            let place = total.saturating_add_signed(distance);
            if let Some(cell) = cells.get_mut(1 + place / 8) {
                let shift = 8 * (place % 8);
                *cell = *cell & !(0xFF << shift) | u64::from(byte) << shift;
            }
        }
        Harm::Cell(cell, content) => cells[cell] = content,
    }
    cells
}

fn same<T: PartialEq + fmt::Debug>(what: &str, found: &[T], expected: &[T]) -> Result<(), String> {
    if found == expected {
        return Ok(());
    }
    match found.iter().zip(expected).position(|(found, expected)| found != expected) {
        Some(place) => Err(format!("{what} {place} is {:?}, and should be {:?}", found[place], expected[place])),
        None => Err(format!("{what}s: {} of them, and should be {}", found.len(), expected.len())),
    }
}

fn symbols_in(state: &[u64]) -> u64 {
    state.first().map_or(0, |&count| count.min(MOST_SYMBOLS as u64))
}

fn undefined_in(state: &[u64]) -> u64 {
    let count = symbols_in(state) as usize;
    state.get(VALUES).map_or(0, |values| values[..count].iter().filter(|&&value| value == 0).count() as u64)
}

fn resolve_index(index: Index, end: u64) -> u64 {
    match index {
        Index::At(index) => index,
        Index::FromEnd(distance) => end.saturating_add_signed(distance),
    }
}

fn resolve_room(room: Room, state: &[u64]) -> usize {
    match room {
        Room::Bytes(bytes) => bytes.min(2 * LONGEST_IMAGE),
        Room::FromImage(distance) => {
            let placed = if state.len() == STATE_CELLS { placed(state) } else { 0 };
            (11 * placed + 5).saturating_add_signed(distance)
        }
    }
}
