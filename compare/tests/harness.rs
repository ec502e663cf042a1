//! The harness itself: the Rust linker agrees with itself, and planted errors are noticed.

use compare::answer::{Reason, Refusal};
use compare::calls::*;
use compare::differ::case::{self, Origin};
use compare::differ::coverage::Column::*;
use compare::differ::coverage::ANSWERS;
use compare::differ::rng::Rng;
use compare::differ::run::{run, Options};
use compare::lent::Lent;
use compare::linker::Linker;
use compare::memory::{self, BROKEN, FROZEN, MARK, NEXT, STATE_CELLS};
use compare::object::{Item, Module, Section};
use compare::reader;

fn options(cases: u64, limits: bool) -> Options {
    Options { cases, seed: 7, first: 0, limits, longest: None, trace: false }
}

#[test]
fn the_linker_agrees_with_itself() {
    let summary = run(&Lent, &options(150, true)).unwrap_or_else(|found| panic!("{found:?}"));
    assert_eq!(summary.random.cases, 150);
    // The cases at the limits have every answer of every call, before any random one.
    let columns = [Force, Base, Reset, Memory, Symbols, Undefined, End, Open, Feed, Close, Drop];
    for column in columns.into_iter().chain([Load(Origin::Given)]) {
        for number in (0..ANSWERS).filter(|&number| column.can_give(number as u64)) {
            assert!(summary.limits.coverage.count(column, number) > 0, "{column:?} was never answered {number}");
        }
    }
    // They have every fault of a line at every place, have looked for names at every place of a long table and in sections
    // of one remainder, have met names with $ and . wherever a name stands, and have fed in every way that is counted.
    assert_eq!(summary.limits.coverage.faults.missing(), Vec::<String>::new());
    assert_eq!(summary.limits.coverage.lookups.missing(), Vec::<String>::new());
    assert_eq!(summary.limits.coverage.spelling.missing(), Vec::<String>::new());
    assert_eq!(summary.limits.coverage.feeding.missing(), Vec::<String>::new());
}

/// A run that did not meet every fault of a line, look for names at every place, meet those with $ and ., or feed in every way,
/// says which it missed.
#[test]
fn what_a_run_missed_is_told() {
    let summary = run(&Lent, &options(0, false)).unwrap_or_else(|found| panic!("{found:?}"));
    let missing = summary.random.coverage.missing();
    for what in [
        "answer 17 of damaged",
        "answer 21 of odd",
        "a fault 18: FPB record",
        "a fault 20: the first field",
        "a fault 17: 6 at its column too",
        "a fault: 81 for length, a fault behind it",
        "external: lowest of a long table",
        "entry, 13: highest of a long table",
        "entry, 14: between of a long table",
        "a load from a table of so many symbols: 256",
        "a section with 64 and more of one remainder: wanted",
        "a name with $: title",
        "a name with . first: state memory",
        "answer 23 of OPEN",
        "answer 14 of CLOSE",
        "feeding, advice: 21",
        "feeding, cuts: between CR and LF",
    ] {
        assert!(missing.iter().any(|each| each == what), "{what}");
    }
    for what in [
        "entry, 13: below of a long table",
        "a fault 21: the first field",
        "answer 17 of whole",
        "answer 23 of damaged",
        "answer 16 of CLOSE",
    ] {
        assert!(!missing.iter().any(|each| each == what), "{what}");
    }
}

#[test]
fn cases_can_be_made() {
    for number in 0..10_000 {
        let case = case::random(&mut Rng::for_case(11, number));
        assert!(case.state.len() == STATE_CELLS && !case.steps.is_empty());
    }
}

/// An error in one call; the others are the Rust linker's.
#[derive(Clone, Copy, Debug)]
enum Mutant {
    AbsoluteEntriesMoved,
    SearchedOnce,
    AllTaken,
    NoneTaken,
    IdleRoundNotCounted,
    SectionNotTestedForDuplicates,
    ExternalsJoinBeforeEntries,
    SymbolsLeftBehindARefusal,
    BrokenMarkForgotten,
    BrokenMarkForTooLong,
    WorkNotClearedOnRefusal,
    WorkOfWrongLengthCleared,
    LineOffByOne,
    LineForEveryFault,
    ColumnFromZero,
    ColumnWithPlace,
    BrokenMarkForNoType,
    EndFreezesOnRefusal,
    EndClearsTheRest,
    ForceAddsAnotherName,
    MemoryReadsDamagedStates,
    MemoryTellsTheNextAddress,
    EndTellsTheNextAddress,
    NoneWithoutMark,
    UndefinedTellsNoReference,
}

impl Mutant {
    const ALL: [Mutant; 25] = [
        Mutant::AbsoluteEntriesMoved,
        Mutant::SearchedOnce,
        Mutant::AllTaken,
        Mutant::NoneTaken,
        Mutant::IdleRoundNotCounted,
        Mutant::SectionNotTestedForDuplicates,
        Mutant::ExternalsJoinBeforeEntries,
        Mutant::SymbolsLeftBehindARefusal,
        Mutant::BrokenMarkForgotten,
        Mutant::BrokenMarkForTooLong,
        Mutant::WorkNotClearedOnRefusal,
        Mutant::WorkOfWrongLengthCleared,
        Mutant::LineOffByOne,
        Mutant::LineForEveryFault,
        Mutant::ColumnFromZero,
        Mutant::ColumnWithPlace,
        Mutant::BrokenMarkForNoType,
        Mutant::EndFreezesOnRefusal,
        Mutant::EndClearsTheRest,
        Mutant::ForceAddsAnotherName,
        Mutant::MemoryReadsDamagedStates,
        Mutant::MemoryTellsTheNextAddress,
        Mutant::EndTellsTheNextAddress,
        Mutant::NoneWithoutMark,
        Mutant::UndefinedTellsNoReference,
    ];

    /// The walk over what a file holds, with the mutant's error. A refusal leaves the linker half-walked.
    fn walk(self, linker: &mut Linker, items: Vec<Item>) -> Result<u64, Refusal> {
        let mut rounds = 0;
        for item in items {
            match (self, item) {
                (Mutant::AbsoluteEntriesMoved, item) => rounds += linker.walk(&[relocated(item)])?,
                (Mutant::SearchedOnce, Item::Section(section)) => {
                    // As the manual's linker searches, but with the rounds of the full search.
                    rounds += linker.clone().search(&section)?;
                    sweep(linker, &section)?;
                }
                (Mutant::AllTaken, Item::Section(section)) => {
                    rounds += linker.clone().search(&section)?;
                    section.modules.iter().try_for_each(|module| linker.place(module))?;
                }
                (Mutant::NoneTaken, Item::Section(section)) => rounds += linker.clone().search(&section)?,
                (Mutant::IdleRoundNotCounted, Item::Section(section)) => rounds += linker.search(&section)? - 1,
                (Mutant::SectionNotTestedForDuplicates, Item::Section(section)) => loop {
                    rounds += 1;
                    if sweep(linker, &section)? == 0 {
                        break;
                    }
                },
                (Mutant::ExternalsJoinBeforeEntries, Item::Module(module)) => {
                    let mentions = Module { externals: module.externals.clone(), ..Module::default() };
                    linker.place(&mentions)?;
                    linker.place(&module)?;
                }
                (_, item) => rounds += linker.walk(&[item])?,
            }
        }
        Ok(rounds)
    }
}

/// Every entry as a relocated one.
fn relocated(mut item: Item) -> Item {
    let modules = match &mut item {
        Item::Module(module) => std::slice::from_mut(module),
        Item::Section(section) => &mut section.modules,
    };
    modules.iter_mut().flat_map(|module| &mut module.entries).for_each(|entry| entry.relocated = true);
    item
}

fn is_wanted(linker: &Linker, module: &Module) -> bool {
    let undefined = |name| (0..).map_while(|index| linker.undefined(index)).any(|symbol| symbol.name == name);
    module.entries.iter().any(|entry| undefined(entry.name))
}

/// One round over all modules; tells how many it took.
fn sweep(linker: &mut Linker, section: &Section) -> Result<usize, Refusal> {
    let mut taken = 0;
    for module in &section.modules {
        if is_wanted(linker, module) {
            linker.place(module)?;
            taken += 1;
        }
    }
    Ok(taken)
}

/// The next address less one, and 65,535 where it is 0: HIGH before request 1/14.
fn last_address(state: &[u64]) -> u16 {
    (state[NEXT] as u16).wrapping_sub(1)
}

impl Calls for Mutant {
    fn load(&self, state: &mut [u64], work: &mut [u64], file: &[u8]) -> LoadAnswer {
        let (before, work_before) = (state.to_vec(), work.to_vec());
        let mut answer = Lent.load(state, work, file);
        let breaks = matches!(answer.number, 6..=14 | 17..=21);
        match self {
            Mutant::BrokenMarkForgotten if breaks => state[MARK] = before[MARK],
            Mutant::BrokenMarkForTooLong if answer.number == Reason::TooLong as u64 => state[MARK] = BROKEN,
            Mutant::WorkNotClearedOnRefusal if answer.number == 9 => work.copy_from_slice(&work_before),
            Mutant::WorkOfWrongLengthCleared if answer.number == 1 => work.fill(0),
            Mutant::LineOffByOne if answer.number == 7 => answer.line -= 1,
            Mutant::LineForEveryFault if answer.number >= 17 => answer.number = 6,
            Mutant::ColumnFromZero if answer.column > 0 => answer.column -= 1,
            Mutant::ColumnWithPlace if answer.number == 7 => answer.column = 1,
            Mutant::BrokenMarkForNoType if answer.number == 21 => state[MARK] = before[MARK],
            _ => {}
        }
        // The rest of the errors lie in the walk.
        if before.len() != STATE_CELLS || !matches!(answer.number, 0 | 9..=14) {
            return answer;
        }
        let (Some(mut linker), Ok(items)) = (memory::decode(&before), reader::read(file)) else { return answer };
        match self.walk(&mut linker, items) {
            Ok(rounds) => {
                memory::encode(&linker, state);
                LoadAnswer { rounds, ..LoadAnswer::default() }
            }
            Err(refusal) => {
                if let Mutant::SymbolsLeftBehindARefusal = self {
                    memory::encode(&linker, state);
                    state[MARK] = BROKEN;
                }
                LoadAnswer { number: refusal.number(), line: refusal.line, ..LoadAnswer::default() }
            }
        }
    }

    fn force(&self, state: &mut [u64], name: &[u8]) -> CallAnswer {
        match (self, Lent.force(state, name)) {
            (Mutant::ForceAddsAnotherName, CallAnswer { number: 0, .. }) if state[0] < 3 => Lent.force(state, b"EXTRA"),
            (_, answer) => answer,
        }
    }

    fn base(&self, state: &mut [u64], address: u64) -> CallAnswer {
        Lent.base(state, address)
    }

    fn reset(&self, state: &mut [u64]) -> CallAnswer {
        Lent.reset(state)
    }

    fn memory(&self, state: &[u64]) -> MemoryAnswer {
        match (self, Lent.memory(state)) {
            (Mutant::MemoryReadsDamagedStates, MemoryAnswer { number: 2, .. }) => MemoryAnswer::default(),
            (Mutant::MemoryTellsTheNextAddress, answer @ MemoryAnswer { number: 0, .. }) => {
                MemoryAnswer { high: last_address(state).into(), ..answer }
            }
            (_, answer) => answer,
        }
    }

    fn symbols(&self, state: &[u64], index: u64) -> SymbolAnswer {
        match (self, Lent.symbols(state, index)) {
            (Mutant::NoneWithoutMark, SymbolAnswer { none: 1, .. }) => SymbolAnswer::default(),
            (_, answer) => answer,
        }
    }

    fn undefined(&self, state: &[u64], index: u64) -> UndefinedAnswer {
        match (self, Lent.undefined(state, index)) {
            (Mutant::UndefinedTellsNoReference, answer @ UndefinedAnswer { number: 0, none: 0, .. }) => {
                UndefinedAnswer { highest: 65535, ..answer }
            }
            (_, answer) => answer,
        }
    }

    fn end(&self, state: &mut [u64], out: &mut [u8]) -> EndAnswer {
        let answer = Lent.end(state, out);
        match self {
            Mutant::EndFreezesOnRefusal if answer.number == 16 => state[MARK] = FROZEN,
            Mutant::EndTellsTheNextAddress if answer.number == 0 => {
                out[answer.length as usize - 4..][..2].copy_from_slice(&last_address(state).to_be_bytes());
            }
            Mutant::EndClearsTheRest if answer.number == 0 => out[answer.length as usize..].fill(0),
            _ => {}
        }
        answer
    }

    fn open(&self, feed: &mut [u64]) -> CallAnswer {
        Lent.open(feed)
    }

    fn feed(&self, feed: &mut [u64], piece: &[u8]) -> FeedAnswer {
        Lent.feed(feed, piece)
    }

    fn close(&self, feed: &mut [u64], state: &mut [u64], work: &mut [u64]) -> LoadAnswer {
        Lent.close(feed, state, work)
    }

    fn drop(&self, feed: &mut [u64]) -> CallAnswer {
        Lent.drop(feed)
    }
}

#[test]
fn planted_errors_are_noticed_in_random_cases() {
    for mutant in Mutant::ALL {
        let found = run(&mutant, &options(3000, false)).err();
        let found = found.unwrap_or_else(|| panic!("{mutant:?} was not noticed"));
        println!("{mutant:?}: case {:?}, {}", found.number, found.failure);
    }
}

#[test]
fn a_failure_can_be_repeated_alone() {
    let found = run(&Mutant::SearchedOnce, &options(3000, false)).expect_err("it is noticed");
    let number = found.number.expect("a random case");
    let alone = Options { first: number, ..options(1, false) };
    let again = run(&Mutant::SearchedOnce, &alone).expect_err("it is noticed again");
    assert_eq!(again.number, found.number);
    assert_eq!(again.failure.to_string(), found.failure.to_string());
}
