//! The library search: Linker's queue against document 01's rounds as they are written, and demand 3 by trying every set.

use std::collections::HashSet;

use compare::answer::Refusal;
use compare::differ::author::Author;
use compare::differ::rng::Rng;
use compare::linker::Linker;
use compare::name::Name;
use compare::object::{Item, Module, Section};
use compare::reader;

/// Names that the table has, as undefined and as defined.
fn names(linker: &Linker) -> (HashSet<Name>, HashSet<Name>) {
    let symbols = (0..).map_while(|index| linker.symbol(index));
    let (defined, undefined): (Vec<_>, Vec<_>) = symbols.partition(|symbol| symbol.value.is_some());
    let set = |symbols: Vec<_>| symbols.into_iter().map(|symbol: compare::linker::Symbol| symbol.name).collect();
    (set(undefined), set(defined))
}

/// The rule to the letter: each round visits the untaken modules in file order, until one takes nothing.
fn search_by_rounds(linker: &mut Linker, section: &Section) -> Result<(u64, Vec<bool>), Refusal> {
    let mut taken = vec![false; section.modules.len()];
    let mut rounds = 0;
    loop {
        rounds += 1;
        let mut took = false;
        for (place, module) in section.modules.iter().enumerate() {
            let (undefined, _) = names(linker);
            if !taken[place] && module.entries.iter().any(|entry| undefined.contains(&entry.name)) {
                linker.place(module)?;
                taken[place] = true;
                took = true;
            }
        }
        if !took {
            return Ok((rounds, taken));
        }
    }
}

fn has_entry(module: &Module, name: Name) -> bool {
    module.entries.iter().any(|entry| entry.name == name)
}

/// Demand 3's word, to the letter.
fn is_sufficient(set: &[bool], section: &Section, before: &Linker) -> bool {
    let (undefined, defined) = names(before);
    let inside = || section.modules.iter().zip(set).filter(|(_, &is_in)| is_in).map(|(module, _)| module);
    let externals = inside().flat_map(|module| module.externals.iter().copied());
    undefined.iter().copied().chain(externals).all(|name| {
        inside().any(|module| has_entry(module, name))
            || defined.contains(&name)
            || !section.modules.iter().any(|module| has_entry(module, name))
    })
}

/// The modules taken are a sufficient set, and every other sufficient set contains them and at least one more.
fn check_demand_3(taken: &[bool], section: &Section, before: &Linker) {
    assert!(is_sufficient(taken, section, before));
    for bits in 0..1u32 << taken.len() {
        let set: Vec<bool> = (0..taken.len()).map(|place| bits >> place & 1 == 1).collect();
        if set != taken && is_sufficient(&set, section, before) {
            assert!(taken.iter().zip(&set).all(|(&taken, &other)| !taken || other));
        }
    }
}

#[test]
fn the_queue_searches_as_the_rounds_do() {
    let (mut sections, mut accepted, mut most_rounds) = (0, 0, 0);
    for case in 0..3000 {
        let mut rng = Rng::for_case(3, case);
        let mut author = Author::new(&mut rng);
        let mut linker = Linker::new();
        for _ in 0..rng.below(4) {
            linker.force(author.any_name(&mut rng).as_bytes()).expect("the name is legal");
        }
        for item in reader::read(&author.file(&mut rng).tidy()).unwrap_or_default() {
            let before = linker.clone();
            match item {
                Item::Module(module) => {
                    if linker.place(&module).is_err() {
                        break;
                    }
                }
                Item::Section(section) => {
                    sections += 1;
                    let Ok(rounds) = linker.search(&section) else { break };
                    let mut literal = before.clone();
                    let (literal_rounds, taken) = search_by_rounds(&mut literal, &section).expect("accepted as well");
                    assert_eq!((rounds, &linker), (literal_rounds, &literal));
                    assert!(rounds <= 1 + taken.iter().filter(|&&taken| taken).count() as u64);
                    if taken.len() <= 10 {
                        check_demand_3(&taken, &section, &before);
                    }
                    accepted += 1;
                    most_rounds = most_rounds.max(rounds);
                }
            }
        }
    }
    assert!(accepted > sections / 2 && most_rounds > 5, "{accepted} of {sections} accepted, {most_rounds} rounds");
}
