//! Names that are hard to look for: in an order, close to each other, and of one remainder.

use std::collections::BTreeSet;

use super::author::random_name;
use super::rng::Rng;
use crate::name::Name;

/// The verified linker parts the entries of a section into so many slots, by the remainder of the packed name.
pub const SLOTS: u64 = 2039;

const LETTERS: u64 = 26;
const LONGEST: u32 = 6;

/// The characters that request 4/14 adds to document 01's.
pub const ADDED: &[u8] = b"$.";

/// Characters behind the first letter of a name, in the order of their packed bytes.
#[derive(Clone, Copy, Debug)]
pub struct Alphabet(&'static [u8]);

impl Alphabet {
    /// All that may stand there.
    pub const WHOLE: Alphabet = Alphabet(b"$.0123456789ABCDEFGHIJKLMNOPQRSTUVWXYZ");
    /// Document 01's, which are behind the added ones. The benchmark's names are of these, so that its rows stay as they were.
    pub const OLD: Alphabet = Alphabet(Alphabet::WHOLE.0.split_at(ADDED.len()).1);
    /// The ends of each run of characters.
    pub const ENDS: Alphabet = Alphabet(b"$.09AZ");

    pub fn characters(self) -> impl Iterator<Item = char> {
        self.0.iter().map(|&character| char::from(character))
    }

    /// One of the characters.
    pub fn any(self, rng: &mut Rng) -> char {
        char::from(*rng.pick(self.0))
    }

    /// How many names of this length there are.
    pub fn count_of_length(self, length: u32) -> u64 {
        LETTERS * (self.0.len() as u64).pow(length - 1)
    }

    /// The packed name of this length that has so many before it.
    pub fn packed_at(self, length: u32, mut number: u64) -> u64 {
        let count = self.0.len() as u64;
        let mut packed = 0;
        for place in (1..length).rev() {
            packed |= u64::from(self.0[(number % count) as usize]) << shift(place);
            number /= count;
        }
        packed | (u64::from(b'A') + number) << shift(0)
    }

    /// The names whose packed form has this remainder by `SLOTS`, by length and then rising. The last character is worked out
    /// from those before it, so that thousands of names take some milliseconds.
    pub fn of_remainder(self, remainder: u64) -> impl Iterator<Item = Name> {
        (1..=LONGEST).flat_map(move |length| {
            let last = self.last_characters(length);
            let fronts = if length == 1 { 1 } else { self.count_of_length(length - 1) };
            (0..fronts).filter_map(move |number| {
                let front = if length == 1 { 0 } else { self.packed_at(length - 1, number) };
                let wanted = (remainder + SLOTS - front % SLOTS) % SLOTS;
                Name::from_packed(front | last[wanted as usize]?)
            })
        })
    }

    /// What a last character adds to a name of this length, by its remainder: no two characters have the same one.
    fn last_characters(self, length: u32) -> Vec<Option<u64>> {
        let mut last = vec![None; SLOTS as usize];
        for &character in self.0.iter().filter(|character| length > 1 || character.is_ascii_uppercase()) {
            let added = u64::from(character) << shift(length - 1);
            last[(added % SLOTS) as usize] = Some(added);
        }
        last
    }
}

fn shift(place: u32) -> u32 {
    8 * (LONGEST - 1 - place)
}

/// The order in which names are met.
#[derive(Clone, Copy, Debug, PartialEq, Eq)]
pub enum Order {
    Rising,
    Falling,
    Scattered,
}

impl Order {
    pub const ALL: [Order; 3] = [Order::Rising, Order::Falling, Order::Scattered];

    /// Brings names into the order.
    pub fn arrange(self, names: &mut [String], rng: &mut Rng) {
        names.sort();
        match self {
            Order::Rising => {}
            Order::Falling => names.reverse(),
            Order::Scattered => rng.shuffle(names),
        }
    }

    /// The order that packed names have: scattered if at least a quarter of the steps goes up, and a quarter down.
    pub fn of(names: &[u64]) -> Option<Order> {
        let steps = names.len().saturating_sub(1);
        match names.windows(2).filter(|pair| pair[0] < pair[1]).count() {
            up if up == steps => Some(Order::Rising),
            0 => Some(Order::Falling),
            up if 4 * up >= steps && 4 * (steps - up) >= steps => Some(Order::Scattered),
            _ => None,
        }
    }
}

/// Different names, many of which part from another one in their last character or their length alone.
pub fn close_names(count: usize, rng: &mut Rng) -> Vec<String> {
    let mut seen = BTreeSet::new();
    let mut names: Vec<String> = Vec::new();
    while names.len() < count {
        let mut name = if names.is_empty() || rng.percent(40) { random_name(rng) } else { rng.pick(&names).clone() };
        match rng.below(4) {
            0 => name.push(Alphabet::ENDS.any(rng)),
            1 => name.push(Alphabet::WHOLE.any(rng)),
            2 => drop(name.pop()),
            _ => {
                name.pop();
                name.push(Alphabet::WHOLE.any(rng));
            }
        }
        if Name::parse(name.as_bytes()).is_some() && seen.insert(name.clone()) {
            names.push(name);
        }
    }
    names
}

/// A legal name with one thing wrong that lies close to what request 4/14 allows: an added character for the first one, a byte
/// beside one of them or a small letter behind it, or a seventh character.
pub fn misspelled(name: &[u8], rng: &mut Rng) -> Vec<u8> {
    let mut name = name.to_vec();
    match rng.below(4) {
        0 => name[0] = *rng.pick(ADDED),
        1 | 2 => {
            let at = rng.within(1..=LONGEST as usize - 1).min(name.len());
            name.resize(name.len().max(at + 1), 0);
            name[at] = *rng.pick(b"#%-/a");
        }
        _ => name.resize_with(LONGEST as usize + 1, || *rng.pick(ADDED)),
    }
    name
}

/// What a cell would hold if this were a name; a seventh character makes it too large.
pub fn cell_of(text: &[u8]) -> u64 {
    let zeros = std::iter::repeat(&0);
    text.iter().chain(zeros).take(text.len().max(LONGEST as usize)).fold(0, |cell, &byte| cell << 8 | u64::from(byte))
}

/// How two different names part, if they are close: in the last character alone, or in the length alone.
pub fn closeness(one: u64, other: u64) -> Option<Closeness> {
    let text = |packed: u64| packed.to_be_bytes().into_iter().filter(|&byte| byte != 0).collect::<Vec<u8>>();
    let (one, other) = (text(one), text(other));
    match (one.as_slice(), other.as_slice()) {
        ([one @ .., _], [other @ .., _]) if one == other => Some(Closeness::LastCharacter),
        (one, other) if one.starts_with(other) || other.starts_with(one) => Some(Closeness::Length),
        _ => None,
    }
}

#[derive(Clone, Copy, Debug, PartialEq, Eq)]
pub enum Closeness {
    LastCharacter,
    Length,
}

#[cfg(test)]
mod tests {
    use super::*;

    fn packed(name: &str) -> u64 {
        Name::parse(name.as_bytes()).expect("a legal name").packed()
    }

    #[test]
    fn alphabets() {
        let may_follow = |byte: &u8| Name::parse(&[b'A', *byte]).is_some();
        assert!((0..=255).filter(may_follow).eq(Alphabet::WHOLE.0.iter().copied()));
        assert_eq!(Alphabet::OLD.0, b"0123456789ABCDEFGHIJKLMNOPQRSTUVWXYZ");
        assert!(Alphabet::ENDS.0.iter().all(may_follow));
    }

    #[test]
    fn names_by_number() {
        for (number, name) in [(0, "A$"), (1, "A."), (2, "A0"), (37, "AZ"), (38, "B$")] {
            assert_eq!(Alphabet::WHOLE.packed_at(2, number), packed(name));
        }
        for (number, name) in [(0, "A0"), (35, "AZ"), (36, "B0")] {
            assert_eq!(Alphabet::OLD.packed_at(2, number), packed(name));
        }
        for alphabet in [Alphabet::WHOLE, Alphabet::OLD] {
            assert_eq!([0, 25].map(|number| alphabet.packed_at(1, number)), [packed("A"), packed("Z")]);
            assert_eq!(alphabet.packed_at(6, alphabet.count_of_length(6) - 1), packed("ZZZZZZ"));
        }
    }

    #[test]
    fn names_of_one_remainder() {
        for (alphabet, count) in [(Alphabet::WHOLE, 38), (Alphabet::OLD, 36)] {
            for remainder in [0, 1, packed("N0") % SLOTS, SLOTS - 1] {
                let names: Vec<Name> = alphabet.of_remainder(remainder).take(700).collect();
                assert!(names.iter().all(|name| name.packed() % SLOTS == remainder));
                let by_length: BTreeSet<(usize, Name)> =
                    names.iter().map(|name| (name.to_string().len(), *name)).collect();
                assert!(by_length.into_iter().map(|(_, name)| name).eq(names));
            }
            assert!(alphabet.of_remainder(packed("A") % SLOTS).any(|name| name.packed() == packed("A")));
            // None is left out: every name of up to three characters has one of the remainders.
            let is_short = |name: &Name| name.packed() << 40 == 0;
            let short: usize = (0..SLOTS).map(|each| alphabet.of_remainder(each).take_while(is_short).count()).sum();
            assert_eq!(short, 26 + 26 * count + 26 * count * count);
        }
    }

    #[test]
    fn misspelled_names() {
        let mut rng = Rng::new(1);
        for _ in 0..1000 {
            let name = misspelled(random_name(&mut rng).as_bytes(), &mut rng);
            assert_eq!(Name::parse(&name), None, "{:?}", String::from_utf8_lossy(&name));
            assert!(name.len() <= 7 && name.iter().all(u8::is_ascii_graphic));
        }
    }

    #[test]
    fn orders() {
        let mut rng = Rng::new(1);
        let mut names = close_names(100, &mut rng);
        for order in Order::ALL {
            order.arrange(&mut names, &mut rng);
            assert_eq!(Order::of(&names.iter().map(|name| packed(name)).collect::<Vec<_>>()), Some(order));
        }
    }

    #[test]
    fn close_and_not() {
        assert_eq!(closeness(packed("AB"), packed("AC")), Some(Closeness::LastCharacter));
        assert_eq!(closeness(packed("A"), packed("B")), Some(Closeness::LastCharacter));
        assert_eq!(closeness(packed("A"), packed("A0")), Some(Closeness::Length));
        assert_eq!(closeness(packed("ABCDEF"), packed("AB")), Some(Closeness::Length));
        assert_eq!(closeness(packed("AB"), packed("BB")), None);
        assert_eq!(closeness(packed("AB"), packed("ACB")), None);
    }
}
