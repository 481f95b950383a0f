//! Brute force: specs over a few pieces, and where each of them writes all names over these
//! pieces, by the crate.
//!
//! Why these names decide. No piece begins or ends another, so where a text of pieces begins
//! or ends with another one, what is left is made of pieces. Patterns that share a
//! destination share one that is a start of theirs followed by an end of theirs; a literal
//! shares its completed form. So if anything is shared, then something that has at most as
//! many pieces as the longest start and end together, or as the longest literal and the two
//! that complete it. The capture of a pattern has at most that many, and a name one more,
//! since the source of a pattern has one piece at most beside its star. (A root that all
//! destinations of a family begin with changes nothing in that.)

use super::Pair;
use crate::Fault;
use cases::{short_text, short_texts};
use oracle::FetchSpec;
use std::collections::HashMap;

const LOWER: &[u8] = b"0123456789abcdef0123456789abcdef01234567";
const UPPER: &[u8] = b"0123456789ABCDEF0123456789ABCDEF01234567";

/// What a family is made of.
pub struct Plan {
    pub what: &'static str,
    /// What all destinations begin with.
    root: &'static [u8],
    pieces: &'static [&'static [u8]],
    /// The most pieces that a pattern has before its star, and after it.
    starts: u32,
    ends: u32,
    /// The most pieces that a literal has.
    literals: u32,
}

/// The families. A literal outside of `refs/` is made of pieces in its completed form too.
pub const PLANS: [Plan; 4] = [
    Plan { what: "letters", root: b"refs/", pieces: &[b"a", b"b"], starts: 3, ends: 3, literals: 5 },
    Plan {
        what: "tags",
        root: b"",
        pieces: &[b"refs/", b"heads/", b"tags/", b"a"],
        starts: 2,
        ends: 2,
        literals: 3,
    },
    Plan {
        what: "remotes",
        root: b"",
        pieces: &[b"refs/", b"heads/", b"remotes/", b"a"],
        starts: 2,
        ends: 2,
        literals: 3,
    },
    Plan {
        what: "object ids",
        root: b"",
        pieces: &[b"refs/", b"heads/", UPPER, LOWER],
        starts: 2,
        ends: 1,
        literals: 2,
    },
];

impl Plan {
    /// All texts of up to so many pieces.
    fn texts(&self, longest: u32) -> Vec<Vec<u8>> {
        let numbers: Vec<u8> = (0..self.pieces.len() as u8).collect();
        let text =
            |n| short_text(&numbers, n).iter().flat_map(|n| self.pieces[usize::from(*n)]).copied().collect();
        (0..short_texts(&numbers, longest)).map(text).collect()
    }

    /// The names that decide, and `HEAD`, which some specs have as their source.
    fn names(&self) -> Vec<Vec<u8>> {
        let mut names = self.texts(1 + (self.starts + self.ends).max(self.literals + 2));
        names.push(b"HEAD".to_vec());
        names
    }

    /// All specs with these destinations that the crate accepts, each destination with two of
    /// the sources in turn; and some specs that write nowhere.
    fn specs(&self) -> Vec<Vec<u8>> {
        let (first, last) = (self.pieces[0], self.pieces[self.pieces.len() - 1]);
        let starred = [b"*".to_vec(), [first, b"*"].concat(), [b"*", last].concat(), [last, b"*"].concat()];
        let plain = [b"".to_vec(), last.to_vec(), [first, last].concat(), LOWER.to_vec(), UPPER.to_vec()];
        let mut specs =
            vec![b"^a".to_vec(), b"^refs/*".to_vec(), b"".to_vec(), b"+a:".to_vec(), LOWER.to_vec()];
        let mut add = |sources: &[Vec<u8>], destination: &[u8]| {
            for _ in 0..2 {
                let source = &sources[specs.len() % sources.len()];
                specs.push([&source[..], b":", self.root, destination].concat());
            }
        };
        for start in self.texts(self.starts) {
            self.texts(self.ends).iter().for_each(|end| add(&starred, &[&start[..], b"*", end].concat()));
        }
        self.texts(self.literals).iter().for_each(|literal| add(&plain, literal));
        specs.retain(|spec| FetchSpec::read(spec).is_ok());
        specs
    }
}

/// Specs, and all destinations of each.
pub struct Family {
    specs: Vec<Vec<u8>>,
    /// The numbers of its destinations, ascending.
    reached: Vec<Vec<u32>>,
    numbers: HashMap<Vec<u8>, u32>,
}

impl Family {
    pub fn of(plan: &Plan, fault: Fault) -> Family {
        let names = plan.names();
        let names: Vec<&[u8]> = names.iter().map(Vec::as_slice).collect();
        let mut family = Family { specs: plan.specs(), reached: Vec::new(), numbers: HashMap::new() };
        for spec in &family.specs {
            let read = FetchSpec::read(spec).ok().expect("those that are refused are left out");
            let mut destinations = read.destinations(&names);
            if fault == Fault::Oracle {
                destinations.pop_last();
            }
            let mut numbers = Vec::with_capacity(destinations.len());
            for destination in destinations {
                let next = family.numbers.len() as u32;
                numbers.push(*family.numbers.entry(destination).or_insert(next));
            }
            numbers.sort();
            family.reached.push(numbers);
        }
        family
    }

    pub fn specs(&self) -> usize {
        self.specs.len()
    }

    /// How many pairs there are, in either order.
    pub fn pairs(&self) -> u64 {
        self.specs.len().pow(2) as u64
    }

    /// The pair with that number.
    pub fn pair(&self, number: u64) -> Pair {
        let [first, second] = self.both(number).map(|spec| self.specs[spec].clone());
        Pair { first, second }
    }

    fn both(&self, number: u64) -> [usize; 2] {
        let number = number as usize;
        [number / self.specs.len(), number % self.specs.len()]
    }

    /// Complains unless names of both specs are mapped to what is told, or no names of them
    /// to anything that is the same.
    pub fn agrees(&self, pair: u64, told: Option<&[u8]>) -> Result<(), String> {
        let [one, other] = self.both(pair).map(|spec| &self.reached[spec]);
        let Some(told) = told else {
            let what = "the crate maps some names of both to one destination, we find none";
            return if meet(one, other) { Err(what.to_owned()) } else { Ok(()) };
        };
        let number = self.numbers.get(told);
        let both = number.is_some_and(|n| [one, other].iter().all(|of| of.binary_search(n).is_ok()));
        let what = "the crate does not map some names of both to";
        if both { Ok(()) } else { Err(format!("{what} {}", told.escape_ascii())) }
    }
}

/// Whether two ascending lists have a number in common.
fn meet(one: &[u32], other: &[u32]) -> bool {
    let (mut at, mut beside) = (0, 0);
    while at < one.len() && beside < other.len() {
        if one[at] == other[beside] {
            return true;
        }
        let behind = one[at] < other[beside];
        at += usize::from(behind);
        beside += usize::from(!behind);
    }
    false
}

#[cfg(test)]
mod tests {
    use super::*;

    #[test]
    fn no_piece_begins_or_ends_another() {
        for plan in PLANS {
            for (number, piece) in plan.pieces.iter().enumerate() {
                let others = plan.pieces.iter().enumerate().filter(|(other, _)| *other != number);
                assert!(
                    others.into_iter().all(|(_, other)| !other.starts_with(piece) && !other.ends_with(piece))
                );
            }
        }
    }

    /// The few names that are tried for other pairs find what all names find.
    #[test]
    fn few_names_decide_as_all_do() {
        for plan in PLANS {
            let family = Family::of(&plan, Fault::None);
            for number in (0..family.pairs()).step_by(37) {
                let (pair, [one, other]) = (family.pair(number), family.both(number));
                let [first, second] =
                    [&pair.first, &pair.second].map(|text| FetchSpec::read(text).ok().unwrap());
                let few = !oracle::shared(&first, &second).is_empty();
                assert_eq!(meet(&family.reached[one], &family.reached[other]), few, "{pair:?}");
            }
        }
    }

    #[test]
    fn lists_that_meet() {
        assert!(meet(&[1, 4, 9], &[2, 9]) && meet(&[3], &[3]));
        assert!(!meet(&[1, 4, 9], &[2, 8, 10]) && !meet(&[], &[1]));
    }
}
