//! Good lists, each with one byte changed, or cut.

/// What a byte of a larger list is changed to: numbers and groups at their edges, and
/// the bytes that decide most in a spec.
const TELLING: &[u8] = b"\x00\x01\x02\x7f\x80\x81\xff*:+^/.@a~\x20";

/// Up to so many bytes, a list is small and each byte takes all other values.
const SMALL: usize = 150;

/// Up to so many bytes, each place of a list is changed; of a longer one those near its
/// ends, and each 97th between.
const MIDDLE: usize = 1500;

/// An operation, a spec list and a second list.
pub type Pair = (u64, Vec<u8>, Vec<u8>);

/// Pairs of good lists, and damaged copies of them.
pub struct Damage {
    pairs: Vec<Pair>,
    /// The number of the first damaged copy of each.
    firsts: Vec<u64>,
    count: u64,
}

impl Damage {
    pub fn of(pairs: Vec<Pair>) -> Damage {
        let mut firsts = Vec::new();
        let mut count = 0;
        for (_, specs, second) in &pairs {
            firsts.push(count);
            count += copies(specs) + copies(second);
        }
        Damage { pairs, firsts, count }
    }

    /// The good lists.
    pub fn good(&self) -> &[Pair] {
        &self.pairs
    }

    /// How many damaged copies there are.
    pub fn count(&self) -> u64 {
        self.count
    }

    /// The damaged copy with that number: of the spec list first, then of the second.
    pub fn copy(&self, number: u64) -> Pair {
        let pair = self.firsts.partition_point(|first| *first <= number) - 1;
        let (op, mut specs, mut second) = self.pairs[pair].clone();
        let number = number - self.firsts[pair];
        match number.checked_sub(copies(&specs)) {
            None => specs = copy(&specs, number),
            Some(number) => second = copy(&second, number),
        }
        (op, specs, second)
    }
}

/// The places of a list that are changed.
fn places(length: usize) -> impl Iterator<Item = usize> + Clone {
    (0..length).filter(move |at| length <= MIDDLE || *at < 64 || *at + 64 >= length || at % 97 == 0)
}

/// How many values a byte is changed to.
fn values(length: usize) -> u64 {
    if length <= SMALL { 255 } else { TELLING.len() as u64 }
}

/// How many damaged copies of a list there are: changes, cuts at its end, cuts at its
/// front.
fn copies(list: &[u8]) -> u64 {
    places(list.len()).count() as u64 * (values(list.len()) + 2)
}

/// The damaged copy with that number. A telling value may be the byte itself; the copy
/// is good then.
fn copy(list: &[u8], number: u64) -> Vec<u8> {
    let each = values(list.len()) + 2;
    let at = places(list.len()).nth((number / each) as usize).expect("a number below the count");
    let mut copy = list.to_vec();
    match number % each {
        0 => copy.truncate(at),
        1 => drop(copy.drain(..=at)),
        n if list.len() <= SMALL => copy[at] = copy[at].wrapping_add((n - 1) as u8),
        n => copy[at] = TELLING[n as usize - 2],
    }
    copy
}

#[cfg(test)]
mod tests {
    use super::*;
    use std::collections::HashSet;

    #[test]
    fn small_lists_have_every_change_and_every_cut() {
        let list = b"\x01a\x00";
        let all: HashSet<_> = (0..copies(list)).map(|number| copy(list, number)).collect();
        assert_eq!(all.len(), 3 * 255 + 5, "the empty copy and no other is made twice");
        assert!(!all.contains(list.as_slice()));
        for cut in [b"".as_slice(), b"\x01", b"\x01a", b"a\x00", b"\x00"] {
            assert!(all.contains(cut));
        }
    }

    #[test]
    fn copies_of_one_list_and_then_of_the_other() {
        let damage = Damage::of(vec![(0, vec![], vec![7]), (1, vec![8], vec![9])]);
        assert_eq!(damage.count(), 3 * 257);
        assert_eq!(damage.copy(0), (0, vec![], vec![]));
        assert_eq!(damage.copy(257), (1, vec![], vec![9]));
        assert_eq!(damage.copy(2 * 257 + 2), (1, vec![8], vec![10]));
    }
}
