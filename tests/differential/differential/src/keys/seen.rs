//! What came up in a run.

use super::{Compared, Keyed};
use cases::SPEC_LIMIT;
use oracle::ReadAs;

/// What a run must have met at least once: of pairs, and of keys.
const EVENTS: [&str; 18] = [
    "pairs with equal keys",
    "that are spelt in two ways",
    "of exceptions that are spelt in two ways",
    "pairs with different keys",
    "that differ in force alone",
    "that have their sides exchanged",
    "of two exceptions",
    "of an exception and of the same without its plus",
    "pairs that the crate alone accepts",
    "pairs with a refused spec",
    "pairs that share a side",
    "keys that read back",
    "that have 4,096 bytes",
    "keys beyond the limit",
    "that have 4,097 bytes",
    "keys of exceptions",
    "that are read as another",
    "that are refused",
];

/// Of so many grown pairs at least one must have equal keys, and one different ones.
const RARE: u64 = 10;

/// Of so many grown pairs at least one must be of accepted specs that share a side: 500,000 of
/// the million that a run has unless said.
const SHARING: u64 = 2;

/// Below so many grown pairs neither is asked, for it would be left to chance.
const FEW: u64 = 1000;

/// How often each event and each kind of instruction came up.
#[derive(Default)]
pub struct Seen {
    events: [u64; EVENTS.len()],
    kinds: [u64; 7],
    /// Grown pairs: all, with equal keys, with different ones, that share a side.
    grown: [u64; 4],
}

impl Seen {
    /// Counts a pair.
    pub fn pair(&mut self, first: &Compared, second: &Compared) {
        let (Some(one), Some(other)) = (&first.ours, &second.ours) else {
            let alone = first.the_crate.is_some() && second.the_crate.is_some();
            self.events[if alone { 8 } else { 9 }] += 1;
            return;
        };
        let exceptions = one.is_exception() && other.is_exception();
        let mut count = |event: usize, yes: bool| self.events[event] += u64::from(yes);
        count(10, share_a_side(one, other));
        if one.key == other.key {
            count(0, true);
            count(1, first.spec != second.spec);
            count(2, first.spec != second.spec && exceptions);
        } else {
            count(3, true);
            count(4, differ_in_force_alone(one, other));
            count(5, have_sides_exchanged(one, other));
            count(6, exceptions);
            count(7, lacks_the_plus(one, other) || lacks_the_plus(other, one));
        }
    }

    /// Counts the key of a spec that all accept, and what the crate reads in it.
    pub fn key(&mut self, ours: &Keyed, read: ReadAs) {
        let mut count = |event: usize, yes: bool| self.events[event] += u64::from(yes);
        let (fits, exception) = (ours.key.len() <= SPEC_LIMIT, ours.is_exception());
        count(11, fits && !exception);
        count(12, ours.key.len() == SPEC_LIMIT && !exception);
        count(13, !fits);
        count(14, ours.key.len() == SPEC_LIMIT + 1);
        count(15, exception);
        count(16, exception && read == ReadAs::Another);
        count(17, exception && matches!(read, ReadAs::Refused(_)));
        self.kinds[ours.instruction.kind as usize] += 1;
    }

    pub fn add(&mut self, other: &Seen) {
        self.events.iter_mut().zip(other.events).for_each(|(sum, n)| *sum += n);
        self.kinds.iter_mut().zip(other.kinds).for_each(|(sum, n)| *sum += n);
    }

    /// Adds grown pairs.
    pub fn add_grown(&mut self, other: &Seen) {
        let counts = [other.pairs(), other.events[0], other.events[3], other.events[10]];
        self.grown.iter_mut().zip(counts).for_each(|(sum, n)| *sum += n);
        self.add(other);
    }

    /// How many pairs were compared.
    pub fn pairs(&self) -> u64 {
        [0, 3, 8, 9].iter().map(|event| self.events[*event]).sum()
    }

    /// How many grown pairs were compared whose specs are accepted and share a side.
    pub fn sharing(&self) -> u64 {
        self.grown[3]
    }

    /// Prints the counts. False if some event or instruction never came up, if one of the two
    /// answers is rare, or if few grown pairs share a side: then the run would not have shown
    /// much.
    pub fn everything(&self) -> bool {
        let kinds: String =
            self.kinds.iter().enumerate().map(|(n, count)| format!(" {n}: {count}")).collect();
        println!("instructions{kinds}");
        let events: Vec<String> =
            EVENTS.iter().zip(self.events).map(|(event, n)| format!("{n} {event}")).collect();
        println!("{}", events.join(", "));
        let [grown, equal, different, sharing] = self.grown;
        println!("of {grown} grown pairs {equal} have equal keys, {different} different ones");
        let all = self.events.iter().chain(&self.kinds).all(|count| *count > 0);
        if !all {
            println!("differential: something never came up");
        }
        let often = grown < FEW || RARE * equal.min(different) >= grown;
        if !often {
            println!("differential: an answer is rare");
        }
        let enough = grown < FEW || SHARING * sharing >= grown;
        if !enough {
            println!("differential: few grown pairs share a side, {sharing} of {grown}");
        }
        all && often && enough
    }
}

/// Whether a source or destination of the one is a source or destination of the other.
fn share_a_side(one: &Keyed, other: &Keyed) -> bool {
    let (one, other) = (&one.instruction, &other.instruction);
    let among =
        |side: &Option<Vec<u8>>| side.is_some() && [&other.source, &other.destination].contains(&side);
    among(&one.source) || among(&one.destination)
}

fn differ_in_force_alone(one: &Keyed, other: &Keyed) -> bool {
    let (one, other) = (&one.instruction, &other.instruction);
    one.kind == other.kind
        && one.force != other.force
        && one.source == other.source
        && one.destination == other.destination
}

fn have_sides_exchanged(one: &Keyed, other: &Keyed) -> bool {
    let (one, other) = (&one.instruction, &other.instruction);
    one.kind == other.kind && one.source == other.destination && one.destination == other.source
}

/// Whether one is an exception, and the other is fetch-only of its source without the plus.
fn lacks_the_plus(one: &Keyed, other: &Keyed) -> bool {
    one.is_exception() && other.instruction.kind == 0 && one.key[1..] == other.key
}

#[cfg(test)]
mod tests {
    use super::*;
    use oracle::Fields;

    /// A mapping with these sides.
    fn sides(source: Option<&str>, destination: Option<&str>) -> Keyed {
        let bytes = |side: Option<&str>| side.map(|side| side.as_bytes().to_vec());
        let (source, destination) = (bytes(source), bytes(destination));
        Keyed { instruction: Fields { kind: 5, force: 0, source, destination }, key: vec![] }
    }

    #[test]
    fn a_side_is_shared_wherever_it_stands() {
        let ab = sides(Some("a"), Some("b"));
        for other in [sides(Some("a"), None), sides(None, Some("a")), sides(Some("b"), Some("c"))] {
            assert!(share_a_side(&ab, &other) && share_a_side(&other, &ab));
        }
        assert!(!share_a_side(&ab, &sides(Some("c"), Some("ab"))));
        assert!(!share_a_side(&ab, &sides(None, None)) && !share_a_side(&sides(None, None), &ab));
        assert!(!share_a_side(&sides(Some("a"), None), &sides(None, Some("b"))));
        assert!(!share_a_side(&sides(None, None), &sides(None, None)));
    }

    #[test]
    fn grown_pairs_are_to_share_sides_and_to_have_either_answer() {
        let passes = |grown| Seen { events: [1; EVENTS.len()], kinds: [1; 7], grown }.everything();
        assert!(passes([1_000_000, 100_000, 100_000, 500_000]));
        assert!(!passes([1_000_000, 100_000, 100_000, 499_999]));
        assert!(!passes([1_000_000, 99_999, 600_000, 600_000]));
        assert!(!passes([1_000_000, 600_000, 99_999, 600_000]));
        assert!(!passes([1000, 100, 100, 499]) && passes([999, 0, 0, 0]));
    }
}
