//! What came up in a run.

use super::Pair;
use paper::{Mode, RefusedSpec, Spec, read_spec};

/// What a run must have met at least once.
const EVENTS: [&str; 19] = [
    "pairs that collide",
    "pairs that do not",
    "collisions of patterns",
    "on no bytes",
    "on the start of one and the end of the other",
    "above 4,096 bytes",
    "patterns that only their starts keep apart",
    "patterns that only their ends keep apart",
    "collisions of literals",
    "that are spelt in two ways",
    "of an object id",
    "onto an object id",
    "collisions of a literal and a pattern",
    "literals that a pattern misses by overlap",
    "pairs with a negative",
    "pairs without a destination",
    "groups with rows of two specs or more",
    "rows of two specs on one destination",
    "groups without collisions, of which the whole has conflicts",
];

/// The questions that a fetch spec is asked.
const ASKED: [usize; 9] = [1, 3, 5, 6, 7, 8, 9, 10, 11];

/// Of so many brute-force pairs at least one must collide, and one must not.
const RARE: u64 = 10;

/// How often each refusal and each event came up.
#[derive(Default)]
pub struct Seen {
    /// Of the first spec and of the second.
    refusals: [[u64; 12]; 2],
    events: [u64; EVENTS.len()],
    /// Pairs with all names tried that collide, and that do not.
    brute_force: [u64; 2],
}

impl Seen {
    pub fn refusal(&mut self, why: RefusedSpec) {
        self.refusals[why.which as usize - 1][why.number as usize] += 1;
    }

    /// Counts an accepted pair with the destination that is told of it.
    pub fn pair(&mut self, pair: &Pair, told: Option<&[u8]>) {
        let [first, second] = [&pair.first, &pair.second].map(|text| read_spec(0, text).expect("accepted"));
        let mut count = |event: usize, yes: bool| self.events[event] += u64::from(yes);
        count(usize::from(told.is_none()), true);
        count(14, [&first, &second].iter().any(|spec| spec.mode == Mode::Negative));
        let (Some(one), Some(other)) = (first.destination, second.destination) else {
            return count(15, true);
        };
        match (halves(one), halves(other)) {
            (Some(one), Some(other)) => {
                let starts = begin_alike(one.0, other.0);
                let ends = close_alike(one.1, other.1);
                count(2, told.is_some());
                count(3, told == Some(b""));
                let crossed = |one: (&[u8], &[u8]), other: (&[u8], &[u8])| {
                    one.0.len() > other.0.len() && one.1.len() < other.1.len()
                };
                count(4, told.is_some() && (crossed(one, other) || crossed(other, one)));
                count(5, told.is_some_and(|told| told.len() > 4096));
                count(6, !starts && ends);
                count(7, starts && !ends);
            }
            (None, None) => {
                count(8, told.is_some());
                count(9, told.is_some() && one != other);
                count(10, told.is_some() && (from_object(&first) || from_object(&second)));
                count(11, told.is_some() && one != other && one.len() == 40 && other.len() == 40);
            }
            (Some(pattern), None) | (None, Some(pattern)) => {
                let literal = if one.contains(&b'*') { other } else { one };
                count(12, told.is_some());
                count(13, told.is_none() && literal.starts_with(b"refs/") && overlaps(pattern, literal));
            }
        }
    }

    /// Counts a group that shows something, with rows of two specs or more; rows of two specs
    /// on one destination; and a group of which the collisions were taken out and with them
    /// conflicts.
    pub fn group(&mut self, shows: bool, rows: u64, freed: bool) {
        self.events[16] += u64::from(shows);
        self.events[17] += rows;
        self.events[18] += u64::from(freed);
    }

    pub fn add(&mut self, other: &Seen) {
        let refusals = self.refusals.iter_mut().flatten().zip(other.refusals.iter().flatten());
        refusals.for_each(|(sum, n)| *sum += n);
        self.events.iter_mut().zip(other.events).for_each(|(sum, n)| *sum += n);
    }

    /// Adds pairs for which all names were tried.
    pub fn add_brute_force(&mut self, other: &Seen) {
        self.brute_force.iter_mut().zip(other.events).for_each(|(sum, n)| *sum += n);
        self.add(other);
    }

    pub fn total(&self) -> u64 {
        self.events[0] + self.events[1] + self.refusals.iter().flatten().sum::<u64>()
    }

    /// Prints the counts. False if some refusal or event never came up, or if one of the two
    /// answers is rare: then the run would not have shown much.
    pub fn everything(&self) -> bool {
        for (which, refusals) in ["first", "second"].iter().zip(&self.refusals) {
            let counts: String = ASKED.iter().map(|n| format!(" {n}: {}", refusals[*n])).collect();
            println!("refusals of the {which} spec{counts}");
        }
        let events: Vec<String> =
            EVENTS.iter().zip(self.events).map(|(event, n)| format!("{n} {event}")).collect();
        println!("{}", events.join(", "));
        let [yes, no] = self.brute_force;
        println!("with all names tried: {yes} pairs collide, {no} do not");
        let all = self.refusals.iter().all(|refusals| ASKED.iter().all(|n| refusals[*n] > 0))
            && self.events.iter().all(|count| *count > 0);
        if !all {
            println!("differential: something never came up");
        }
        let often = RARE * yes.min(no) >= yes + no && yes + no >= 200_000;
        if !often {
            println!("differential: an answer is rare, or there are few pairs");
        }
        all && often
    }
}

/// What stands before and after a star.
fn halves(text: &[u8]) -> Option<(&[u8], &[u8])> {
    let star = text.iter().position(|byte| *byte == b'*')?;
    Some((&text[..star], &text[star + 1..]))
}

fn begin_alike(one: &[u8], other: &[u8]) -> bool {
    one.starts_with(other) || other.starts_with(one)
}

fn close_alike(one: &[u8], other: &[u8]) -> bool {
    one.ends_with(other) || other.ends_with(one)
}

/// Whether a text has both the start and the end of a pattern, and no room for both.
fn overlaps((start, end): (&[u8], &[u8]), text: &[u8]) -> bool {
    text.starts_with(start) && text.ends_with(end) && text.len() < start.len() + end.len()
}

fn from_object(spec: &Spec) -> bool {
    spec.source.is_some_and(|source| source.len() == 40 && source.iter().all(u8::is_ascii_hexdigit))
}
