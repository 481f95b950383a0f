//! Comparisons on keys: whether the canonical texts of two specs are equal exactly if their
//! instructions are, and whether each is read again as what it is the text of.

mod answers;
mod compare;
mod entries;
mod seen;
mod similar;

pub use answers::Keyed;
pub use compare::{Compared, Comparison};
#[cfg(test)]
pub use entries::MODEL;
pub use entries::{ENTRIES, Entries};
pub use seen::Seen;

use crate::{
    buffers::Again,
    cut, groups,
    hex::to_hex,
    said,
    work::{self, Run, Sample},
};
use cases::{Random, short_text, short_texts};
use vasigmon::list;

/// The bytes that signs, splits and `HEAD` turn on, for all pairs of texts of up to `LONGEST`.
const TELLING: &[u8] = b"a+^:@*.";
const LONGEST: u32 = 6;

/// How many pairs a thread takes at a time, and of how many specs all pairs.
const CHUNK: u64 = 256;
const ROWS: u64 = 8;

/// Two specs of one operation.
#[derive(Clone, Debug)]
pub struct Pair {
    pub op: u64,
    pub first: Vec<u8>,
    pub second: Vec<u8>,
}

impl Pair {
    fn of(op: u64, first: &[u8], second: &[u8]) -> Pair {
        Pair { op, first: first.to_vec(), second: second.to_vec() }
    }

    /// How many bytes are lent.
    fn size(&self) -> usize {
        self.first.len() + self.second.len()
    }
}

/// Compares all pairs of similar specs, all pairs of short ones, and `count` grown pairs for each
/// operation.
pub fn run(comparison: Comparison, sample: Sample, count: u64) -> bool {
    let specs = similar::all();
    let similar = |op, n| {
        let length = specs.len() as u64;
        Pair::of(op, &specs[(n / length) as usize], &specs[(n % length) as usize])
    };
    let grown = |op, n| {
        let [first, second] = cases::sharing_sides(op, &mut Random::new(sample.seed, n));
        Pair { op, first, second }
    };
    let mut run = Run::<Comparison, Seen>::new(comparison, sample);
    let passed = run.pairs("pairs of similar specs", (specs.len() as u64).pow(2), similar, Seen::add)
        && [0, 1].iter().all(|op| run.short(*op))
        && run.pairs("grown pairs", count, grown, Seen::add_grown)
        && (run.seen.everything() || sample.is_part());
    if passed {
        let (pairs, sharing) = (run.seen.pairs(), run.seen.sharing());
        println!(
            "differential: {pairs} comparisons of keys, {sharing} of them grown pairs of accepted specs that share a side, no difference"
        );
    }
    passed
}

/// Compares one pair.
pub fn one(comparison: &Comparison, pair: &Pair) -> bool {
    said(comparison.run(pair, Again::All, &mut Seen::default()))
}

/// What one thread finds in single specs: those that are accepted, and what came up.
#[derive(Default)]
struct Tally<'a> {
    accepted: Vec<Compared<'a>>,
    seen: Seen,
}

impl Run<Comparison, Seen> {
    /// Compares `count` pairs for both operations.
    fn pairs(
        &mut self,
        what: &str,
        count: u64,
        pair: impl Fn(u64, u64) -> Pair + Sync,
        add: impl Fn(&mut Seen, &Seen),
    ) -> bool {
        let differs = |op, number, seen: &mut Seen| {
            self.comparison.run(&pair(op, number), Again::One(number), seen).is_err()
        };
        let compare = |number, seen: &mut Seen| [0, 1].iter().all(|op| !differs(*op, number, seen));
        let (tallies, differing) = work::share(self.sample, count, CHUNK, compare);
        let both = differing.iter().flat_map(|number| [0, 1].map(|op| (op, *number)));
        let found = both.filter(|(op, number)| differs(*op, *number, &mut Seen::default()));
        if let Some(pair) = found.map(|(op, number)| pair(op, number)).min_by_key(Pair::size) {
            return self.differs(pair);
        }
        tallies.iter().for_each(|seen| add(&mut self.seen, seen));
        self.passed(what, 2 * self.sample.of(count))
    }

    /// Compares all pairs of the accepted ones among the short texts. Of a sample of these, all
    /// pairs.
    fn short(&mut self, op: u64) -> bool {
        let texts: Vec<Vec<u8>> =
            (0..short_texts(TELLING, LONGEST)).map(|number| short_text(TELLING, number)).collect();
        let (tallies, differing) =
            work::share(self.sample, texts.len() as u64, CHUNK, |number, tally: &mut Tally| {
                self.accepted(op, &texts[number as usize], number, tally)
            });
        if let Some(number) = differing.first() {
            let text = &texts[*number as usize];
            return self.differs(Pair::of(op, text, text));
        }
        let mut accepted = Vec::new();
        for tally in tallies {
            self.seen.add(&tally.seen);
            accepted.extend(tally.accepted);
        }
        self.all_pairs(op, &accepted)
    }

    /// Compares a spec by itself, and keeps it if it is accepted. False if it differs.
    fn accepted<'a>(&self, op: u64, text: &'a [u8], number: u64, tally: &mut Tally<'a>) -> bool {
        let compared = self.comparison.spec(op, text, Again::One(number), &mut tally.seen);
        compared.map(|spec| tally.accepted.extend(Some(spec).filter(|spec| spec.ours.is_some()))).is_ok()
    }

    /// Compares all pairs of specs that were compared by themselves.
    fn all_pairs(&mut self, op: u64, specs: &[Compared]) -> bool {
        let count = specs.len() as u64;
        let differing_from = |row: u64, seen: &mut Seen| {
            let (first, others) = (&specs[row as usize], &specs[row as usize..]);
            others.iter().find(|second| self.comparison.pair(first, second, seen).is_err())
        };
        let whole = Sample { one_in: 1, ..self.sample };
        let (tallies, differing) =
            work::share(whole, count, ROWS, |row, seen| differing_from(row, seen).is_none());
        if let Some(row) = differing.first() {
            let second = differing_from(*row, &mut Seen::default()).expect("it differs");
            return self.differs(Pair::of(op, specs[*row as usize].spec, second.spec));
        }
        tallies.iter().for_each(|seen| self.seen.add(seen));
        let of = if op == 0 { "fetch" } else { "push" };
        self.passed(&format!("all pairs of {count} short {of} specs"), count * (count + 1) / 2)
    }

    /// Prints a smallest pair that shows a difference and the command that repeats it.
    fn differs(&self, pair: Pair) -> bool {
        let pair = self.comparison.smallest(pair);
        let differs = self.comparison.run(&pair, Again::All, &mut Seen::default());
        println!("difference: keys, operation {}", pair.op);
        println!("  specs {}", cut(groups::shown(&list::of([&pair.first, &pair.second]))));
        println!("  {}", cut(differs.expect_err("a smallest pair differs")));
        let (op, first, second) = (pair.op, to_hex(&pair.first), to_hex(&pair.second));
        let words = format!("--part keys --op {op} --first-hex '{first}' --second-hex '{second}'");
        self.comparison.fault.repeated_by(&words)
    }
}

#[cfg(test)]
mod tests {
    use super::*;

    /// Both specs of most grown pairs are accepted.
    #[test]
    fn most_grown_pairs_are_accepted() {
        for op in [0, 1] {
            let pairs = (0..2000).map(|number| cases::sharing_sides(op, &mut Random::new(1, number)));
            let accepted =
                pairs.filter(|pair| pair.iter().all(|spec| paper::Instruction::read(op, spec).is_ok()));
            let accepted = accepted.count();
            assert!(accepted > 1200, "{accepted} for operation {op}");
        }
    }
}
