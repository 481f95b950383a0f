//! Comparisons on single specs.

mod compare;
mod ours;

pub use compare::Comparison;
pub use ours::records;

use crate::{
    cut,
    hex::to_hex,
    work::{self, Run, Sample},
};
use cases::{FAMILIES, Random, around_the_limit, grown, of_length, short_text, short_texts};

/// The bytes that decide most, for all texts of up to five bytes.
const TELLING: &[u8] = b"a*:+^/.@{~]H";

/// More bytes, for all texts of up to four.
const MORE: &[u8] = b"a*:+^/.@{~]H ?[\\0\x00\x1f\x7f\x80-l";

/// Lengths of specs far above the limit.
const FAR_ABOVE: [usize; 3] = [5_000, 65_536, 1_000_000];

/// How many specs a thread takes at a time.
const CHUNK: u64 = 1024;

/// Compares all short specs, long ones, and `count` grown ones.
pub fn run(comparison: Comparison, sample: Sample, count: u64) -> bool {
    let every: Vec<u8> = (0..=255).collect();
    let mut run = Run::<Comparison, Seen>::new(comparison, sample);
    let passed = run.operations()
        && run.specs("texts of up to 5 telling bytes", short_texts(TELLING, 5), |n| short_text(TELLING, n))
        && run.specs("texts of up to 4 of more bytes", short_texts(MORE, 4), |n| short_text(MORE, n))
        && run.specs("texts of up to 2 of all bytes", short_texts(&every, 2), |n| short_text(&every, n))
        && run.specs("texts of 100 to 140 bytes", 41 * FAMILIES, |n| {
            of_length(100 + (n / FAMILIES) as usize, n)
        })
        && run.specs("texts around 4,096 bytes", 6 * FAMILIES, around_the_limit)
        && run.specs("texts far above", 3 * FAMILIES, |n| of_length(FAR_ABOVE[(n / FAMILIES) as usize], n))
        && run.specs("grown texts", count.div_ceil(2), |n| grown(&mut Random::new(sample.seed, n)))
        && (run.seen.everything() || sample.is_part());
    if passed {
        println!("differential: {} comparisons of specs, no difference", run.seen.total());
    }
    passed
}

/// Compares one spec and says what both sides answer.
pub fn one(comparison: &Comparison, op: u64, spec: &[u8]) -> bool {
    let answer = comparison.run(op, spec);
    match &answer {
        Ok(answer) => println!("no difference: {answer:?}"),
        Err(difference) => println!("{difference}"),
    }
    answer.is_ok()
}

/// How often each refusal and each kind of instruction came up.
#[derive(Default)]
struct Seen {
    refusals: [u64; 19],
    kinds: [u64; 7],
}

impl Seen {
    fn count(&mut self, answer: &Result<oracle::Answer, u64>) {
        match answer {
            Ok(answer) => self.kinds[answer.kind as usize] += 1,
            Err(number) => self.refusals[*number as usize] += 1,
        }
    }

    fn add(&mut self, other: &Seen) {
        self.refusals.iter_mut().zip(other.refusals).for_each(|(sum, n)| *sum += n);
        self.kinds.iter_mut().zip(other.kinds).for_each(|(sum, n)| *sum += n);
    }

    fn total(&self) -> u64 {
        self.refusals.iter().chain(&self.kinds).sum()
    }

    /// Prints the counts. False if some answer never came up: then the run
    /// would not have shown much.
    fn everything(&self) -> bool {
        let asked = [1, 2, 3, 4, 5, 6, 7, 8, 9, 10, 11, 18];
        let refusals: String = asked.iter().map(|n| format!(" {n}: {}", self.refusals[*n])).collect();
        let kinds: String =
            self.kinds.iter().enumerate().map(|(n, count)| format!(" {n}: {count}")).collect();
        println!("refusals{refusals}");
        println!("instructions{kinds}");
        let all = asked.iter().all(|n| self.refusals[*n] > 0) && self.kinds.iter().all(|count| *count > 0);
        if !all {
            println!("differential: some answer never came up");
        }
        all
    }
}

impl Run<Comparison, Seen> {
    /// Operations other than 0 and 1, whatever the spec.
    fn operations(&mut self) -> bool {
        for op in [2, 3, 255, 256, 1 << 32, u64::MAX] {
            for spec in (0..short_texts(TELLING, 2)).map(|n| short_text(TELLING, n)).chain([vec![b'a'; 4097]])
            {
                match self.comparison.run(op, &spec) {
                    Ok(answer) => self.seen.count(&answer),
                    Err(_) => return self.differs(op, spec),
                }
            }
        }
        true
    }

    /// Compares `count` specs for both operations, on all threads.
    fn specs(&mut self, what: &str, count: u64, spec: impl Fn(u64) -> Vec<u8> + Sync) -> bool {
        let compare = |number, seen: &mut Seen| {
            let spec = spec(number);
            [0, 1].iter().all(|op| self.comparison.run(*op, &spec).inspect(|it| seen.count(it)).is_ok())
        };
        let (tallies, differing) = work::share(self.sample, count, CHUNK, compare);
        if let Some(spec) = differing.into_iter().map(spec).min_by_key(Vec::len) {
            let op = if self.comparison.run(0, &spec).is_err() { 0 } else { 1 };
            return self.differs(op, spec);
        }
        tallies.iter().for_each(|seen| self.seen.add(seen));
        self.passed(what, 2 * self.sample.of(count))
    }

    /// Prints a smallest case of a difference and the command that repeats it.
    fn differs(&self, op: u64, spec: Vec<u8>) -> bool {
        let smallest = self.comparison.smallest(op, spec);
        let difference = self.comparison.run(op, &smallest).expect_err("a smallest case differs");
        println!("difference: operation {op}, spec \"{}\"", cut(smallest.escape_ascii()));
        println!("  {}", cut(difference));
        let words = format!("--op {op} --spec-hex '{}'", to_hex(&smallest));
        self.comparison.fault.repeated_by(&words)
    }
}
