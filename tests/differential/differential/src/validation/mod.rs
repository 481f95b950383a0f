//! Comparisons on rows: a spec list and a row list at a time.

mod compare;
mod entry;
mod full;
mod good;
mod grown;
mod seen;

pub use compare::Comparison;
pub use entry::{ENTRY, Entry};
pub use seen::Seen;

use crate::{
    buffers::Again,
    cut,
    damage::{Damage, Pair},
    groups,
    hex::to_hex,
    said,
    work::{self, Run, Sample},
};
use std::borrow::Cow;
use vasigmon::{Group, Items, Operation, raw::Validation};

/// How many cases a thread takes at a time.
const CHUNK: u64 = 64;

/// Of so many comparisons of grown cases, one is with all buffers.
const THOROUGH: u64 = 200;

/// What validation is asked about.
#[derive(Clone, Debug)]
pub struct Case {
    pub op: u64,
    pub specs: Vec<u8>,
    pub second: Second,
}

/// Where the rows come from.
#[derive(Clone, Debug)]
pub enum Second {
    /// They are handed in.
    Rows(Vec<u8>),
    /// They are the archive's forward listing of these items.
    Items(Vec<u8>),
}

impl Case {
    /// The forward listing of a group; or, where the archive refuses that, its items in
    /// place of the rows.
    fn of_group(lists: groups::Lists) -> Case {
        let groups::Lists { op, specs, items } = lists;
        let case = Case { op, specs, second: Second::Items(items) };
        match (case.rows().is_some(), case) {
            (false, Case { second: Second::Items(items), op, specs }) => {
                Case { op, specs, second: Second::Rows(items) }
            }
            (_, case) => case,
        }
    }

    fn of_pair((op, specs, rows): Pair) -> Case {
        Case { op, specs, second: Second::Rows(rows) }
    }

    /// The rows, unless the archive refuses to list them.
    fn rows(&self) -> Option<Cow<'_, [u8]>> {
        let op = match self.op {
            0 => Operation::Fetch,
            _ => Operation::Push,
        };
        match &self.second {
            Second::Rows(rows) => Some(rows.into()),
            Second::Items(items) => {
                let group = Group::from_list(op, self.specs.clone()).ok()?;
                Some(group.match_lhs(&Items::from_list(items.clone()).ok()?).into())
            }
        }
    }

    /// How many bytes are lent.
    fn size(&self) -> usize {
        let (Second::Rows(second) | Second::Items(second)) = &self.second;
        self.specs.len() + second.len()
    }
}

/// Compares `count` forward listings and twice as many grown row lists, good lists and
/// damaged ones, and full-size lists.
pub fn run(comparison: Comparison, sample: Sample, count: u64) -> bool {
    let full = full::cases();
    let damage = Damage::of(good::pairs());
    let again = |n| if n % THOROUGH == 0 { Again::All } else { Again::One(n) };
    let mut run = Run::<Comparison, Seen>::new(comparison, sample);
    let passed = run.operations()
        && run.cases("forward listings", count, CHUNK, |n| {
            (Case::of_group(groups::grown(sample.seed, n)), again(n))
        })
        && run.cases("grown row lists", 2 * count, CHUNK, |n| (grown::case(sample.seed, n), again(n)))
        && run.cases("good row lists", damage.good().len() as u64, 1, |n| {
            (Case::of_pair(damage.good()[n as usize].clone()), Again::All)
        })
        && run.cases("damaged row lists", damage.count(), CHUNK, |n| {
            (Case::of_pair(damage.copy(n)), Again::One(n))
        })
        && run.cases("full-size row lists", full.len() as u64, 1, |n| {
            let (case, again) = &full[n as usize];
            (case.clone(), *again)
        })
        && (run.seen.everything() || sample.is_part());
    if passed {
        println!("differential: {} comparisons of validation, no difference", run.seen.total());
    }
    passed
}

/// Compares one case.
pub fn one(comparison: &Comparison, case: &Case) -> bool {
    said(comparison.run(case, Again::All, &mut Seen::default()))
}

/// A refusal as validation answers it.
fn refusal(why: paper::Refused) -> Validation {
    Validation { refusal: why.number, record: why.record.unwrap_or(0), ..Default::default() }
}

impl Run<Comparison, Seen> {
    /// Operations other than 0 and 1, whatever the lists.
    fn operations(&mut self) -> bool {
        let long = vec![0; 1_048_577];
        for op in [2, 3, 255, 256, 1 << 32, u64::MAX] {
            for specs in [b"".as_slice(), b"\x01a", b"\x80", &long[..65_536]] {
                for rows in [b"".as_slice(), b"\x00\x00\x00\x00\x00", b"\x80", &long] {
                    let case = Case::of_pair((op, specs.to_vec(), rows.to_vec()));
                    if self.comparison.run(&case, Again::All, &mut self.seen).is_err() {
                        return self.differs(case);
                    }
                }
            }
        }
        true
    }

    /// Compares `count` cases, on all threads.
    fn cases(
        &mut self,
        what: &str,
        count: u64,
        chunk: u64,
        case: impl Fn(u64) -> (Case, Again) + Sync,
    ) -> bool {
        let compare = |number, seen: &mut Seen| {
            let (case, again) = case(number);
            self.comparison.run(&case, again, seen).is_ok()
        };
        let (tallies, differing) = work::share(self.sample, count, chunk, compare);
        if let Some(case) = differing.into_iter().map(|number| case(number).0).min_by_key(Case::size) {
            return self.differs(case);
        }
        tallies.iter().for_each(|seen| self.seen.add(seen));
        self.passed(what, self.sample.of(count))
    }

    /// Prints a smallest case of a difference and the command that repeats it.
    fn differs(&self, case: Case) -> bool {
        let smallest = self.comparison.smallest(case);
        let difference = self
            .comparison
            .run(&smallest, Again::All, &mut Seen::default())
            .expect_err("a smallest case differs");
        let (what, second) = match &smallest.second {
            Second::Rows(rows) => ("rows", rows),
            Second::Items(items) => ("items", items),
        };
        println!("difference: validation, operation {}", smallest.op);
        println!("  specs {}", cut(groups::shown(&smallest.specs)));
        match &smallest.second {
            Second::Rows(rows) => println!("  rows of the bytes {}", cut(rows.escape_ascii())),
            Second::Items(items) => println!("  items {}", cut(groups::shown(items))),
        }
        println!("  {}", cut(difference));
        let (op, specs, second) = (smallest.op, to_hex(&smallest.specs), to_hex(second));
        let words = format!("--part validation --op {op} --specs-hex '{specs}' --{what}-hex '{second}'");
        self.comparison.fault.repeated_by(&words)
    }
}
