//! Comparisons on groups: a spec list and an item list at a time.

mod compare;
mod damage;
mod entries;
mod full;
mod hashes;
mod seen;

pub use compare::{Comparison, as_the_crate_has_it};
pub use entries::{ENTRIES, Entries};
pub use seen::Seen;

use crate::{
    buffers::Again,
    cut,
    damage::{Damage, Pair},
    hex::to_hex,
    said,
    specs::records,
    work::{self, Run, Sample},
};
use cases::{Random, damaged, group};
use vasigmon::{
    list,
    raw::{Part, Written},
};

/// How many groups a thread takes at a time.
const CHUNK: u64 = 64;

/// Of so many comparisons of grown groups, two are with all buffers and all views.
const THOROUGH: u64 = 1000;

/// A grown group has at most so many specs, and so many items.
const MOST: usize = 8;

/// What a call on groups is lent.
#[derive(Clone, Debug)]
pub struct Lists {
    pub op: u64,
    pub specs: Vec<u8>,
    pub items: Vec<u8>,
}

/// Compares `count` grown groups for both operations, good lists and damaged ones, and
/// full-size groups; and looks at two rows on which the crate is known to differ.
pub fn run(comparison: Comparison, sample: Sample, count: u64) -> bool {
    let full = full::lists(sample.seed);
    let damage = Damage::of(damage::pairs());
    let lists = |(op, specs, items): Pair| Lists { op, specs, items };
    let mut run = Run::<Comparison, Seen>::new(comparison, sample);
    let passed = run.operations()
        && run.lists("grown groups, each for both operations", 2 * count, CHUNK, |n| {
            let again = if n % THOROUGH < 2 { Again::All } else { Again::One(n / 2) };
            (Lists { op: n % 2, ..grown(sample.seed, n / 2) }, again)
        })
        && run.lists("good lists", damage.good().len() as u64, 1, |n| {
            (lists(damage.good()[n as usize].clone()), Again::All)
        })
        && run.lists("damaged lists", damage.count(), CHUNK, |n| (lists(damage.copy(n)), Again::One(n)))
        && run.lists("full-size groups", full.len() as u64, 1, |n| (full[n as usize].clone(), Again::All))
        && hashes::run(&run.comparison.entries)
        && (run.seen.everything() || sample.is_part());
    if passed {
        println!("differential: {} comparisons of groups, no difference", run.seen.total());
    }
    passed
}

/// Compares one pair of lists.
pub fn one(comparison: &Comparison, lists: &Lists) -> bool {
    said(comparison.run(lists, Again::All, &mut Seen::default()))
}

/// A small group, which is well formed in most cases.
pub fn grown(seed: u64, number: u64) -> Lists {
    let mut random = Random::new(seed, number);
    let op = random.next() % 2;
    let group = group(op, MOST, MOST, &mut random);
    let (mut specs, mut items) = (list::of(&group.specs), list::of(&group.items));
    match random.below(60) {
        0 => specs = damaged(specs, &mut random),
        1 => items = damaged(items, &mut random),
        _ => {}
    }
    Lists { op, specs, items }
}

/// A refusal as a call that writes answers it.
fn refusal(why: paper::Refused) -> Written {
    Written { refusal: why.number, record: why.record.unwrap_or(0), length: 0 }
}

/// A part as the source view answers it.
fn part(answer: Result<paper::Part, paper::Refused>) -> Part {
    match answer {
        Ok(part) => Part {
            refusal: 0,
            record: 0,
            list: u64::from(part.of_specs),
            start: part.start as u64,
            length: part.length as u64,
        },
        Err(why) => Part { refusal: why.number, record: why.record.unwrap_or(0), ..Default::default() },
    }
}

impl Run<Comparison, Seen> {
    /// Operations other than 0 and 1, whatever the lists.
    fn operations(&mut self) -> bool {
        let long = vec![0; 65_536];
        for op in [2, 3, 255, 256, 1 << 32, u64::MAX] {
            for specs in [b"".as_slice(), b"\x01a", b"\x80", &long] {
                for items in [b"".as_slice(), b"\x01a", b"\x80", &long] {
                    let lists = Lists { op, specs: specs.to_vec(), items: items.to_vec() };
                    if self.comparison.run(&lists, Again::All, &mut self.seen).is_err() {
                        return self.differs(lists);
                    }
                }
            }
        }
        true
    }

    /// Compares `count` pairs of lists, on all threads.
    fn lists(
        &mut self,
        what: &str,
        count: u64,
        chunk: u64,
        lists: impl Fn(u64) -> (Lists, Again) + Sync,
    ) -> bool {
        let compare = |number, seen: &mut Seen| {
            let (lists, again) = lists(number);
            self.comparison.run(&lists, again, seen).is_ok()
        };
        let (tallies, differing) = work::share(self.sample, count, chunk, compare);
        let size = |lists: &Lists| lists.specs.len() + lists.items.len();
        if let Some(lists) = differing.into_iter().map(|number| lists(number).0).min_by_key(size) {
            return self.differs(lists);
        }
        tallies.iter().for_each(|seen| self.seen.add(seen));
        self.passed(what, self.sample.of(count))
    }

    /// Prints a smallest case of a difference and the command that repeats it.
    fn differs(&self, lists: Lists) -> bool {
        let smallest = self.comparison.smallest(lists);
        let difference = self
            .comparison
            .run(&smallest, Again::All, &mut Seen::default())
            .expect_err("a smallest case differs");
        println!("difference: operation {}", smallest.op);
        println!("  specs {}", cut(shown(&smallest.specs)));
        println!("  items {}", cut(shown(&smallest.items)));
        println!("  {}", cut(difference));
        let (op, specs, items) = (smallest.op, to_hex(&smallest.specs), to_hex(&smallest.items));
        self.comparison.fault.repeated_by(&format!("--op {op} --specs-hex '{specs}' --items-hex '{items}'"))
    }
}

/// A list as its records, or as its bytes where it is not well formed.
pub fn shown(list: &[u8]) -> String {
    match records(list) {
        Ok(texts) => texts.iter().map(|text| format!("\"{}\" ", text.escape_ascii())).collect(),
        Err(_) => format!("list of the bytes {}", list.escape_ascii()),
    }
}
