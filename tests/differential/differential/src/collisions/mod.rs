//! Comparisons on two specs: whether they can ever collide.

mod apart;
mod compare;
mod entry;
mod family;
mod pairs;
mod seen;

pub use cases::Group;
pub use compare::Comparison;
#[cfg(test)]
pub use entry::MODEL;
pub use entry::{ENTRY, Entry};
pub use seen::Seen;

use crate::{
    buffers::Again,
    cut, groups,
    hex::to_hex,
    said,
    work::{self, Run, Sample},
};
use cases::Random;
use family::{Family, PLANS, Plan};
use paper::RefusedSpec;
use vasigmon::{list, raw::Collision};

/// How many cases a thread takes at a time.
const CHUNK: u64 = 256;

/// Of so many comparisons, one is with all buffers.
const THOROUGH: u64 = 200;

/// A group has at most so many specs, and so many items.
const MOST: usize = 8;

/// The specs that the report is on.
#[derive(Clone, Debug)]
pub struct Pair {
    pub first: Vec<u8>,
    pub second: Vec<u8>,
}

impl Pair {
    /// How many bytes are lent.
    pub fn size(&self) -> usize {
        self.first.len() + self.second.len()
    }
}

/// Compares all pairs of each family with all names, `count` grown pairs, each question, long
/// texts, and a quarter as many groups with their listings.
pub fn run(comparison: Comparison, sample: Sample, count: u64) -> bool {
    let (questions, long) = (pairs::questions(), pairs::long());
    let grown = |n| {
        let [first, second] = cases::pair(&mut Random::new(sample.seed, n));
        (Pair { first, second }, again(n))
    };
    let mut run = Run::<Comparison, Seen>::new(comparison, sample);
    let passed = PLANS.iter().all(|plan| run.family(plan))
        && run.pairs("grown pairs", count, grown)
        && run
            .pairs("each question", questions.len() as u64, |n| (questions[n as usize].clone(), Again::All))
        && run.pairs("long texts", long.len() as u64, |n| (long[n as usize].clone(), again(n)))
        && run.groups(count / 4)
        && (run.seen.everything() || sample.is_part());
    if passed {
        println!("differential: {} comparisons of collisions, no difference", run.seen.total());
    }
    passed
}

/// Compares one pair.
pub fn one(comparison: &Comparison, pair: &Pair) -> bool {
    said(comparison.run(pair, Again::All, &mut Seen::default()))
}

/// Holds the report to the listing of one group.
pub fn one_group(comparison: &Comparison, specs: &[u8], items: &[u8]) -> bool {
    let texts = |list| list::records(list).map(<[u8]>::to_vec).collect();
    let group = Group { specs: texts(specs), items: texts(items) };
    said(comparison.group(&group, &mut Seen::default()))
}

fn again(number: u64) -> Again {
    if number % THOROUGH == 0 { Again::All } else { Again::One(number) }
}

/// A refusal as the entry answers it.
fn refusal(why: RefusedSpec) -> Collision {
    Collision { refusal: why.number, which: why.which, ..Default::default() }
}

impl Run<Comparison, Seen> {
    /// Compares all pairs of a family, with all names tried.
    fn family(&mut self, plan: &Plan) -> bool {
        let family = Family::of(plan, self.comparison.fault);
        let compare = |n, seen: &mut Seen| self.in_family(&family, n, seen);
        let shared = work::share(self.sample, family.pairs(), CHUNK, |n, seen| compare(n, seen).is_ok());
        let (tallies, differing) = shared;
        if let Some(number) = differing.first() {
            let difference = compare(*number, &mut Seen::default()).expect_err("it differs");
            return self.differs(family.pair(*number), difference);
        }
        tallies.iter().for_each(|seen| self.seen.add_brute_force(seen));
        self.passed(
            &format!("all pairs of {} specs over {}", family.specs(), plan.what),
            self.sample.of(family.pairs()),
        )
    }

    fn in_family(&self, family: &Family, number: u64, seen: &mut Seen) -> Result<(), String> {
        let the_crate = |told: Option<&[u8]>| family.agrees(number, told);
        self.comparison.run_with(&family.pair(number), &the_crate, again(number), seen)
    }

    /// Compares `count` pairs.
    fn pairs(&mut self, what: &str, count: u64, pair: impl Fn(u64) -> (Pair, Again) + Sync) -> bool {
        let compare = |number, seen: &mut Seen| {
            let (pair, again) = pair(number);
            self.comparison.run(&pair, again, seen)
        };
        let (tallies, differing) =
            work::share(self.sample, count, CHUNK, |number, seen| compare(number, seen).is_ok());
        if let Some(number) = differing.into_iter().min_by_key(|number| pair(*number).0.size()) {
            let difference = compare(number, &mut Seen::default()).expect_err("it differs");
            return self.differs(pair(number).0, difference);
        }
        tallies.iter().for_each(|seen| self.seen.add(seen));
        self.passed(what, self.sample.of(count))
    }

    /// Holds the report to the listings of `count` groups.
    fn groups(&mut self, count: u64) -> bool {
        let group = |number| {
            let mut group = cases::group(0, MOST, MOST, &mut Random::new(self.sample.seed, number));
            group.specs.retain(|spec| paper::read_spec(0, spec).is_ok());
            group
        };
        let compare = |number, seen: &mut Seen| self.comparison.group(&group(number), seen).is_ok();
        let (tallies, differing) = work::share(self.sample, count, CHUNK, compare);
        if let Some(number) = differing.first() {
            return self.differs_on(group(*number));
        }
        tallies.iter().for_each(|seen| self.seen.add(seen));
        self.passed("groups", self.sample.of(count))
    }

    /// Prints a smallest pair that shows a difference and the command that repeats it; or,
    /// where only all names show it, the pair that was found.
    fn differs(&self, mut pair: Pair, mut difference: String) -> bool {
        let alone = |pair: &Pair| self.comparison.run(pair, Again::All, &mut Seen::default()).err();
        let mut again = String::from("--part collisions");
        if alone(&pair).is_some() {
            pair = self.comparison.smallest(pair);
            difference = alone(&pair).expect("a smallest pair differs");
            again = format!("--first-hex '{}' --second-hex '{}'", to_hex(&pair.first), to_hex(&pair.second));
        }
        println!("difference: collisions");
        println!("  specs {}", cut(groups::shown(&list::of([&pair.first, &pair.second]))));
        println!("  {}", cut(difference));
        self.comparison.fault.repeated_by(&again)
    }

    /// Prints a smallest group on which the report is wrong.
    fn differs_on(&self, group: Group) -> bool {
        let group = self.comparison.smallest_group(group);
        let difference =
            self.comparison.group(&group, &mut Seen::default()).expect_err("a smallest group is wrong");
        let [specs, items] = [&group.specs, &group.items].map(list::of);
        println!("difference: collisions, in a group");
        println!("  specs {}, items {}", cut(groups::shown(&specs)), cut(groups::shown(&items)));
        println!("  {}", cut(difference));
        let (specs, items) = (to_hex(&specs), to_hex(&items));
        self.comparison
            .fault
            .repeated_by(&format!("--part collisions --specs-hex '{specs}' --items-hex '{items}'"))
    }
}
