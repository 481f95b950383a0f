//! Runs gix-refspec and the archive on the same specs, on the same groups of specs and
//! items, on the same rows and on the same pairs of specs, and compares all they answer: of
//! pairs whether they collide, and whether their keys tell them apart. See ../README.md.

mod buffers;
mod collisions;
mod damage;
mod groups;
mod hex;
mod keys;
mod smaller;
mod specs;
mod validation;
mod work;

use cases::Random;
use collisions::Pair;
use groups::Lists;
use hex::from_hex;
use std::process::ExitCode;
use validation::{Case, Second};
use work::Sample;

const USAGE: &str = "usage: differential [--seed N] [--one-in N] [--part specs|groups|validation|collisions|keys] \
    [--count N] [--groups N] [--listings N] [--pairs N] [--keys N] [--fault oracle|ours|paper] \
    [--op N --spec-hex HEX | --op N --specs-hex HEX --items-hex HEX | --op N --specs-hex HEX --rows-hex HEX | \
    --first-hex HEX --second-hex HEX | --part keys --op N --first-hex HEX --second-hex HEX]";

/// A wrong answer that is put in on purpose, to show that the comparison sees it.
#[derive(Clone, Copy, PartialEq, Eq)]
pub enum Fault {
    None,
    /// The crate's side: the force of each fetch that updates is flipped, each reverse
    /// listing loses its last row, the sources of each conflict are reversed, of the
    /// destinations of a spec, or of two, the last is lost, and where keys are compared
    /// two instructions that differ in force alone are equal.
    Oracle,
    /// Our side: each list of prefixes of one spec loses its last one, each forward
    /// listing its last row, each list of fixes and each destination of two specs its
    /// last byte, and the key of each one-sided push its destination.
    Ours,
    /// The paper's side: each refusal of a list names the next record, each refusal of
    /// one of two specs the other, and the key of each delete keeps its plus.
    Paper,
}

impl Fault {
    /// The words that put it in.
    fn words(self) -> &'static str {
        match self {
            Fault::None => "",
            Fault::Oracle => " --fault oracle",
            Fault::Ours => " --fault ours",
            Fault::Paper => " --fault paper",
        }
    }

    /// Prints the command that repeats a difference, which these words ask for. False, as the
    /// run that found it.
    fn repeated_by(self, words: &str) -> bool {
        let fault = self.words();
        println!("  again, in tests/differential: cargo run --release -p differential -- {words}{fault}");
        false
    }
}

/// Says whether there is a difference, and which.
fn said(answer: Result<(), String>) -> bool {
    match &answer {
        Ok(()) => println!("no difference"),
        Err(difference) => println!("{difference}"),
    }
    answer.is_ok()
}

/// What the command line asks for.
struct Options {
    sample: Sample,
    /// The one part that is compared, if not all are.
    part: Option<Part>,
    count: u64,
    groups: u64,
    listings: u64,
    pairs: u64,
    keys: u64,
    fault: Fault,
    op: u64,
    spec: Option<Vec<u8>>,
    pair: [Option<Vec<u8>>; 2],
    specs: Option<Vec<u8>>,
    items: Option<Vec<u8>>,
    rows: Option<Vec<u8>>,
}

/// What is compared: single specs, groups, rows, pairs of specs, their keys.
#[derive(Clone, Copy, PartialEq, Eq)]
enum Part {
    Specs,
    Groups,
    Validation,
    Collisions,
    Keys,
}

fn options() -> Option<Options> {
    let mut options = Options {
        sample: Sample { seed: 1, one_in: 1 },
        part: None,
        count: 1_000_000,
        groups: 500_000,
        listings: 120_000,
        pairs: 200_000,
        keys: 500_000,
        fault: Fault::None,
        op: 0,
        spec: None,
        pair: [None, None],
        specs: None,
        items: None,
        rows: None,
    };
    let mut words = std::env::args().skip(1);
    while let Some(word) = words.next() {
        let value = words.next()?;
        match word.as_str() {
            "--seed" => options.sample.seed = value.parse().ok()?,
            "--one-in" => options.sample.one_in = value.parse().ok().filter(|one_in| *one_in > 0)?,
            "--part" if value == "specs" => options.part = Some(Part::Specs),
            "--part" if value == "groups" => options.part = Some(Part::Groups),
            "--part" if value == "validation" => options.part = Some(Part::Validation),
            "--part" if value == "collisions" => options.part = Some(Part::Collisions),
            "--part" if value == "keys" => options.part = Some(Part::Keys),
            "--count" => options.count = value.parse().ok()?,
            "--groups" => options.groups = value.parse().ok()?,
            "--listings" => options.listings = value.parse().ok()?,
            "--pairs" => options.pairs = value.parse().ok()?,
            "--keys" => options.keys = value.parse().ok()?,
            "--op" => options.op = value.parse().ok()?,
            "--spec-hex" => options.spec = Some(from_hex(&value)?),
            "--first-hex" => options.pair[0] = Some(from_hex(&value)?),
            "--second-hex" => options.pair[1] = Some(from_hex(&value)?),
            "--specs-hex" => options.specs = Some(from_hex(&value)?),
            "--items-hex" => options.items = Some(from_hex(&value)?),
            "--rows-hex" => options.rows = Some(from_hex(&value)?),
            "--fault" if value == "oracle" => options.fault = Fault::Oracle,
            "--fault" if value == "ours" => options.fault = Fault::Ours,
            "--fault" if value == "paper" => options.fault = Fault::Paper,
            _ => return None,
        }
    }
    Some(options)
}

fn main() -> ExitCode {
    let Some(options) = options() else {
        eprintln!("{USAGE}");
        return ExitCode::from(2);
    };
    let mut random = Random::new(options.sample.seed, u64::MAX);
    let noise: Vec<u8> = (0..8 * cases::SPEC_LIMIT).map(|_| random.next() as u8).collect();
    let specs = specs::Comparison { fault: options.fault, noise: noise.clone() };
    let groups = groups::Comparison { entries: groups::ENTRIES, fault: options.fault, noise: noise.clone() };
    let validation =
        validation::Comparison { entry: validation::ENTRY, fault: options.fault, noise: noise.clone() };
    let collisions =
        collisions::Comparison { entry: collisions::ENTRY, fault: options.fault, noise: noise.clone() };
    let keys = keys::Comparison { entries: keys::ENTRIES, fault: options.fault, noise };

    let (op, part) = (options.op, options.part);
    let passed = if let Some(spec) = options.spec {
        specs::one(&specs, op, &spec)
    } else if let [Some(first), Some(second)] = options.pair {
        match part {
            Some(Part::Keys) => keys::one(&keys, &keys::Pair { op, first, second }),
            _ => collisions::one(&collisions, &Pair { first, second }),
        }
    } else if let (Some(rows), specs) = (options.rows, options.specs.clone().unwrap_or_default()) {
        validation::one(&validation, &Case { op, specs, second: Second::Rows(rows) })
    } else if options.specs.is_some() || options.items.is_some() {
        let (specs, items) = (options.specs.unwrap_or_default(), options.items.unwrap_or_default());
        match part {
            Some(Part::Validation) => {
                validation::one(&validation, &Case { op, specs, second: Second::Items(items) })
            }
            Some(Part::Collisions) => collisions::one_group(&collisions, &specs, &items),
            _ => groups::one(&groups, &Lists { op, specs, items }),
        }
    } else {
        let compares = |one| part.is_none_or(|part| part == one);
        (!compares(Part::Specs) || specs::run(specs, options.sample, options.count))
            && (!compares(Part::Groups) || groups::run(groups, options.sample, options.groups))
            && (!compares(Part::Validation) || validation::run(validation, options.sample, options.listings))
            && (!compares(Part::Collisions) || collisions::run(collisions, options.sample, options.pairs))
            && (!compares(Part::Keys) || keys::run(keys, options.sample, options.keys))
    };
    if passed { ExitCode::SUCCESS } else { ExitCode::FAILURE }
}

/// The beginning of a text that may be very long.
fn cut(text: impl std::fmt::Display) -> String {
    let text = text.to_string();
    match text.char_indices().nth(400) {
        Some((end, _)) => format!("{}..", &text[..end]),
        None => text,
    }
}
