//! Puts the same inputs to the stand-ins of tests/differential and to the real crates, and
//! compares what the answers of gix-refspec are made of. See ../../README.md.

mod bytes;
mod ids;
mod names;
mod sides;

use std::{fmt::Debug, process::ExitCode};

const USAGE: &str = "usage: standins [--seed N] [--count N] [--fault names|ids|bytes|vectors]";

/// The parts, in each of which `--fault` can put a wrong answer of the stand-in.
const PARTS: [&str; 4] = ["names", "ids", "bytes", "vectors"];

/// What has been compared.
pub struct Comparison {
    pub fault: Option<&'static str>,
    compared: u64,
    differing: u64,
    /// Of how many texts the real crate takes them for what they are to be: names, or ids.
    taken: u64,
}

impl Comparison {
    /// Compares two answers about a case, and prints the first that differ.
    fn count<T: Debug + PartialEq>(&mut self, case: impl Fn() -> String, standin: &T, real: &T) {
        self.compared += 1;
        if standin != real {
            self.differing += 1;
            if self.differing == 1 {
                println!("difference: {}\n  stand-in {standin:?}\n  real     {real:?}", case());
            }
        }
    }

    /// Compares what a text is taken for, if for anything.
    fn count_taken<T: Debug + PartialEq>(&mut self, text: &[u8], standin: Option<T>, real: Option<T>) {
        self.taken += u64::from(real.is_some());
        self.count(|| text.escape_ascii().to_string(), &standin, &real);
    }
}

fn options() -> Option<(u64, u64, Option<&'static str>)> {
    let (mut seed, mut count, mut fault) = (1, 2_000_000, None);
    let mut words = std::env::args().skip(1);
    while let Some(word) = words.next() {
        let value = words.next()?;
        match word.as_str() {
            "--seed" => seed = value.parse().ok()?,
            "--count" => count = value.parse().ok()?,
            "--fault" => fault = Some(PARTS.into_iter().find(|part| *part == value)?),
            _ => return None,
        }
    }
    Some((seed, count, fault))
}

fn main() -> ExitCode {
    let Some((seed, count, fault)) = options() else {
        eprintln!("{USAGE}");
        return ExitCode::from(2);
    };
    let mut comparison = Comparison { fault, compared: 0, differing: 0, taken: 0 };
    for part in PARTS {
        let (before, taken) = (comparison.compared, comparison.taken);
        match part {
            "names" => names::compare(&mut comparison, seed, count),
            "ids" => ids::compare(&mut comparison, seed, count / 4),
            "bytes" => bytes::compare(&mut comparison, seed, count / 20),
            _ => bytes::compare_vectors(&mut comparison, seed, count / 20),
        }
        let (compared, taken) = (comparison.compared - before, comparison.taken - taken);
        match part {
            "names" => println!("names: {compared} comparisons, {taken} are well formed"),
            "ids" => println!("ids: {compared} comparisons, {taken} are object ids"),
            _ => println!("{part}: {compared} comparisons"),
        }
        if comparison.differing > 0 {
            println!("standins: {} differences from the real crates", comparison.differing);
            return ExitCode::FAILURE;
        }
    }
    println!("standins: {} comparisons with the real crates, no difference", comparison.compared);
    ExitCode::SUCCESS
}
