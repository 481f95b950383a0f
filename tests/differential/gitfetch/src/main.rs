//! Fetches with Git itself between local repositories, and holds the refs that it
//! writes to our forward listing, validated. Pushes are among the known differences.
//! See ../README.md.

mod agree;
mod differences;
mod git;
mod groups;
mod ours;
mod outcome;
mod seen;

use cases::Random;
use git::Repositories;
use outcome::{Outcome, Text};
use seen::Seen;
use std::{
    collections::BTreeMap,
    io::Read,
    process::ExitCode,
    sync::{
        Mutex,
        atomic::{AtomicUsize, Ordering},
    },
    time::Instant,
};

const USAGE: &str = "usage: gitfetch [--seed N] [--groups N] [--fault git|ours] \
    [--refs 'NAME ..' --specs 'SPEC ..'], or gitfetch differences < differences.txt";

/// The empty spec on a command line.
const EMPTY: &str = "\"\"";

const THREADS: usize = 2;

/// So many groups in turn are on the same refs.
const ON_SAME_REFS: u64 = 4;

/// A wrong answer that is put in on purpose, to show that the comparison sees it: the
/// last ref that is written is not.
#[derive(Clone, Copy, PartialEq, Eq)]
enum Fault {
    None,
    Git,
    Ours,
}

/// Refs and specs.
#[derive(Clone, Debug)]
struct Group {
    names: Vec<Text>,
    specs: Vec<Text>,
}

fn main() -> ExitCode {
    let (mut seed, mut count, mut fault) = (1, 1000, Fault::None);
    let (mut names, mut specs) = (None, None);
    let text = |word: &str| Text::from(if word == EMPTY { "" } else { word });
    let texts = |words: &str| words.split(' ').filter(|word| !word.is_empty()).map(text).collect();
    let mut words = std::env::args().skip(1);
    while let Some(word) = words.next() {
        if word == "differences" {
            return print_differences();
        }
        let value = words.next().unwrap_or_default();
        match (word.as_str(), value.parse().ok()) {
            ("--seed", Some(value)) => seed = value,
            ("--groups", Some(value)) => count = value as usize,
            ("--fault", _) if value == "git" => fault = Fault::Git,
            ("--fault", _) if value == "ours" => fault = Fault::Ours,
            ("--refs", _) => names = Some(texts(&value)),
            ("--specs", _) => specs = Some(texts(&value)),
            _ => {
                eprintln!("{USAGE}");
                return ExitCode::from(2);
            }
        }
    }
    let passed = if names.is_some() || specs.is_some() {
        one(Group { names: names.unwrap_or_default(), specs: specs.unwrap_or_default() }, fault)
    } else {
        run(seed, count, fault)
    };
    if passed { ExitCode::SUCCESS } else { ExitCode::FAILURE }
}

/// Prints the differences that standard input has, made anew.
fn print_differences() -> ExitCode {
    let mut file = String::new();
    std::io::stdin().read_to_string(&mut file).expect("the differences can be read");
    match differences::anew(&file) {
        Ok(lines) => {
            print!("{lines}");
            ExitCode::SUCCESS
        }
        Err(why) => {
            eprintln!("gitfetch: {why}");
            ExitCode::FAILURE
        }
    }
}

/// Compares one group and says what both sides do.
fn one(mut group: Group, fault: Fault) -> bool {
    let mut repositories = Repositories::new();
    group.names.sort_by_key(|name| (name != b"HEAD", name.clone()));
    repositories.set(&group.names);
    let (git, ours) = both(&repositories, &group, fault);
    println!("git:  {git}\nours: {ours}");
    if let Some(reason) = agree::reason(&group.specs, &group.names) {
        println!("such groups are set aside: {reason}");
    }
    git == ours
}

/// Compares so many groups on which Git and we agree.
fn run(seed: u64, count: usize, fault: Fault) -> bool {
    let began = Instant::now();
    let objects = Repositories::new().objects().to_vec();
    let (mut groups, mut aside) = (Vec::new(), BTreeMap::new());
    for number in 0.. {
        if groups.len() == count {
            break;
        }
        let names = groups::refs(&mut Random::new(seed, number / ON_SAME_REFS));
        let specs = groups::specs(&names, &objects, &mut Random::new(seed ^ 0x6765_7473, number));
        match agree::reason(&specs, &names) {
            Some(reason) => *aside.entry(reason).or_insert(0) += 1,
            None => groups.push(Group { names, specs }),
        }
    }

    let (next, differing, all) = (AtomicUsize::new(0), Mutex::new(Vec::new()), Mutex::new(Seen::default()));
    let chunks: Vec<&[Group]> = groups.chunk_by(|one, next| one.names == next.names).collect();
    let work = || {
        let mut repositories = Repositories::new();
        let mut seen = Seen::default();
        while let Some(chunk) = chunks.get(next.fetch_add(1, Ordering::Relaxed)) {
            repositories.set(&chunk[0].names);
            for group in *chunk {
                let (git, ours) = both(&repositories, group, fault);
                seen.group(&group.specs, &group.names, &ours);
                if git != ours {
                    differing.lock().unwrap().push(group.clone());
                }
            }
        }
        all.lock().unwrap().add(&seen);
    };
    std::thread::scope(|scope| (0..THREADS).for_each(|_| drop(scope.spawn(work))));

    let differing = differing.into_inner().unwrap();
    if let Some(group) = differing.iter().min_by_key(|group| group.specs.len() + group.names.len()) {
        return differs(group.clone(), fault);
    }
    let aside: Vec<String> = aside.iter().map(|(reason, count)| format!("{count} for {reason}")).collect();
    println!("set aside: {}", aside.join(", "));
    let everything = all.into_inner().unwrap().everything();
    println!("gitfetch: {count} groups, no difference, {:.1} s", began.elapsed().as_secs_f64());
    everything
}

/// What Git does and what we say, as far as they can be compared.
fn both(repositories: &Repositories, group: &Group, fault: Fault) -> (Outcome, Outcome) {
    let mut git = repositories.fetch(&group.specs);
    let mut ours = ours::fetch(&group.specs, &group.names);
    for (outcome, side) in [(&mut git, Fault::Git), (&mut ours, Fault::Ours)] {
        let Outcome::Done { written, left_out, .. } = outcome else { continue };
        if fault == side {
            written.pop_last();
        }
        // Git tells also of rows that a negative takes away.
        if group.specs.iter().any(|spec| spec.starts_with(b"^")) {
            left_out.clear();
        }
    }
    (git, ours)
}

/// Prints a smallest case of a difference and the command that repeats it.
fn differs(group: Group, fault: Fault) -> bool {
    let mut repositories = Repositories::new();
    let mut differs = |group: &Group| {
        repositories.set(&group.names);
        let (git, ours) = both(&repositories, group, fault);
        let agree = agree::reason(&group.specs, &group.names).is_none();
        (agree && git != ours).then_some((git, ours))
    };
    let mut smallest = group;
    let mut at = 0;
    // Specs first, then refs, one at a time.
    while at < smallest.specs.len() + smallest.names.len() {
        let mut copy = smallest.clone();
        match at.checked_sub(copy.specs.len()) {
            None => drop(copy.specs.remove(at)),
            Some(at) => drop(copy.names.remove(at)),
        }
        if differs(&copy).is_some() {
            smallest = copy;
        } else {
            at += 1;
        }
    }
    let (git, ours) = differs(&smallest).expect("a smallest case differs");
    let words =
        |texts: &[Text]| texts.iter().map(|text| String::from_utf8_lossy(text)).collect::<Vec<_>>().join(" ");
    let (names, specs) = (words(&smallest.names), words(&smallest.specs));
    println!("difference: refs {names}, specs {specs}");
    println!("  git:  {git}\n  ours: {ours}");
    let fault = match fault {
        Fault::None => "",
        Fault::Git => " --fault git",
        Fault::Ours => " --fault ours",
    };
    println!(
        "  again, in tests/differential: cargo run --release -p gitfetch -- --refs '{names}' --specs '{specs}'{fault}",
    );
    false
}
