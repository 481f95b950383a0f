//! The archive beside the crate gix-refspec: how long both take for the same work, and
//! how many instructions.
//!
//!     bench/run [--counts] [WORD...]
//!
//! from the repository's top builds this and runs it. README.md says what is compared.

mod collision;
mod counting;
mod group;
mod growth;
mod listing;
mod plot;
mod reading;
mod results;
mod svg;
mod table;
mod texts;
mod timing;
mod validation;
mod workload;

use results::Measured;
use std::{env, io, process::ExitCode};
use workload::{Case, Workload};

/// What the command line asks for.
#[derive(Default)]
struct Arguments {
    /// Whether to count instructions too.
    counts: bool,
    /// Call both sides of these workloads for callgrind to count, and do nothing else.
    counted: Option<Vec<usize>>,
    /// What the names of the workloads must contain.
    words: Vec<String>,
}

impl Arguments {
    fn read() -> io::Result<Arguments> {
        let mut arguments = Arguments::default();
        let mut rest = env::args().skip(1);
        while let Some(argument) = rest.next() {
            match argument.as_str() {
                "--counts" => arguments.counts = true,
                counting::COUNTED => arguments.counted = rest.next().map(|list| counting::numbers(&list)),
                option if option.starts_with("--") => {
                    return Err(io::Error::other(format!("no option is called {option}")));
                }
                _ => arguments.words.push(argument),
            }
        }
        Ok(arguments)
    }

    fn choose(&self, case: &Case) -> bool {
        let name = case.to_string();
        self.words.iter().all(|word| name.contains(word))
    }
}

fn main() -> ExitCode {
    match run() {
        Ok(()) => ExitCode::SUCCESS,
        Err(error) => {
            eprintln!("bench: {error}");
            ExitCode::FAILURE
        }
    }
}

fn run() -> io::Result<()> {
    let arguments = Arguments::read()?;
    let mut workloads: Vec<Workload> = reading::workloads();
    workloads.extend(collision::workloads());
    workloads.extend(listing::workloads());
    workloads.extend(validation::workloads());
    if let Some(numbers) = &arguments.counted {
        counting::call_counted(&mut workloads, numbers);
        return Ok(());
    }
    if arguments.words.is_empty() {
        growth::print();
    }
    let mut measured = Vec::new();
    for (number, workload) in workloads.iter_mut().enumerate() {
        if arguments.choose(&workload.case) {
            measured.push(time(number, workload));
            table::print_last(&measured);
        }
    }
    if measured.is_empty() {
        return Err(io::Error::other("no workload's name has these words"));
    }
    table::print_bars(&measured);
    if arguments.counts && counting::count(&mut measured)? {
        table::print_counts(&measured);
    }
    if arguments.words.is_empty() {
        results::write(&measured)?;
    }
    Ok(())
}

/// Compares the answers of both sides, and then their times.
fn time(number: usize, workload: &mut Workload) -> Measured {
    (workload.compare)();
    let times = timing::medians(workload);
    Measured { number, case: workload.case.clone(), times, counts: None }
}
