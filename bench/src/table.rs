//! The tables in print.

use crate::{
    results::{Measured, shown},
    workload::Work,
};

/// Prints the times of the last workload, below a heading if it is the first of its work.
pub fn print_last(measured: &[Measured]) {
    let (last, before) = measured.split_last().expect("something was measured");
    let work = last.case.work;
    if before.last().is_none_or(|one| one.case.work != work) {
        print_heading(work);
    }
    let [archive, gix] = last.times.map(|time| time.as_secs_f64() * 1e6);
    let (ratio, bar) = (last.ratio(), shown(work.bar()));
    let met = match last.met() {
        None => "",
        Some(true) => "met",
        Some(false) => "NOT MET",
    };
    println!("{} {archive:>12.1} {gix:>12.1} {ratio:>7} {bar:>4}  {met}", label(last));
}

fn print_heading(work: Work) {
    println!("\n{}", work.title());
    println!("  archive: {}", work.of_the_archive());
    println!("  crate: {}", work.of_the_crate());
    println!("{:<36} {:>12} {:>12} {:>7} {:>4}", "", "archive µs", "crate µs", "ratio", "bar");
}

/// Says how many bars are met.
pub fn print_bars(measured: &[Measured]) {
    let answers: Vec<bool> = measured.iter().filter_map(Measured::met).collect();
    let met = answers.iter().filter(|met| **met).count();
    println!("\n{met} of {} bars are met", answers.len());
}

pub fn print_counts(measured: &[Measured]) {
    println!("\ninstructions of one call");
    println!("{:<46} {:>13} {:>13} {:>7}", "", "archive", "crate", "ratio");
    for one in measured {
        print!("{:<10}{}", one.case.work.name(), label(one));
        match one.counts.zip(one.ratio_of_counts()) {
            Some(([archive, gix], ratio)) => println!(" {archive:>13} {gix:>13} {ratio:>7}"),
            None => println!(" not counted, since a call takes long"),
        }
    }
}

fn label(one: &Measured) -> String {
    format!("  {:<20} {:<13}", one.case.size, one.case.variant)
}
