//! Prints the conflicts of a fetch; or, where there are none, its rows, and the destinations
//! that are left out because they are partial.
//!
//!     cargo run --example validate < examples/validate/conflict.txt

mod lines;

use std::error::Error;
use vasigmon::{
    Spec, Validated,
    list::{self, Conflict, Fix},
};

fn main() -> Result<(), Box<dyn Error>> {
    let (group, items) = lines::read()?;
    let specs: Vec<_> = group.specs().collect();
    match group.validated(&group.match_lhs(&items))? {
        Validated::Conflicts(conflicts) => {
            list::conflicts(&conflicts).for_each(|conflict| print_conflict(&specs, conflict));
        }
        Validated::Passed { rows, fixes } => {
            list::rows(&rows).for_each(|row| println!("{}", lines::arrow(row)));
            list::fixes(&fixes).for_each(|fix| print_fix(&specs, fix));
        }
    }
    Ok(())
}

fn print_conflict(specs: &[Spec], conflict: Conflict) {
    println!("{} has different sources:", lines::text(conflict.destination));
    for of in conflict.sources {
        println!("    {} (by {})", lines::source(of.source), lines::text(specs[of.spec].text()));
    }
}

fn print_fix(specs: &[Spec], fix: Fix) {
    println!("left out: {} (by {})", lines::text(fix.name), lines::text(specs[fix.spec].text()));
}
