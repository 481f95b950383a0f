//! How the time of a forward listing grows with specs and items.

use crate::{listing, timing, workload::Work};

const SPECS: [usize; 3] = [16, 64, 256];

const ITEMS: [usize; 3] = [64, 256, 1024];

/// Prints a line for each size. Where time grows as specs times items, the time for a pair of
/// a spec and an item does not grow.
pub fn print() {
    println!("growth of a forward listing: specs x items, half of these mapped");
    let columns = ["archive µs", "crate µs", "archive ns/pair", "crate ns/pair"];
    println!("{:<14} {:>12} {:>12} {:>16} {:>14}", "", columns[0], columns[1], columns[2], columns[3]);
    for specs in SPECS {
        for items in ITEMS {
            print_line(specs, items);
        }
    }
}

fn print_line(specs: usize, items: usize) {
    let mut workload = listing::workload(Work::Forward, specs, items, ("half", 2), true);
    (workload.compare)();
    let [archive, gix] = timing::medians(&mut workload).map(|time| time.as_secs_f64());
    let size = format!("{specs} x {items}");
    let pairs = (specs * items) as f64;
    let [of_pair, of_pair_gix] = [archive, gix].map(|time| time * 1e9 / pairs);
    println!("  {size:<12} {:>12.1} {:>12.1} {of_pair:>16.1} {of_pair_gix:>14.1}", archive * 1e6, gix * 1e6);
}
