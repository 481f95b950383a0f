//! Prints what specs fetch and where it goes, a row to a line.
//!
//!     cargo run --example listing < examples/listing/branches.txt

mod lines;

use std::error::Error;
use vasigmon::list;

fn main() -> Result<(), Box<dyn Error>> {
    let (group, items) = lines::read()?;
    let specs: Vec<_> = group.specs().collect();
    let listing = group.match_lhs(&items);
    for row in list::rows(&listing) {
        println!("{} (by {})", lines::arrow(row), lines::text(specs[row.spec].text()));
    }
    Ok(())
}
