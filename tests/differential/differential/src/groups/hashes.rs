//! Two rows with one hash. The crate takes a row for a repeat where a hash of 64 bits
//! is that of an earlier row, so it loses the second of these two. We list both.

use super::{Entries, as_the_crate_has_it, compare::first_difference, entries::Listing};
use oracle::Row;
use vasigmon::{list, raw::Written};

const SPEC: &[u8] = b"refs/*:refs/*";

/// Found by search. Each is mapped to itself, forward and reverse.
const NAMES: [&[u8]; 2] = [b"refs/aa/cfdfcjgmkdppfbnp", b"refs/aa/fpkdifclhdehbnjm"];

/// Holds both sides to what is known of the two rows.
pub fn run(entries: &Entries) -> bool {
    let both = NAMES.iter().enumerate().map(|(item, name)| row(item, name)).collect::<Vec<_>>();
    let equal = both[0].crate_hash() == both[1].crate_hash();
    let group = oracle::Group::read(0, [SPEC].into_iter()).ok().expect("the crate reads the spec");
    let (specs, items) = (list::of([SPEC]), list::of(NAMES));
    let ours = |call: Listing| rows(|out| call(0, &specs, &items, out));
    for (what, crates, ours) in [
        ("match_lhs", group.match_lhs(&NAMES), ours(entries.match_lhs)),
        ("match_rhs", group.match_rhs(&NAMES), ours(entries.match_rhs)),
    ] {
        if let Err(difference) = held(equal, &both, &crates, &ours) {
            println!("difference: two rows with one hash: {what}: {difference}");
            return false;
        }
    }
    let said = if equal {
        "the crate lists the first alone"
    } else {
        "not so under this compiler, the crate lists both"
    };
    println!("two rows with one hash: {said}, we list both, forward and reverse");
    true
}

fn row(item: usize, name: &[u8]) -> Row {
    Row { item: Some(item), spec: 0, object: false, source: name.to_vec(), destination: Some(name.to_vec()) }
}

/// The rows that a call writes.
fn rows(call: impl Fn(&mut [u8]) -> Written) -> Vec<Row> {
    let mut out = [0; 200];
    let answer = call(&mut out);
    assert_eq!(answer.refusal, 0, "both lists are accepted, and the buffer is long enough");
    list::rows(&out[..answer.length as usize]).map(as_the_crate_has_it).collect()
}

/// Complains unless ours are both rows, and the crate's both, or the first alone where
/// their hashes are equal.
fn held(equal: bool, both: &[Row], crates: &[Row], ours: &[Row]) -> Result<(), String> {
    if ours != both {
        return Err(first_difference("expected", both, ours));
    }
    let expected = if equal { &both[..1] } else { both };
    if crates != expected {
        return Err(format!("hashes are {}equal, the crate has {crates:?}", if equal { "" } else { "not " }));
    }
    Ok(())
}

#[cfg(test)]
mod tests {
    use super::{super::entries::MODEL, *};

    /// A listing without its second row.
    fn first_alone(listing: Listing, specs: &[u8], items: &[u8], out: &mut [u8]) -> Written {
        let answer = listing(0, specs, items, out);
        Written { length: answer.length / 2, ..answer }
    }

    #[test]
    fn a_row_that_we_lose_is_noticed() {
        let forward: Listing = |_, specs, items, out| first_alone(MODEL.match_lhs, specs, items, out);
        let reverse: Listing = |_, specs, items, out| first_alone(MODEL.match_rhs, specs, items, out);
        assert!(run(&MODEL));
        assert!(!run(&Entries { match_lhs: forward, ..MODEL }));
        assert!(!run(&Entries { match_rhs: reverse, ..MODEL }));
    }

    #[test]
    fn the_crate_is_held_to_the_hashes() {
        let both = [row(0, NAMES[0]), row(1, NAMES[1])];
        for (equal, crates, passes) in [
            (true, &both[..1], true),
            (true, &both[1..], false),
            (true, &both[..], false),
            (false, &both[..], true),
            (false, &both[..1], false),
        ] {
            assert_eq!(held(equal, &both, crates, &both).is_ok(), passes);
            assert!(held(equal, &both, crates, &both[..1]).is_err());
        }
    }
}
