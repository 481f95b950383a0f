//! Prints what the real gix-hash takes for an object id, and what gix-refspec over it makes
//! of specs with as many digits. `D64` stands for sixty-four digits of either case, and
//! `d64` for the same in lower case.

use bstr::BStr;
use gix_hash::{Kind, ObjectId};
use gix_refspec::{
    MatchGroup, RefSpecRef,
    match_group::{Item, Mapping, SourceRef},
    parse::Operation,
};

const LENGTHS: [usize; 6] = [39, 40, 41, 63, 64, 65];

/// Where the digits stand in a spec: at `D`.
const SPECS: [(Operation, &str); 7] = [
    (Operation::Fetch, "D"),
    (Operation::Fetch, "D:refs/x"),
    (Operation::Fetch, "refs/a:D"),
    (Operation::Fetch, "^D"),
    (Operation::Push, "D:refs/x"),
    (Operation::Push, "refs/a:D"),
    (Operation::Push, "^D"),
];

fn main() {
    let kinds: Vec<String> =
        Kind::all().iter().map(|kind| format!("{kind} of {} digits", kind.len_in_hex())).collect();
    println!("kinds: {}; the shortest: {}", kinds.join(", "), Kind::shortest());
    LENGTHS.iter().for_each(|length| println!("from_hex D{length}: {}", taken(*length)));
    for (operation, shape) in SPECS {
        LENGTHS.iter().for_each(|length| println!("{}", about(operation, shape, *length)));
    }
}

/// What that many digits are taken for. With another byte among them they are nothing.
fn taken(length: usize) -> String {
    let digits = digits(length);
    assert!(ObjectId::from_hex(digits.replacen('0', "g", 1).as_bytes()).is_err());
    match ObjectId::from_hex(digits.as_bytes()) {
        Ok(id) => format!("{} {}", id.kind(), brief(&id.to_string(), length)),
        Err(_) => "none".to_string(),
    }
}

/// That many digits, of both cases.
fn digits(length: usize) -> String {
    "0123456789abcdefABCDEF".chars().cycle().take(length).collect()
}

/// A text with names for its digits.
fn brief(text: &str, length: usize) -> String {
    let digits = digits(length);
    text.replace(&digits, &format!("D{length}")).replace(&digits.to_lowercase(), &format!("d{length}"))
}

/// A line about one spec: its refusal, or the prefixes and the forward rows that it gives.
fn about(operation: Operation, shape: &str, length: usize) -> String {
    let text = shape.replace('D', &digits(length));
    let answer = match gix_refspec::parse(BStr::new(text.as_bytes()), operation) {
        Err(error) => format!("refused: {error}"),
        Ok(spec) => {
            let mut prefixes = Vec::new();
            spec.expand_prefixes(&mut prefixes);
            let rows = rows(operation, spec, &[&digits(length), "refs/a"]);
            let rows = if rows.is_empty() { "none".to_string() } else { brief(&rows.join(", "), length) };
            format!("prefixes: {}; rows: {rows}", prefixes.len())
        }
    };
    let operation = if operation == Operation::Fetch { "fetch" } else { "push" };
    format!("{operation} {}: {answer}", brief(&text, length))
}

/// The forward listing of one spec on some names.
fn rows(operation: Operation, spec: RefSpecRef, names: &[&str]) -> Vec<String> {
    let group = match operation {
        Operation::Fetch => MatchGroup::from_fetch_specs([spec]),
        Operation::Push => MatchGroup::from_push_specs([spec]),
    };
    let target = Kind::shortest().null();
    let items = names.iter().map(|name| Item {
        full_ref_name: BStr::new(name.as_bytes()),
        target: &target,
        object: None,
    });
    group.match_lhs(items).mappings.iter().map(row).collect()
}

fn row(mapping: &Mapping) -> String {
    let source = match &mapping.lhs {
        SourceRef::FullName(name) => format!("name {name}"),
        SourceRef::ObjectId(id) => format!("object {id}"),
    };
    match &mapping.rhs {
        Some(destination) => format!("{source} to {destination}"),
        None => source,
    }
}
