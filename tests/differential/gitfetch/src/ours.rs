//! What we say of a fetch: the forward listing, validated. And of a push: the forward
//! listing, and of what is pruned the reverse one.

use crate::outcome::{Outcome, Text};
use std::collections::{BTreeMap, HashSet};
use vasigmon::{
    Group, Items, Operation, Validated,
    list::{self, Row},
};

/// What comes of these specs on these refs.
pub fn fetch(specs: &[Text], names: &[Text]) -> Outcome {
    let group = match read(Operation::Fetch, specs) {
        Ok(group) => group,
        Err(refused) => return refused,
    };
    let listing = group.match_lhs(&Items::new(names).expect("names are accepted"));
    let (out, fixes) = match group.validated(&listing).expect("a listing is accepted") {
        Validated::Passed { rows, fixes } => (rows, fixes),
        Validated::Conflicts(conflicts) => return first_conflict(&listing, &conflicts),
    };
    let (mut fetched, mut written) = (Vec::new(), BTreeMap::new());
    let mut met = HashSet::new();
    for row in in_git_order(&out) {
        let source = row.source.text().to_vec();
        // Git too writes a ref once where rows repeat others.
        if row.destination.is_none_or(|destination| met.insert(destination)) {
            fetched.push(source.clone());
        }
        if let Some(destination) = row.destination {
            written.insert(destination.to_vec(), source);
        }
    }
    let left_out = list::fixes(&fixes).map(|fix| fix.name.to_vec()).collect();
    Outcome::Done { fetched, written, left_out }
}

/// What comes of a push of these refs by these specs, to a remote that has the refs
/// `there`. With `prune`, a row of the remote's refs whose source is absent is a deletion.
pub fn push(specs: &[Text], names: &[Text], there: &[Text], prune: bool) -> Outcome {
    let group = match read(Operation::Push, specs) {
        Ok(group) => group,
        Err(refused) => return refused,
    };
    let items = |names| Items::new(names).expect("names are accepted");
    let forward = group.match_lhs(&items(names));
    let pushed = list::rows(&forward)
        .map(|row| (row.source.text().to_vec(), row.destination.map(<[u8]>::to_vec)))
        .collect();
    let reverse = if prune { group.match_rhs(&items(there)) } else { Vec::new() };
    let absent = |row: &Row| names.iter().all(|name| name != row.source.text());
    let deleted =
        list::rows(&reverse).filter(absent).filter_map(|row| row.destination).map(Text::from).collect();
    Outcome::Pushed { pushed, deleted }
}

/// The group of these specs, or what comes of a spec that is refused.
fn read(operation: Operation, specs: &[Text]) -> Result<Group, Outcome> {
    Group::new(operation, specs).map_err(|why| {
        let record = why.record.map_or(String::new(), |record| format!("spec {record} "));
        Outcome::Refused(format!("refuse {record}with {}", why.refusal.number()))
    })
}

/// The rows of a listing in the order of their specs, those of object ids too.
fn in_git_order(listing: &[u8]) -> Vec<Row<'_>> {
    let mut rows: Vec<Row> = list::rows(listing).collect();
    rows.sort_by_key(|row| row.spec);
    rows
}

/// Of all conflicts, which come in byte order, the one that Git meets first: that whose
/// second source is seen first.
fn first_conflict(listing: &[u8], conflicts: &[u8]) -> Outcome {
    let rows = in_git_order(listing);
    let seen = |conflict: &list::Conflict| {
        let second = conflict.sources[1].source;
        rows.iter().position(|row| row.destination == Some(conflict.destination) && row.source == second)
    };
    let conflict = list::conflicts(conflicts).min_by_key(seen).expect("there is one");
    let [one, other] = [0, 1].map(|n| conflict.sources[n].source.text().to_vec());
    Outcome::Conflict { sources: [one, other], destination: conflict.destination.to_vec() }
}
