//! The report against forward listings: where two specs do not collide, none has rows of
//! both on one destination, and validation finds no conflict between them.

use super::{Comparison, Group, Seen};
use crate::smaller::fewest;
use std::collections::{BTreeMap, BTreeSet};
use vasigmon::{Items, Operation, Validated, list};

impl Comparison {
    /// What is wrong with the report on the specs of a group, if anything is.
    pub fn group(&self, group: &Group, seen: &mut Seen) -> Result<(), String> {
        let (Some(listed), Some(apart)) =
            (listed(&group.specs, &group.items), listed(&self.apart(group), &group.items))
        else {
            return Ok(());
        };
        let mut met = 0;
        for (destination, specs) in &listed.destinations {
            for (first, second) in pairs(specs) {
                met += 1;
                if !self.collide(&group.specs[first], &group.specs[second]) {
                    let both = format!("specs {first} and {second}");
                    return Err(format!(
                        "{both} both have a row on {} and do not collide",
                        destination.escape_ascii()
                    ));
                }
            }
        }
        if apart.conflict {
            return Err("validation finds a conflict between specs that do not collide".to_owned());
        }
        let with_rows: BTreeSet<_> = listed.destinations.values().flatten().collect();
        seen.group(with_rows.len() > 1, met, listed.conflict);
        Ok(())
    }

    /// The specs of a group but for those that collide with an earlier one that is kept.
    fn apart(&self, group: &Group) -> Vec<Vec<u8>> {
        let mut kept: Vec<Vec<u8>> = Vec::new();
        for spec in &group.specs {
            if !kept.iter().any(|other| self.collide(other, spec)) {
                kept.push(spec.clone());
            }
        }
        kept
    }

    /// A smallest group on which the report is wrong: specs and items are left out.
    pub fn smallest_group(&self, group: Group) -> Group {
        let wrong = |group: &Group| self.group(group, &mut Seen::default()).is_err();
        let items = group.items;
        let specs =
            fewest(group.specs, |specs| wrong(&Group { specs: specs.to_vec(), items: items.clone() }));
        let items = fewest(items, |items| wrong(&Group { specs: specs.clone(), items: items.to_vec() }));
        Group { specs, items }
    }
}

/// What is listed of a group.
struct Listed {
    /// The specs that have rows on each destination.
    destinations: BTreeMap<Vec<u8>, BTreeSet<usize>>,
    /// Whether validation, by the archive or by the crate, finds a conflict between two specs.
    conflict: bool,
}

/// The listing of these specs, and its validation; or nothing where a list is refused.
fn listed(specs: &[Vec<u8>], items: &[Vec<u8>]) -> Option<Listed> {
    let group = vasigmon::Group::new(Operation::Fetch, specs).ok()?;
    let listing = group.match_lhs(&Items::new(items).ok()?);
    let mut destinations: BTreeMap<Vec<u8>, BTreeSet<usize>> = BTreeMap::new();
    for row in list::rows(&listing) {
        if let Some(destination) = row.destination {
            destinations.entry(destination.to_vec()).or_default().insert(row.spec);
        }
    }
    let ours = match group.validated(&listing).expect("rows of its own") {
        Validated::Passed { .. } => false,
        Validated::Conflicts(found) => list::conflicts(&found)
            .any(|conflict| conflict.sources.iter().any(|source| source.spec != conflict.sources[0].spec)),
    };
    Some(Listed { destinations, conflict: ours || conflict_by_the_crate(specs, items) })
}

/// Whether the crate's own listing has a conflict between specs of different texts.
fn conflict_by_the_crate(specs: &[Vec<u8>], items: &[Vec<u8>]) -> bool {
    let group =
        oracle::Group::read(0, specs.iter().map(Vec::as_slice)).ok().expect("the archive accepts them");
    let names: Vec<&[u8]> = items.iter().map(Vec::as_slice).collect();
    match group.match_lhs_validated(&names).1 {
        oracle::Verdict::Passed { .. } => false,
        oracle::Verdict::Conflicts(found) => found
            .iter()
            .any(|conflict| conflict.sources.iter().any(|source| source.spec != conflict.sources[0].spec)),
    }
}

/// All pairs of two that differ.
fn pairs(numbers: &BTreeSet<usize>) -> impl Iterator<Item = (usize, usize)> + '_ {
    numbers.iter().flat_map(|one| numbers.range(one + 1..).map(|other| (*one, *other)))
}

#[cfg(test)]
mod tests {
    use super::*;
    use crate::{
        Fault,
        collisions::{Entry, MODEL},
    };
    use vasigmon::raw::Collision;

    fn group(specs: &[&str], items: &[&str]) -> Group {
        let texts = |texts: &[&str]| texts.iter().map(|text| text.as_bytes().to_vec()).collect();
        Group { specs: texts(specs), items: texts(items) }
    }

    fn wrong(entry: Entry, group: &Group) -> bool {
        let comparison = Comparison { entry, fault: Fault::None, noise: vec![b'#'; 1024] };
        comparison.group(group, &mut Seen::default()).is_err()
    }

    #[test]
    fn a_collision_that_is_missed_is_noticed() {
        let never: Entry = |_, _, _| Collision::default();
        let shares = group(&["refs/*:refs/x/*", "a", "refs/a:refs/x/b"], &["refs/a", "refs/b"]);
        assert!(wrong(never, &shares) && !wrong(MODEL, &shares));
        let one_source = group(&["refs/*:refs/x/*", "refs/a:refs/x/a"], &["refs/a"]);
        assert!(wrong(never, &one_source), "also where there is no conflict");
        let alone = group(&["a:refs/x", "^b"], &["a", "refs/a"]);
        assert!(!wrong(never, &alone), "a conflict within one spec is none between two");
    }

    #[test]
    fn wrong_groups_shrink() {
        let comparison =
            Comparison { entry: |_, _, _| Collision::default(), fault: Fault::None, noise: vec![] };
        let shares = group(&["^c", "refs/*:refs/x/*", "a", "refs/a:refs/x/b"], &["d", "refs/a", "refs/b"]);
        let smallest = comparison.smallest_group(shares);
        assert_eq!((smallest.specs.len(), smallest.items.len()), (2, 2));
    }
}
