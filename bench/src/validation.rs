//! Validation of listings, without and with conflicts. Each side validates the listing
//! that it has made itself of the same specs and items.

use crate::{
    group::{Group, Row, bytes, rows_of_the_archive, rows_of_the_crate},
    texts::{leaked, team},
    workload::{Case, Side, Work, Workload},
};
use gix_refspec::match_group::{
    match_lhs::Outcome,
    validate::{Error, Fix, Issue},
};
use std::hint::black_box;
use vasigmon::{Validated, list, raw};

/// The longest row list that is accepted.
const FULL: usize = 1_048_576;

/// How many rows, of how many mirrors of how many items.
const SIZES: [(&str, usize, usize); 3] =
    [("100 rows", 1, 100), ("1,000 rows", 1, 1000), ("10,000 rows", 10, 1000)];

/// Mirrors and items that leave room for one long row in a full list.
const NEARLY_FULL: (usize, usize) = (14, 975);

pub fn workloads() -> Vec<Workload> {
    let mut workloads = Vec::new();
    for (size, mirrors, items) in SIZES {
        for conflicts in [false, true] {
            let group = Group::new(leaked(specs(mirrors, conflicts)), leaked(names(items)));
            workloads.push(workload(size, conflicts, group));
        }
    }
    workloads.extend([false, true].map(|conflicts| workload("full list", conflicts, full(conflicts))));
    workloads
}

/// Each mirror maps all names: branches and tags to names of their own, but notes outside
/// of refs/. Where there are conflicts, a tag and a branch are mapped to the same name.
fn specs(mirrors: usize, conflicts: bool) -> impl Iterator<Item = String> {
    let tags = if conflicts { "refs/remotes/mirror" } else { "refs/tags/by-mirror" };
    (0..mirrors).flat_map(move |mirror| {
        [
            format!("+refs/heads/*:refs/remotes/mirror-{mirror}/*"),
            format!("+refs/tags/*:{tags}-{mirror}/*"),
            format!("refs/notes/*:notes-{mirror}/*"),
        ]
    })
}

/// Branches, for the most part; one name in ten is a tag that is called as a branch, and
/// one in twenty a note.
fn names(count: usize) -> impl Iterator<Item = String> {
    let topic = |number: usize| format!("{}/topic-{number}", team(number / 10));
    let name = move |number| match number % 20 {
        9 | 19 => format!("refs/tags/{}", topic(number - 1)),
        4 => format!("refs/notes/{}", topic(number)),
        _ => format!("refs/heads/{}", topic(number)),
    };
    let mut names: Vec<_> = (0..count).map(name).collect();
    names.sort();
    names.into_iter()
}

/// A group whose listing fills a row list to the last byte, by one row with a long
/// destination.
fn full(conflicts: bool) -> Group {
    let (mirrors, items) = NEARLY_FULL;
    let names = leaked(names(items));
    let filled = |length| {
        let long = format!("{}:refs/heads/{}", names[0], "x".repeat(length));
        Group::new(leaked(specs(mirrors, conflicts).chain([long])), names)
    };
    // The number before the destination has two bytes, of the shorter text and of the longer.
    let rest = FULL - listing(filled(128)).len();
    let group = filled(128 + rest);
    assert_eq!(listing(group).len(), FULL);
    group
}

/// The archive's forward listing.
fn listing(group: Group) -> Vec<u8> {
    group.read_by_the_archive().match_lhs(&group.items_for_the_archive())
}

fn workload(size: &str, conflicts: bool, group: Group) -> Workload {
    let (specs, rows) = (list::of(group.specs), listing(group));
    // Conflicts can be longer than the rows that they are of.
    let (mut out, mut fixes) = (vec![0; 2 * FULL], vec![0; FULL]);
    let archive = move || {
        let answer = raw::validated(0, &specs, &rows, black_box(&mut out), black_box(&mut fixes));
        assert_eq!((answer.refusal, answer.conflicts), (0, u64::from(conflicts)));
    };
    let variant = if conflicts { "conflicts" } else { "no conflicts" };
    Workload {
        case: Case { work: Work::Validation, size: size.into(), variant },
        compare: Box::new(move || assert!(of_the_archive(group) == of_the_crate(group))),
        archive: Box::new(archive),
        gix: Box::new(Outcomes::new(group)),
    }
}

/// The crate's side. Validation uses its mappings up.
struct Outcomes {
    original: Outcome<'static, 'static>,
    /// What the next call validates.
    next: Option<Outcome<'static, 'static>>,
    /// What the last call kept, to be freed outside of the time.
    kept: Option<Outcome<'static, 'static>>,
}

impl Outcomes {
    fn new(group: Group) -> Outcomes {
        let original = group.read_by_the_crate().match_lhs(group.items_for_the_crate());
        Outcomes { original, next: None, kept: None }
    }
}

impl Side for Outcomes {
    fn prepare(&mut self) {
        self.kept = None;
        self.next = Some(self.original.clone());
    }

    fn call(&mut self) {
        let outcome = self.next.take().expect("prepared");
        match black_box(outcome.validated()) {
            Ok((kept, _)) => self.kept = Some(kept),
            Err(_) => self.kept = None,
        }
    }
}

/// What validation says, in the terms of neither side.
#[derive(PartialEq)]
enum Verdict {
    /// The rows that are kept, and the destinations of those that are not.
    Passed(Vec<Row>, Vec<Vec<u8>>),
    /// The destinations in conflict, each with its sources.
    Conflicts(Vec<(Vec<u8>, Vec<Vec<u8>>)>),
}

fn of_the_archive(group: Group) -> Verdict {
    match group.read_by_the_archive().validated(&listing(group)).expect("good rows") {
        Validated::Passed { rows, fixes } => {
            let names = list::fixes(&fixes).map(|fix| fix.name.to_vec());
            Verdict::Passed(rows_of_the_archive(&rows), names.collect())
        }
        Validated::Conflicts(found) => {
            let source = |source: &list::ConflictSource| source.source.text().to_vec();
            let conflict = |conflict: list::Conflict| {
                (conflict.destination.to_vec(), conflict.sources.iter().map(source).collect())
            };
            Verdict::Conflicts(list::conflicts(&found).map(conflict).collect())
        }
    }
}

fn of_the_crate(group: Group) -> Verdict {
    match Outcomes::new(group).original.validated() {
        Ok((outcome, fixes)) => {
            let name = |Fix::MappingWithPartialDestinationRemoved { name, .. }: &Fix| name.to_vec();
            Verdict::Passed(rows_of_the_crate(&outcome.mappings), fixes.iter().map(name).collect())
        }
        Err(Error { issues }) => {
            let conflict = |Issue::Conflict { destination_full_ref_name, sources, .. }: &Issue| {
                (destination_full_ref_name.to_vec(), sources.iter().map(bytes).collect())
            };
            Verdict::Conflicts(issues.iter().map(conflict).collect())
        }
    }
}
