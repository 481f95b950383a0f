//! Forward and reverse listings.

use crate::{
    group::{Group, rows_of_the_archive, rows_of_the_crate},
    texts::{leaked, object_id, team},
    workload::{Case, Work, Workload},
};
use gix_refspec::match_group::Mapping;
use std::{collections::HashSet, hint::black_box};
use vasigmon::{list, raw};

const SPECS: [usize; 3] = [4, 32, 256];

const ITEMS: [usize; 2] = [100, 1024];

/// One item in so many is mapped by a spec, unless a negative takes it away.
const SHARES: [(&str, usize); 3] = [("few", 16), ("half", 2), ("all", 1)];

/// The longest listing is shorter.
const BUFFER: usize = 1 << 18;

pub fn workloads() -> Vec<Workload> {
    let mut workloads = Vec::new();
    for work in [Work::Forward, Work::Reverse] {
        for specs in SPECS {
            for items in ITEMS {
                for share in SHARES {
                    workloads.extend([false, true].map(|with| workload(work, specs, items, share, with)));
                }
            }
        }
    }
    workloads
}

pub fn workload(work: Work, specs: usize, items: usize, share: (&str, usize), negatives: bool) -> Workload {
    let (share, one_in) = share;
    let kinds = Kinds { forward: work == Work::Forward, negatives };
    let variant = if negatives { "negatives" } else { "no negatives" };
    let case = Case { work, size: format!("{specs} x {items}, {share}"), variant };
    Listing::new(kinds, specs, items, items.div_ceil(one_in)).workload(case)
}

/// A group, and which way it is listed.
#[derive(Clone, Copy)]
struct Listing {
    kinds: Kinds,
    group: Group,
    /// How many items some spec maps.
    mapped: usize,
}

impl Listing {
    fn new(kinds: Kinds, specs: usize, items: usize, mapped: usize) -> Listing {
        let alike = (0..).flat_map(|round| (0..specs).filter_map(move |spec| kinds.name(spec, round)));
        let mut names: Vec<_> = alike.take(mapped).chain((mapped..items).map(other_name)).collect();
        // A remote tells its references in byte order.
        names.sort();
        let specs = leaked((0..specs).map(|number| kinds.spec(number)));
        Listing { kinds, group: Group::new(specs, leaked(names.into_iter())), mapped }
    }

    fn workload(self, case: Case) -> Workload {
        let (specs, items) = (list::of(self.group.specs), list::of(self.group.items));
        let entry = if self.kinds.forward { raw::match_lhs } else { raw::match_rhs };
        let mut out = vec![0; BUFFER];
        let archive = move || {
            let answer = entry(0, &specs, &items, black_box(&mut out));
            assert_eq!(answer.refusal, 0);
        };
        Workload {
            case,
            compare: Box::new(move || self.compare()),
            archive: Box::new(archive),
            gix: Box::new(move || _ = black_box(self.by_the_crate())),
        }
    }

    fn by_the_archive(self) -> Vec<u8> {
        let (group, items) = (self.group.read_by_the_archive(), self.group.items_for_the_archive());
        if self.kinds.forward { group.match_lhs(&items) } else { group.match_rhs(&items) }
    }

    /// The crate's listing, from texts to mappings.
    fn by_the_crate(self) -> Vec<Mapping<'static, 'static>> {
        let (group, items) = (self.group.read_by_the_crate(), self.group.items_for_the_crate());
        if self.kinds.forward { group.match_lhs(items).mappings } else { group.match_rhs(items).mappings }
    }

    fn compare(self) {
        let rows = rows_of_the_archive(&self.by_the_archive());
        assert!(rows == rows_of_the_crate(&self.by_the_crate()), "both sides have the same rows");
        let items: HashSet<_> = rows.iter().filter_map(|row| row.0).collect();
        if self.kinds.negatives {
            assert!(items.len() < self.mapped, "negatives take some away");
        } else {
            assert_eq!(items.len(), self.mapped);
        }
    }
}

/// The kinds of specs in a group, and of the names that they map.
#[derive(Clone, Copy)]
struct Kinds {
    forward: bool,
    negatives: bool,
}

impl Kinds {
    /// Half of the specs are patterns. No two map the same name.
    fn spec(self, number: usize) -> String {
        let team = team(number);
        match number % 8 {
            1 => format!("+refs/heads/{team}/topic-{number}:refs/remotes/hub/{team}/topic-{number}"),
            2 => format!("refs/tags/{team}/*:refs/tags/hub/{team}/*"),
            3 if self.negatives => negative(number),
            3 => format!("{team}/main:refs/remotes/hub/{team}/main"),
            4 => format!("+refs/heads/{team}/*/done:refs/remotes/hub/{team}/*/done"),
            5 => format!("refs/heads/{team}/pinned"),
            7 => format!("{}:refs/heads/pins/pin-{number}", object_id(number)),
            _ => format!("+refs/heads/{team}/*:refs/remotes/hub/{team}/*"),
        }
    }

    /// A name that a spec maps, another in each round. Those without a star have one in
    /// the first round at most.
    fn name(self, spec: usize, round: usize) -> Option<String> {
        let team = team(spec);
        let (heads, tags) =
            if self.forward { ("refs/heads", "refs/tags") } else { ("refs/remotes/hub", "refs/tags/hub") };
        match spec % 8 {
            1 => (round == 0).then(|| format!("{heads}/{team}/topic-{spec}")),
            2 => Some(format!("{tags}/{team}/v1.{round}")),
            3 => (round == 0 && !self.negatives).then(|| format!("{heads}/{team}/main")),
            4 => Some(format!("{heads}/{team}/topic-{round}/done")),
            5 => (round == 0 && self.forward).then(|| format!("{heads}/{team}/pinned")),
            7 => None,
            _ if round % 8 == 1 => Some(format!("{heads}/{team}/tmp-{round}")),
            _ => Some(format!("{heads}/{team}/topic-{round}")),
        }
    }
}

/// Takes names away from the pattern three specs before.
fn negative(number: usize) -> String {
    let team = team(number - 3);
    if number % 16 == 3 { format!("^refs/heads/{team}/tmp-*") } else { format!("^refs/heads/{team}/topic-0") }
}

/// A name that no spec maps.
fn other_name(number: usize) -> String {
    match number % 4 {
        0 => format!("refs/pull/{number}/head"),
        1 => format!("refs/heads/guest-{number}/topic-{number}"),
        2 => format!("refs/changes/{:02}/{number}/1", number % 100),
        _ => format!("refs/tags/nightly-{number}"),
    }
}
