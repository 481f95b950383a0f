//! Two specs at a time: whether they can ever collide.

use crate::{
    texts::{self, Texts},
    workload::{Case, Work, Workload},
};
use bstr::BStr;
use gix_refspec::parse::Operation;
use oracle::FetchSpec;
use std::hint::black_box;
use vasigmon::raw;

const PAIRS: usize = 10_000;

/// The longest destination is shorter.
const BUFFER: usize = 1024;

pub fn workloads() -> Vec<Workload> {
    let specs = texts::leaked((0..PAIRS).map(texts::fetch_spec));
    vec![workload(specs, 0, "with itself"), workload(specs, 7, "with another")]
}

/// Each spec beside the one that so many others later stands in the list.
fn pairs(specs: Texts, later: usize) -> impl Iterator<Item = [&'static [u8]; 2]> {
    specs.iter().zip(specs.iter().cycle().skip(later)).map(|(one, other)| [one.as_bytes(), other.as_bytes()])
}

fn workload(specs: Texts, later: usize, variant: &'static str) -> Workload {
    let mut out = vec![0; BUFFER];
    let archive = move || {
        for [first, second] in pairs(specs, later) {
            assert_eq!(raw::collide(first, second, black_box(&mut out)).refusal, 0);
        }
    };
    let gix = move || {
        for spec in pairs(specs, later).flatten() {
            black_box(gix_refspec::parse(BStr::new(spec), Operation::Fetch).expect("a good spec"));
        }
    };
    Workload {
        case: Case { work: Work::Collide, size: "10,000 pairs".into(), variant },
        compare: Box::new(move || pairs(specs, later).for_each(compare)),
        archive: Box::new(archive),
        gix: Box::new(gix),
    }
}

/// Panics unless the destination that is told is one that the crate maps names of both to, or
/// there is none in both.
fn compare(pair: [&[u8]; 2]) {
    let [first, second] = pair.map(|spec| FetchSpec::read(spec).ok().expect("a good spec"));
    let shared = oracle::shared(&first, &second);
    match vasigmon::collide(pair[0], pair[1]).expect("good specs") {
        Some(told) => assert!(shared.contains(&told)),
        None => assert!(shared.is_empty()),
    }
}
