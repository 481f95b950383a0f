//! Specs one by one: read, written as canonical text, and their prefixes.

use crate::{
    texts::{self, Texts},
    workload::{Case, Work, Workload},
};
use bstr::BStr;
use gix_refspec::RefSpecRef;
use std::hint::black_box;
use vasigmon::{Operation, raw};

const SPECS: usize = 10_000;

/// The longest answer about a spec is shorter.
const BUFFER: usize = 1024;

pub fn workloads() -> Vec<Workload> {
    let fetch = Specs { op: Operation::Fetch, texts: texts::leaked((0..SPECS).map(texts::fetch_spec)) };
    let push = Specs { op: Operation::Push, texts: texts::leaked((0..SPECS).map(texts::push_spec)) };
    [reading, text, prefixes].into_iter().flat_map(|work| [fetch, push].map(work)).collect()
}

/// Specs that are read for one operation.
#[derive(Clone, Copy)]
struct Specs {
    op: Operation,
    texts: Texts,
}

type Spec = &'static [u8];

impl Specs {
    /// What is compared, and what each side does, of each spec.
    fn workload(
        self,
        work: Work,
        compare: impl Fn(Spec) + 'static,
        mut archive: impl FnMut(Spec) + 'static,
        mut gix: impl FnMut(Spec) + 'static,
    ) -> Workload {
        let variant = if self.op == Operation::Fetch { "fetch" } else { "push" };
        Workload {
            case: Case { work, size: "10,000 specs".into(), variant },
            compare: Box::new(move || self.each().for_each(&compare)),
            archive: Box::new(move || self.each().for_each(&mut archive)),
            gix: Box::new(move || self.each().for_each(&mut gix)),
        }
    }

    fn each(self) -> impl Iterator<Item = Spec> {
        self.texts.iter().map(String::as_bytes)
    }

    /// A spec as the archive reads it.
    fn ours(self, spec: Spec) -> vasigmon::Spec<'static> {
        vasigmon::parse(self.op, spec).expect("a good spec")
    }

    /// A spec as the crate reads it.
    fn gix(self, spec: Spec) -> RefSpecRef<'static> {
        let operation = match self.op {
            Operation::Fetch => gix_refspec::parse::Operation::Fetch,
            Operation::Push => gix_refspec::parse::Operation::Push,
        };
        gix_refspec::parse(BStr::new(spec), operation).expect("a good spec")
    }
}

fn reading(specs: Specs) -> Workload {
    let compare = move |spec| {
        let (ours, other) = (specs.ours(spec), specs.gix(spec));
        assert_eq!(ours.source(), other.source().map(|side| &**side));
        assert_eq!(ours.destination(), other.destination().map(|side| &**side));
    };
    let archive = move |spec| assert_eq!(black_box(raw::parse(specs.op as u64, spec)).refusal, 0);
    let gix = move |spec| _ = black_box(specs.gix(spec));
    specs.workload(Work::Reading, compare, archive, gix)
}

fn text(specs: Specs) -> Workload {
    let compare = move |spec| assert_eq!(specs.ours(spec).to_bstring(), *specs.gix(spec).to_bstring());
    let mut out = vec![0; BUFFER];
    let archive = move |spec| {
        let answer = raw::to_bstring(specs.op as u64, spec, black_box(&mut out));
        assert_eq!(answer.refusal, 0);
    };
    let gix = move |spec| _ = black_box(specs.gix(spec).to_bstring());
    specs.workload(Work::Text, compare, archive, gix)
}

fn prefixes(specs: Specs) -> Workload {
    let compare = move |spec| {
        let mut other = Vec::new();
        specs.gix(spec).expand_prefixes(&mut other);
        assert!(specs.ours(spec).expand_prefixes().iter().eq(other.iter().map(|prefix| &**prefix)));
    };
    let mut out = vec![0; BUFFER];
    let archive = move |spec| {
        let answer = raw::expand_prefixes(specs.op as u64, spec, black_box(&mut out));
        assert_eq!(answer.refusal, 0);
    };
    let mut prefixes = Vec::new();
    let gix = move |spec| {
        prefixes.clear();
        specs.gix(spec).expand_prefixes(&mut prefixes);
        black_box(&prefixes);
    };
    specs.workload(Work::Prefixes, compare, archive, gix)
}
