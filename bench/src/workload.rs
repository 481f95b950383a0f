//! A workload: the same work for both sides.

use std::fmt;

/// What is done.
#[derive(Clone, Copy, PartialEq, Eq)]
pub enum Work {
    Reading,
    Text,
    Prefixes,
    Collide,
    Forward,
    Reverse,
    Validation,
}

impl Work {
    pub fn name(self) -> &'static str {
        match self {
            Work::Reading => "reading",
            Work::Text => "text",
            Work::Prefixes => "prefixes",
            Work::Collide => "collide",
            Work::Forward => "forward",
            Work::Reverse => "reverse",
            Work::Validation => "validation",
        }
    }

    /// The work, and what its sizes say.
    pub fn title(self) -> &'static str {
        match self {
            Work::Reading => "reading",
            Work::Text => "canonical text",
            Work::Prefixes => "prefixes",
            Work::Collide => "collisions: each of 10,000 specs beside another",
            Work::Forward => "forward listing: specs x items, and how many of these are mapped",
            Work::Reverse => "reverse listing: specs x items, and how many of these are mapped",
            Work::Validation => "validation",
        }
    }

    /// How many times as fast as the crate the archive is to be, if that is said.
    pub fn bar(self) -> Option<f64> {
        match self {
            Work::Reading | Work::Text => Some(2.0),
            Work::Prefixes | Work::Collide => None,
            Work::Forward | Work::Reverse => Some(3.0),
            Work::Validation => Some(1.0),
        }
    }

    /// What the archive does of it, and with which buffers.
    pub fn of_the_archive(self) -> &'static str {
        match self {
            Work::Reading => "vasigmon_parse on each spec; there is no buffer",
            Work::Text => "vasigmon_to_bstring on each spec, to one buffer that is not cleared",
            Work::Prefixes => "vasigmon_expand_prefixes on each spec, to one buffer that is not cleared",
            Work::Collide => "vasigmon_collide on each pair, to one buffer that is not cleared",
            Work::Forward => "vasigmon_match_lhs on both lists, to one buffer that is not cleared",
            Work::Reverse => "vasigmon_match_rhs on both lists, to one buffer that is not cleared",
            Work::Validation => "vasigmon_validated on both lists, to two buffers that are not cleared",
        }
    }

    /// What the crate does of it.
    pub fn of_the_crate(self) -> &'static str {
        match self {
            Work::Reading => "parse of each spec",
            Work::Text => "parse and to_bstring of each spec, allocated and freed",
            Work::Prefixes => "parse and expand_prefixes of each spec, allocated and freed",
            Work::Collide => "parse of both specs of each pair, and no more: it has no such report",
            Work::Forward => "parse of each spec, then match_lhs, allocated and freed",
            Work::Reverse => "parse of each spec, then match_rhs, allocated and freed",
            Work::Validation => "validated of mappings that are cloned outside of the time",
        }
    }
}

/// Which work, and how much of it. Workloads come in pairs that differ in the variant.
#[derive(Clone)]
pub struct Case {
    pub work: Work,
    pub size: String,
    pub variant: &'static str,
}

impl fmt::Display for Case {
    fn fmt(&self, f: &mut fmt::Formatter<'_>) -> fmt::Result {
        write!(f, "{} {}, {}", self.work.name(), self.size, self.variant)
    }
}

/// What one side does.
pub trait Side {
    /// Makes what the next call uses up. This is not measured.
    fn prepare(&mut self) {}

    /// Does the work once. This is measured.
    fn call(&mut self);
}

/// A side that uses nothing up.
impl<F: FnMut()> Side for F {
    fn call(&mut self) {
        self();
    }
}

pub struct Workload {
    pub case: Case,
    /// Panics unless both sides answer alike.
    pub compare: Box<dyn Fn()>,
    pub archive: Box<dyn Side>,
    pub gix: Box<dyn Side>,
}
