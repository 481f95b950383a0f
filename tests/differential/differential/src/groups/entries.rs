//! The entries on groups, and what stands in for them where the comparison itself is
//! tested.

use vasigmon::raw::{Part, Written};

/// The four entries on groups, called on slices.
#[derive(Clone, Copy)]
pub struct Entries {
    pub match_lhs: Listing,
    pub match_rhs: Listing,
    pub group_prefixes: fn(u64, &[u8], &mut [u8]) -> Written,
    pub source: fn(u64, &[u8], &[u8], u64, u64) -> Part,
}

/// A call that writes a listing.
pub type Listing = fn(u64, &[u8], &[u8], &mut [u8]) -> Written;

/// The archive's.
pub const ENTRIES: Entries = Entries {
    match_lhs: vasigmon::raw::match_lhs,
    match_rhs: vasigmon::raw::match_rhs,
    group_prefixes: vasigmon::raw::group_prefixes,
    source: vasigmon::raw::source,
};

/// The paper's reading behind the interface's numbers and buffers.
#[cfg(test)]
pub const MODEL: Entries = Entries {
    match_lhs: |op, specs, items, out| meets(paper::match_lhs(op, specs, items), out),
    match_rhs: |op, specs, items, out| meets(paper::match_rhs(op, specs, items), out),
    group_prefixes: |op, specs, out| meets(paper::group_prefixes(op, specs), out),
    source: |op, specs, items, field, spec| super::part(paper::source(op, specs, items, field, spec)),
};

/// How an answer meets its buffer.
#[cfg(test)]
fn meets(answer: Result<Vec<u8>, paper::Refused>, out: &mut [u8]) -> Written {
    match answer {
        Err(refused) => super::refusal(refused),
        Ok(bytes) if bytes.len() > out.len() => {
            Written { refusal: 17, record: 0, length: bytes.len() as u64 }
        }
        Ok(bytes) => {
            out[..bytes.len()].copy_from_slice(&bytes);
            Written { refusal: 0, record: 0, length: bytes.len() as u64 }
        }
    }
}
