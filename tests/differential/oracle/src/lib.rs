//! What gix-refspec answers, about one spec in the numbers and places of the C
//! interface, about a group of specs as rows, about rows, about where two specs write,
//! and about the texts of two specs, so that the two can be compared field by field.

mod collisions;
mod groups;
mod keys;
mod refusal;
mod validation;

pub use collisions::{FetchSpec, shared};
pub use groups::{Group, Row};
pub use keys::{Fields, Keyed, ReadAs};
pub use validation::{Conflict, ConflictSource, Fix, Verdict};

use bstr::BStr;
use gix_refspec::{
    Instruction, RefSpecRef,
    instruction::{Fetch, Push},
    parse::Operation,
};
use refusal::refusal;

/// A side of a spec: 0 absent, 1 a place in the spec, 2 the supplied `HEAD`.
#[derive(Clone, Copy, Debug, Default, PartialEq, Eq)]
pub struct Side {
    pub kind: u64,
    pub start: u64,
    pub length: u64,
}

/// All answers about one accepted spec.
#[derive(Clone, Debug, Default, PartialEq, Eq)]
pub struct Answer {
    /// 0 normal, 1 force, 2 negative.
    pub mode: u64,
    pub source: Side,
    pub destination: Side,
    /// The instruction: 0 fetch only, 1 fetch exclude, 2 fetch and update, 3 push
    /// all matching branches, 4 push delete, 5 push matching, 6 push exclude.
    pub kind: u64,
    pub force: u64,
    pub instruction_source: Side,
    pub instruction_destination: Side,
    pub prefix: Side,
    pub prefixes: Vec<Vec<u8>>,
    /// The canonical text.
    pub text: Vec<u8>,
}

/// The crate's answers for operation 0 (fetch) or 1 (push), or the number of
/// the question that refuses the spec.
pub fn ask(op: u64, spec: &[u8]) -> Result<Answer, u64> {
    match gix_refspec::parse(BStr::new(spec), operation(op)) {
        Ok(read) => Ok(answer(spec, read)),
        Err(error) => Err(refusal(op, spec, &error)),
    }
}

fn operation(op: u64) -> Operation {
    if op == 0 { Operation::Fetch } else { Operation::Push }
}

/// Kind, force, source and destination of an instruction.
fn fields(instruction: Instruction<'_>) -> (u64, bool, Option<&BStr>, Option<&BStr>) {
    match instruction {
        Instruction::Fetch(Fetch::Only { src }) => (0, false, Some(src), None),
        Instruction::Fetch(Fetch::Exclude { src }) => (1, false, Some(src), None),
        Instruction::Fetch(Fetch::AndUpdate { src, dst, allow_non_fast_forward }) => {
            (2, allow_non_fast_forward, Some(src), Some(dst))
        }
        Instruction::Push(Push::AllMatchingBranches { allow_non_fast_forward }) => {
            (3, allow_non_fast_forward, None, None)
        }
        Instruction::Push(Push::Delete { ref_or_pattern }) => (4, false, None, Some(ref_or_pattern)),
        Instruction::Push(Push::Matching { src, dst, allow_non_fast_forward }) => {
            (5, allow_non_fast_forward, Some(src), Some(dst))
        }
        Instruction::Push(Push::Exclude { src }) => (6, false, Some(src), None),
    }
}

fn answer(spec: &[u8], read: RefSpecRef<'_>) -> Answer {
    let (kind, force, source, destination) = fields(read.instruction());
    let mut prefixes = Vec::new();
    read.expand_prefixes(&mut prefixes);
    Answer {
        // The mode is private: only exclusions are negative, and an owned copy
        // tells force apart from normal.
        mode: match kind {
            1 | 6 => 2,
            _ => u64::from(read.to_owned().allow_non_fast_forward()),
        },
        source: side(spec, read.source()),
        destination: side(spec, read.destination()),
        kind,
        force: u64::from(force),
        instruction_source: side(spec, source),
        instruction_destination: side(spec, destination),
        prefix: side(spec, read.prefix()),
        prefixes: prefixes.iter().map(|prefix| prefix.to_vec()).collect(),
        text: read.to_bstring().to_vec(),
    }
}

/// Where a text of the crate stands in the spec. What stands elsewhere is the
/// `HEAD` that the crate supplies.
fn side(spec: &[u8], text: Option<&BStr>) -> Side {
    let Some(text) = text else { return Side::default() };
    match place(spec, text.as_ptr().addr()) {
        Some(start) => Side { kind: 1, start: start as u64, length: text.len() as u64 },
        None => {
            assert_eq!(text, "HEAD", "the crate supplies no other text");
            Side { kind: 2, start: 0, length: 0 }
        }
    }
}

/// Where in the spec an address lies.
fn place(spec: &[u8], address: usize) -> Option<usize> {
    let start = address.checked_sub(spec.as_ptr().addr())?;
    (start < spec.len()).then_some(start)
}

#[cfg(test)]
mod tests {
    use super::*;

    #[test]
    fn each_message_has_its_number() {
        assert_eq!(ask(1, b""), Err(2));
        assert_eq!(ask(0, b"^a:b"), Err(3));
        assert_eq!(ask(1, b"a:"), Err(4));
        assert_eq!(ask(0, b"**:**"), Err(5));
        assert_eq!(ask(0, b"+*:**"), Err(7));
        assert_eq!(ask(0, b"+a..b:a..b"), Err(6));
        assert_eq!(ask(1, b"+a..b:a..b"), Err(8));
        assert_eq!(ask(0, b"*..:*.."), Err(6));
        assert_eq!(ask(0, b"*:*.."), Err(8));
        assert_eq!(ask(1, b"a..:*.."), Err(8));
        assert_eq!(ask(0, b"a*:b"), Err(9));
        assert_eq!(ask(0, b"^"), Err(10));
        assert_eq!(ask(0, format!("^{:040}", 0).as_bytes()), Err(11));
    }

    #[test]
    fn places_and_the_supplied_head() {
        let place = |start, length| Side { kind: 1, start, length };
        let head = Side { kind: 2, start: 0, length: 0 };
        let both = ask(0, b"+a:bc").unwrap();
        assert_eq!((both.mode, both.source, both.destination), (1, place(1, 1), place(3, 2)));
        let supplied = ask(0, b"+:bc").unwrap();
        assert_eq!((supplied.source, supplied.prefix), (head, head));
        let spelled = ask(0, b"HEAD").unwrap();
        assert_eq!((spelled.source, spelled.prefix), (place(0, 4), place(0, 4)));
        let at = ask(1, b"@").unwrap();
        assert_eq!((at.kind, at.instruction_source, at.instruction_destination), (5, head, head));
        assert_eq!(ask(0, b"^a").unwrap().mode, 2);
    }
}
