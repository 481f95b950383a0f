//! The texts that gix-refspec writes of specs, held to its own reading of them.

use crate::{fields, operation, refusal::refusal};
use bstr::BStr;
use gix_refspec::{Instruction, RefSpecRef, instruction::Fetch};

/// A spec that the crate accepts: what it asks for, and the canonical text.
pub struct Keyed<'a> {
    op: u64,
    instruction: Instruction<'a>,
    text: Vec<u8>,
}

/// What the crate makes of a text that it reads, beside an instruction.
#[derive(Clone, Copy, Debug, PartialEq, Eq)]
pub enum ReadAs {
    /// An equal instruction.
    Equal,
    /// Another instruction.
    Another,
    /// The question of this number refuses it.
    Refused(u64),
}

/// An instruction in the numbers of the interface, with its sides as bytes.
#[derive(Clone, Debug, PartialEq, Eq)]
pub struct Fields {
    pub kind: u64,
    pub force: u64,
    pub source: Option<Vec<u8>>,
    pub destination: Option<Vec<u8>>,
}

impl<'a> Keyed<'a> {
    /// Reads a spec for operation 0 (fetch) or 1 (push), or answers the number of the
    /// question that refuses it.
    pub fn read(op: u64, spec: &'a [u8]) -> Result<Keyed<'a>, u64> {
        let read = parse(op, spec)?;
        Ok(Keyed { op, instruction: read.instruction(), text: read.to_bstring().to_vec() })
    }

    /// Whether two instructions are equal, by the crate's own comparison.
    pub fn asks_the_same(&self, other: &Keyed) -> bool {
        self.instruction == other.instruction
    }

    pub fn text(&self) -> &[u8] {
        &self.text
    }

    /// Whether it is fetch-only, of a source that begins with `+`.
    pub fn is_exception(&self) -> bool {
        matches!(self.instruction, Instruction::Fetch(Fetch::Only { src }) if src.first() == Some(&b'+'))
    }

    /// What the crate reads in a text, for the same operation.
    pub fn in_text(&self, text: &[u8]) -> ReadAs {
        match parse(self.op, text) {
            Ok(read) if read.instruction() == self.instruction => ReadAs::Equal,
            Ok(_) => ReadAs::Another,
            Err(number) => ReadAs::Refused(number),
        }
    }

    pub fn fields(&self) -> Fields {
        let (kind, force, source, destination) = fields(self.instruction);
        let bytes = |side: Option<&BStr>| side.map(|side| side.to_vec());
        Fields { kind, force: u64::from(force), source: bytes(source), destination: bytes(destination) }
    }
}

fn parse(op: u64, spec: &[u8]) -> Result<RefSpecRef<'_>, u64> {
    gix_refspec::parse(BStr::new(spec), operation(op)).map_err(|error| refusal(op, spec, &error))
}

#[cfg(test)]
mod tests {
    use super::*;

    fn read(op: u64, spec: &str) -> Keyed<'_> {
        Keyed::read(op, spec.as_bytes()).ok().unwrap()
    }

    /// A spec's text, and what the crate reads in it.
    fn text(op: u64, spec: &str) -> (String, ReadAs) {
        let keyed = read(op, spec);
        (String::from_utf8(keyed.text().to_vec()).unwrap(), keyed.in_text(keyed.text()))
    }

    #[test]
    fn texts_are_read_as_what_they_are_of() {
        for (op, spec, expected) in [
            (0, "+:d", "+HEAD:d"),
            (0, "^@", "^HEAD"),
            (1, "a", "a:a"),
            (1, "+:d", ":d"),
            (1, "+", "+:"),
            (1, "++a", "++a:+a"),
            (1, "+^a:b", "+^a:b"),
            (1, "::b", "::b"),
        ] {
            assert_eq!(text(op, spec), (expected.to_owned(), ReadAs::Equal));
            assert!(!read(op, spec).is_exception());
        }
    }

    #[test]
    fn the_exceptions_are_not() {
        assert_eq!(text(0, "++a"), ("+a".to_owned(), ReadAs::Another));
        assert_eq!(text(0, "++"), ("+".to_owned(), ReadAs::Another));
        assert_eq!(text(0, "++.a"), ("+.a".to_owned(), ReadAs::Refused(6)));
        assert!(["++a", "++", "++.a"].iter().all(|spec| read(0, spec).is_exception()));
        assert!(!read(0, "++a:b").is_exception() && !read(0, "^+a").is_exception());
    }

    #[test]
    fn instructions_are_compared_by_what_they_say() {
        assert!(read(1, "a").asks_the_same(&read(1, "a:a")));
        assert!(!read(1, "a").asks_the_same(&read(1, "+a")));
        assert!(!read(0, "a").asks_the_same(&read(1, "a")));
        let both = Some(b"HEAD".to_vec());
        let fields = Fields { kind: 5, force: 1, source: both.clone(), destination: both };
        assert_eq!(read(1, "+@").fields(), fields);
        assert_eq!(Keyed::read(1, b"a:").err(), Some(4));
    }
}
