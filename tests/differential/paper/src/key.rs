//! What an accepted spec asks for, and its canonical text, which document 02, W13, makes the
//! key of an invoice line.

use crate::{Mode, Spec, read_spec};

/// What is asked for, with the interface's numbers.
#[derive(Clone, Copy, Debug, PartialEq, Eq)]
pub enum Kind {
    FetchOnly = 0,
    FetchExclude = 1,
    FetchAndUpdate = 2,
    PushAllMatching = 3,
    PushDelete = 4,
    PushMatching = 5,
    PushExclude = 6,
}

/// The instruction of a spec.
#[derive(Clone, Copy, Debug, PartialEq, Eq)]
pub struct Instruction<'a> {
    pub kind: Kind,
    /// Whether it allows a non-fast-forward.
    pub force: bool,
    pub source: Option<&'a [u8]>,
    pub destination: Option<&'a [u8]>,
}

impl<'a> Instruction<'a> {
    /// The instruction of an accepted spec, or the number of the first question whose answer
    /// is no.
    pub fn read(op: u64, spec: &'a [u8]) -> Result<Instruction<'a>, u64> {
        let spec = read_spec(op, spec)?;
        Ok(if op == 1 { pushed(&spec) } else { fetched(&spec) })
    }

    /// "In fetch, the canonical text of a negative spec is `^` and the source. That of a
    /// fetch-only spec [..] is the source alone. Any other is `+` where forced, then source,
    /// colon, destination. A supplied `HEAD` is written out." A push is written the same way,
    /// with nothing for a side that its instruction has not.
    pub fn text(&self) -> Vec<u8> {
        let (source, destination) = (self.source.unwrap_or(b""), self.destination.unwrap_or(b""));
        let sign: &[u8] = if self.force { b"+" } else { b"" };
        match self.kind {
            Kind::FetchExclude | Kind::PushExclude => [b"^", source].concat(),
            Kind::FetchOnly => source.to_vec(),
            _ => [sign, source, b":", destination].concat(),
        }
    }
}

/// "A fetch-only spec, which is not negative and has no destination"; and "fetch-only and
/// delete lose the `+`".
fn fetched<'a>(spec: &Spec<'a>) -> Instruction<'a> {
    let kind = match (spec.mode, spec.destination) {
        (Mode::Negative, _) => Kind::FetchExclude,
        (_, None) => Kind::FetchOnly,
        (_, Some(_)) => Kind::FetchAndUpdate,
    };
    let force = spec.mode == Mode::Force && kind == Kind::FetchAndUpdate;
    Instruction { kind, force, source: spec.source, destination: spec.destination }
}

/// "A one-sided push has its source as destination in its instruction [..]. Push with neither
/// side is all matching branches; with a destination only, delete."
fn pushed<'a>(spec: &Spec<'a>) -> Instruction<'a> {
    let (source, destination) = (spec.source, spec.destination);
    if spec.mode == Mode::Negative {
        return Instruction { kind: Kind::PushExclude, force: false, source, destination };
    }
    let force = spec.mode == Mode::Force;
    match (source, destination) {
        (None, None) => Instruction { kind: Kind::PushAllMatching, force, source, destination },
        (None, Some(_)) => Instruction { kind: Kind::PushDelete, force: false, source, destination },
        (Some(_), None) => Instruction { kind: Kind::PushMatching, force, source, destination: source },
        (Some(_), Some(_)) => Instruction { kind: Kind::PushMatching, force, source, destination },
    }
}

#[cfg(test)]
mod tests {
    use super::*;

    /// Kind, force and text of an accepted spec.
    fn key(op: u64, spec: &str) -> (Kind, bool, String) {
        let instruction = Instruction::read(op, spec.as_bytes()).unwrap();
        (instruction.kind, instruction.force, String::from_utf8(instruction.text()).unwrap())
    }

    fn is(kind: Kind, force: bool, text: &str) -> (Kind, bool, String) {
        (kind, force, text.to_owned())
    }

    /// "Specs and what they become", as far as instructions and texts go.
    #[test]
    fn the_table() {
        assert_eq!(key(0, ""), is(Kind::FetchOnly, false, "HEAD"));
        assert_eq!(key(0, "a:"), is(Kind::FetchOnly, false, "a"));
        assert_eq!(key(1, "a*"), is(Kind::PushMatching, false, "a*:a*"));
        assert_eq!(key(1, "+:d"), is(Kind::PushDelete, false, ":d"));
        assert_eq!(key(0, "++a"), is(Kind::FetchOnly, false, "+a"));
        assert_eq!(key(0, "+a"), is(Kind::FetchOnly, false, "a"), "the text of ++a reads as only a");
        let fix = Instruction::read(1, b":/fix:refs/heads/b").unwrap();
        assert_eq!(fix.source, Some(b":/fix".as_slice()));
        assert_eq!(fix.text(), b":/fix:refs/heads/b");
        assert_eq!(Instruction::read(1, b""), Err(2));
        assert_eq!(Instruction::read(1, b"a:"), Err(4));
        assert_eq!(Instruction::read(0, b"a:@"), Err(8));
    }

    #[test]
    fn each_other_kind() {
        assert_eq!(key(0, "^a*"), is(Kind::FetchExclude, false, "^a*"));
        assert_eq!(key(0, "+:d"), is(Kind::FetchAndUpdate, true, "+HEAD:d"));
        assert_eq!(key(1, ":"), is(Kind::PushAllMatching, false, ":"));
        assert_eq!(key(1, "+"), is(Kind::PushAllMatching, true, "+:"));
        assert_eq!(key(1, "^@"), is(Kind::PushExclude, false, "^HEAD"));
        assert_eq!(key(1, "+a"), is(Kind::PushMatching, true, "+a:a"));
        assert_eq!(key(1, "+^a:b"), is(Kind::PushMatching, true, "+^a:b"));
    }
}
