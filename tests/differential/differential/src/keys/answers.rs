//! What each side answers about one spec: its instruction and its key, or a refusal.

use super::Comparison;
use crate::{
    Fault,
    buffers::{Again, Lent, alike, refused, written},
};
use oracle::{Fields, ReadAs};
use paper::Kind;
use vasigmon::raw::{self, Written};

/// The instruction of an accepted spec, and its key.
#[derive(Clone, Debug, PartialEq, Eq)]
pub struct Keyed {
    pub instruction: Fields,
    pub key: Vec<u8>,
}

impl Keyed {
    /// Whether it is fetch-only, of a source that begins with `+`.
    pub fn is_exception(&self) -> bool {
        let source = self.instruction.source.as_deref();
        self.instruction.kind == 0 && source.is_some_and(|source| source.starts_with(b"+"))
    }

    /// What a reading of its key is, beside it.
    pub fn beside(&self, read: &Result<Keyed, u64>) -> ReadAs {
        match read {
            Ok(read) if read.instruction == self.instruction => ReadAs::Equal,
            Ok(_) => ReadAs::Another,
            Err(number) => ReadAs::Refused(*number),
        }
    }
}

/// The crate's answer. That the operation is 0 or 1 is asked by us alone.
pub fn the_crate(op: u64, spec: &[u8]) -> Result<oracle::Keyed<'_>, u64> {
    if op > 1 { Err(18) } else { oracle::Keyed::read(op, spec) }
}

impl Comparison {
    /// Whether the crate takes two instructions for equal.
    pub fn asks_the_same(&self, one: &oracle::Keyed, other: &oracle::Keyed) -> bool {
        let unforced = |keyed: &oracle::Keyed| Fields { force: 0, ..keyed.fields() };
        match self.fault {
            Fault::Oracle => unforced(one) == unforced(other),
            _ => one.asks_the_same(other),
        }
    }

    /// The paper's answer.
    pub fn paper(&self, op: u64, spec: &[u8]) -> Result<Keyed, u64> {
        let read = paper::Instruction::read(op, spec)?;
        let mut key = read.text();
        if self.fault == Fault::Paper && read.kind == Kind::PushDelete && spec.starts_with(b"+") {
            key.insert(0, b'+');
        }
        let instruction = Fields {
            kind: read.kind as u64,
            force: read.force.into(),
            source: read.source.map(<[u8]>::to_vec),
            destination: read.destination.map(<[u8]>::to_vec),
        };
        Ok(Keyed { instruction, key })
    }

    /// The archive's answer; or a complaint, if it breaks a rule of the interface.
    pub fn ours(&self, op: u64, spec: &[u8], again: Again) -> Result<Result<Keyed, u64>, String> {
        let lent = Lent::new(spec);
        let spec = lent.bytes();
        let told = (self.entries.instruction)(op, spec);
        let call = |out: &mut [u8]| (self.entries.to_bstring)(op, spec, out);
        let refusal = told.refusal;
        if refusal != 0 {
            alike("instruction", told, raw::Instruction { refusal, ..Default::default() })?;
            let expected = Written { refusal, ..Default::default() };
            refused("to_bstring", &call, &self.noise[..spec.len().min(100)], expected)?;
            return Ok(Err(refusal));
        }
        // The text of a one-sided push is twice the spec.
        let mut key = written("to_bstring", &call, &self.noise[..2 * spec.len() + 16], again)?;
        let (source, destination) = (side(spec, told.source)?, side(spec, told.destination)?);
        if self.fault == Fault::Ours && told.kind == 5 && !spec.contains(&b':') {
            key = source.clone().unwrap_or_default();
        }
        let instruction = Fields { kind: told.kind, force: told.force, source, destination };
        Ok(Ok(Keyed { instruction, key }))
    }
}

/// The bytes of a side, if there is one; or a complaint, if it is no side.
fn side(spec: &[u8], side: raw::Side) -> Result<Option<Vec<u8>>, String> {
    let (start, length) = (side.start as usize, side.length as usize);
    match (side.kind, start, length) {
        (0, 0, 0) => Ok(None),
        (1, ..) => match spec.get(start..).and_then(|rest| rest.get(..length)) {
            Some(bytes) => Ok(Some(bytes.to_vec())),
            None => Err(format!("instruction answers {side:?}, which is outside the spec")),
        },
        (2, 0, 0) => Ok(Some(b"HEAD".to_vec())),
        _ => Err(format!("instruction answers {side:?}, which is no side")),
    }
}
