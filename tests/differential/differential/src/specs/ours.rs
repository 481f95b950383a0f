//! What the archive answers about one spec: all five entries, and the calls that
//! write with buffers of several lengths. A broken rule of the interface that
//! shows without the crate is a complaint.

use crate::buffers::{Again, Lent, alike, refused, written};
use oracle::{Answer, Side};
use vasigmon::raw::{self, Written};

/// The archive's answers, or its refusal; or a complaint.
pub fn ask(op: u64, spec: &[u8], noise: &[u8]) -> Result<Result<Answer, u64>, String> {
    let lent = Lent::new(spec);
    let spec = lent.bytes();
    let read = raw::parse(op, spec);
    let instruction = raw::instruction(op, spec);
    let prefix = raw::prefix(op, spec);
    let text = |out: &mut [u8]| raw::to_bstring(op, spec, out);
    let list = |out: &mut [u8]| raw::expand_prefixes(op, spec, out);

    let refusal = read.refusal;
    if refusal != 0 {
        alike("parse", read, raw::Spec { refusal, ..Default::default() })?;
        alike("instruction", instruction, raw::Instruction { refusal, ..Default::default() })?;
        alike("prefix", prefix, raw::Prefix { refusal, ..Default::default() })?;
        for length in [0, 1, noise.len().min(spec.len() + 8)] {
            let expected = Written { refusal, ..Default::default() };
            refused("to_bstring", &text, &noise[..length], expected)?;
            refused("expand_prefixes", &list, &noise[..length], expected)?;
        }
        return Ok(Err(refusal));
    }
    alike("instruction's refusal", instruction.refusal, 0)?;
    alike("prefix's refusal", prefix.refusal, 0)?;
    // One-sided push texts are twice the spec, and lists have six candidates.
    let text = written("to_bstring", &text, &noise[..2 * spec.len() + 16], Again::All)?;
    let list = written("expand_prefixes", &list, &noise[..6 * spec.len() + 128], Again::All)?;
    Ok(Ok(Answer {
        mode: read.mode,
        source: side(read.source),
        destination: side(read.destination),
        kind: instruction.kind,
        force: instruction.force,
        instruction_source: side(instruction.source),
        instruction_destination: side(instruction.destination),
        prefix: side(prefix.prefix),
        prefixes: records(&list)?,
        text,
    }))
}

fn side(side: raw::Side) -> Side {
    Side { kind: side.kind, start: side.start, length: side.length }
}

/// The records of a list, whose lengths must be in their shortest form.
pub fn records(list: &[u8]) -> Result<Vec<Vec<u8>>, String> {
    let mut records = Vec::new();
    let mut rest = list;
    while !rest.is_empty() {
        let groups = 1 + rest.iter().take_while(|b| **b >= 0x80).count();
        let length = rest.iter().take(groups).rev().fold(0, |n, b| 128 * n + usize::from(b & 0x7f));
        if groups > 3 || rest.len() < groups + length || (groups > 1 && rest[groups - 1] == 0) {
            return Err(format!("the list {} is malformed", list.escape_ascii()));
        }
        records.push(rest[groups..groups + length].to_vec());
        rest = &rest[groups + length..];
    }
    Ok(records)
}

#[cfg(test)]
mod tests {
    use super::*;

    #[test]
    fn malformed_lists_are_noticed() {
        assert_eq!(records(b"\x01a\x00"), Ok(vec![b"a".to_vec(), vec![]]));
        for list in [b"\x02a".as_slice(), b"\x80", b"\x81\x00a", b"\x80\x80\x80\x01"] {
            assert!(records(list).is_err());
        }
    }
}
