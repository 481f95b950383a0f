//! The entries that tell a spec's instruction and its key, and what stands in for them where
//! the comparison itself is tested.

use vasigmon::raw::{self, Written};

/// Both entries, called on slices.
#[derive(Clone, Copy)]
pub struct Entries {
    pub instruction: Told,
    pub to_bstring: Text,
}

/// A call that tells an instruction.
pub type Told = fn(u64, &[u8]) -> raw::Instruction;

/// A call that writes a key.
pub type Text = fn(u64, &[u8], &mut [u8]) -> Written;

/// The archive's.
pub const ENTRIES: Entries = Entries { instruction: raw::instruction, to_bstring: raw::to_bstring };

/// The paper's reading behind the interface's numbers and buffers.
#[cfg(test)]
pub const MODEL: Entries = Entries {
    instruction: |op, spec| match paper::Instruction::read(op, spec) {
        Err(refusal) => raw::Instruction { refusal, ..Default::default() },
        Ok(read) => raw::Instruction {
            refusal: 0,
            kind: read.kind as u64,
            force: read.force.into(),
            source: place(spec, read.source),
            destination: place(spec, read.destination),
        },
    },
    to_bstring: |op, spec, out| match paper::Instruction::read(op, spec).map(|read| read.text()) {
        Err(refusal) => Written { refusal, ..Default::default() },
        Ok(text) if text.len() > out.len() => Written { refusal: 17, record: 0, length: text.len() as u64 },
        Ok(text) => {
            out[..text.len()].copy_from_slice(&text);
            Written { refusal: 0, record: 0, length: text.len() as u64 }
        }
    },
};

/// Where a side stands in the spec; elsewhere stands the `HEAD` that is supplied.
#[cfg(test)]
fn place(spec: &[u8], side: Option<&[u8]>) -> raw::Side {
    let Some(side) = side else { return raw::Side::default() };
    match side.as_ptr().addr().checked_sub(spec.as_ptr().addr()) {
        Some(start) if start < spec.len() => {
            raw::Side { kind: 1, start: start as u64, length: side.len() as u64 }
        }
        _ => raw::Side { kind: 2, ..Default::default() },
    }
}
