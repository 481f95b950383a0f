//! The entry on rows, and what stands in for it where the comparison itself is tested.

use vasigmon::raw::Validation;

/// The entry, called on slices: operation, specs, rows, and the buffers for rows or
/// conflicts and for fixes.
pub type Entry = fn(u64, &[u8], &[u8], &mut [u8], &mut [u8]) -> Validation;

/// The archive's.
pub const ENTRY: Entry = vasigmon::raw::validated;

/// The paper's reading behind the interface's numbers and buffers.
#[cfg(test)]
pub const MODEL: Entry = |op, specs, rows, out, fixes| match paper::validated(op, specs, rows) {
    Err(why) => super::refusal(why),
    Ok(verdict) => meets(verdict.bytes(), out, fixes),
};

/// How an answer meets its buffers.
#[cfg(test)]
pub fn meets((first, second): (Vec<u8>, Option<Vec<u8>>), out: &mut [u8], fixes: &mut [u8]) -> Validation {
    let short =
        |buffer, need: usize| Validation { refusal: 17, length: need as u64, buffer, ..Default::default() };
    if first.len() > out.len() {
        return short(1, first.len());
    }
    let conflicts = u64::from(second.is_none());
    let second = second.unwrap_or_default();
    if second.len() > fixes.len() {
        return short(2, second.len());
    }
    out[..first.len()].copy_from_slice(&first);
    fixes[..second.len()].copy_from_slice(&second);
    Validation {
        conflicts,
        length: first.len() as u64,
        fixes_length: second.len() as u64,
        ..Default::default()
    }
}
