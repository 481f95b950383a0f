//! One spec, and "the questions, in order".

use crate::name::{side_passes, stars};

/// How a spec is meant.
#[derive(Clone, Copy, Debug, PartialEq, Eq)]
pub enum Mode {
    Normal,
    Force,
    Negative,
}

/// An accepted spec.
#[derive(Clone, Debug, PartialEq, Eq)]
pub struct Spec<'a> {
    pub mode: Mode,
    pub source: Option<&'a [u8]>,
    pub destination: Option<&'a [u8]>,
    /// How many bytes the leading sign takes: "a source begins after" it.
    pub sign: usize,
}

/// Reads a spec, or answers the number of the first question whose answer is no.
pub fn read_spec(op: u64, spec: &[u8]) -> Result<Spec<'_>, u64> {
    if op > 1 {
        return Err(18);
    }
    let push = op == 1;
    if spec.len() > 4096 {
        return Err(1);
    }
    if push && spec.is_empty() {
        return Err(2);
    }

    // "One leading `^` or `+` is taken off; the rest splits at its last colon. An
    // empty side is absent."
    let mode = match spec.first() {
        Some(b'^') => Mode::Negative,
        Some(b'+') => Mode::Force,
        _ => Mode::Normal,
    };
    let negative = mode == Mode::Negative;
    let sign = usize::from(mode != Mode::Normal);
    let rest = &spec[sign..];
    let colon = rest.iter().rposition(|byte| *byte == b':');
    let (before, after) = match colon {
        Some(colon) => (&rest[..colon], &rest[colon + 1..]),
        None => (rest, b"".as_slice()),
    };
    let mut source = Some(before).filter(|side| !side.is_empty());
    let destination = Some(after).filter(|side| !side.is_empty());

    if negative && colon.is_some() {
        return Err(3);
    }
    if push && colon.is_some() && source.is_some() && destination.is_none() {
        return Err(4);
    }

    // "In fetch, an absent source that is not negative becomes `HEAD`. A source `@`
    // becomes `HEAD` in all modes."
    if source == Some(b"@") || (!push && !negative && source.is_none()) {
        source = Some(b"HEAD");
    }

    // "A push source with a destination and no star skips the name rules."
    let exempt = push && destination.is_some() && source.is_some_and(|side| stars(side) == 0);
    if let Some(side) = source {
        if stars(side) > 1 {
            return Err(5);
        }
        if !exempt && !side_passes(side) {
            return Err(6);
        }
    }
    if let Some(side) = destination {
        if stars(side) > 1 {
            return Err(7);
        }
        if !side_passes(side) {
            return Err(8);
        }
    }

    let starred = |side: Option<&[u8]>| side.is_some_and(|side| stars(side) > 0);
    let asked = !(negative || push && destination.is_none());
    if asked && starred(source) != starred(destination) {
        return Err(9);
    }
    if negative {
        let Some(source) = source else { return Err(10) };
        if source.len() >= 40 && source.iter().all(u8::is_ascii_hexdigit) {
            return Err(11);
        }
    }
    Ok(Spec { mode, source, destination, sign })
}

#[cfg(test)]
mod tests {
    use super::*;

    fn refusal(op: u64, spec: &[u8]) -> u64 {
        read_spec(op, spec).err().unwrap_or(0)
    }

    /// "Specs and what they become", as far as reading goes.
    #[test]
    fn the_table() {
        assert_eq!(read_spec(0, b"").unwrap().source, Some(b"HEAD".as_slice()));
        assert_eq!(refusal(1, b""), 2);
        assert_eq!(refusal(0, b"^"), 10);
        assert_eq!(refusal(0, b"^a:b"), 3);
        assert_eq!((refusal(1, b"a:"), refusal(0, b"a:")), (4, 0));
        assert_eq!((refusal(0, b"a*:b"), refusal(0, b"a*"), refusal(1, b"a*")), (9, 9, 0));
        assert_eq!(refusal(0, b"a**:b*"), 5);
        assert_eq!(refusal(1, b"+:d"), 0);
        assert_eq!(read_spec(0, b"++a").unwrap().source, Some(b"+a".as_slice()));
        assert_eq!(read_spec(1, b":/fix:refs/heads/b").unwrap().source, Some(b":/fix".as_slice()));
        assert_eq!(refusal(0, b"a:@"), 8);
        let digits = [b'a'; 4098];
        assert_eq!(refusal(0, &[b"^", &digits[..39]].concat()), 0);
        assert_eq!(refusal(0, &[b"^", &digits[..40]].concat()), 11);
        assert_eq!((refusal(0, &digits[..4096]), refusal(0, &digits[..4097])), (0, 1));
        assert_eq!(refusal(2, &digits), 18);
    }
}
