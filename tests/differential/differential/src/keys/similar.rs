//! Specs that are easily taken for each other, and those whose keys are as long as a spec may
//! be, or longer.

use cases::SPEC_LIMIT;
use std::collections::BTreeSet;

/// Specs of few bytes, with some that are refused.
const SHORT: [&[u8]; 84] = [
    // One side, and that side twice.
    b"a",
    b"a:a",
    b"+a",
    b"+a:a",
    b"a:b",
    b"b:a",
    b"+a:b",
    b"a:",
    b"+a:",
    b":a",
    // No side.
    b"",
    b"+",
    b":",
    b"+:",
    b"^",
    // A destination alone.
    b":b",
    b"+:b",
    b":d",
    b"+:d",
    b":+b",
    b"+:+b",
    // The supplied `HEAD` and the spelled one.
    b"@",
    b"HEAD",
    b"+@",
    b"+HEAD",
    b"^@",
    b"^HEAD",
    b"@:b",
    b"HEAD:b",
    b"+@:b",
    b"+HEAD:b",
    b"@:",
    b"HEAD:",
    b"@:HEAD",
    b"HEAD:HEAD",
    b"HEAD:@",
    b"@:@",
    // Colons in a source.
    b"::b",
    b"+::b",
    b":::b",
    b":/fix:b",
    b"a:b:c",
    b":a:b",
    b"a::b",
    b"^:a",
    b"^a:b",
    // Pluses and carets in a source.
    b"++a:b",
    b"++a:",
    b"++a",
    b"++a:+a",
    b"+a:+a",
    b"a:+a",
    b"+++a:b",
    b"+++a",
    b"++",
    b"++:",
    b"++:b",
    b"++@",
    b"++@:b",
    b"++HEAD",
    b"++.a",
    b"+.a",
    b".a",
    b"++.a:",
    b"+^a:b",
    b"+^a",
    b"+^:b",
    b"^+a",
    b"^++a",
    b"^a",
    b"^^a",
    // Stars.
    b"a*",
    b"a*:a*",
    b"+a*",
    b"+a*:a*",
    b"a*:b*",
    b"b*:a*",
    b"++*:*",
    b"*",
    b"*:*",
    b"^*",
    b"a*:b",
    // Object ids: the case of their digits is that of the spec.
    b"0123456789abcdef0123456789abcdef01234567:b",
    b"0123456789ABCDEF0123456789abcdef01234567:b",
];

/// The specs of few bytes.
pub fn short() -> Vec<Vec<u8>> {
    SHORT.iter().map(|spec| spec.to_vec()).collect()
}

/// A beginning and so many letters behind it.
fn letters(start: &[u8], count: usize) -> Vec<u8> {
    [start, &vec![b'l'; count]].concat()
}

/// One-sided specs: of 2,047 letters a push has a key of 4,095 bytes, of 2,048 one of 4,097,
/// and of 4,096 one of 8,193. Beyond that only the crate accepts them.
fn one_sided() -> impl Iterator<Item = Vec<u8>> {
    let half = SPEC_LIMIT / 2;
    let counts = [half - 1, half, SPEC_LIMIT - 2, SPEC_LIMIT - 1, SPEC_LIMIT, SPEC_LIMIT + 1, 65_536];
    counts.into_iter().flat_map(|count| [b"".as_slice(), b"+", b"++"].map(|sign| letters(sign, count)))
}

/// The same side twice, which are the keys of one-sided pushes.
fn twice() -> impl Iterator<Item = Vec<u8>> {
    let half = SPEC_LIMIT / 2;
    [half - 1, half].into_iter().flat_map(|count| {
        let side = letters(b"", count);
        [b"".as_slice(), b"+"].map(|sign| [sign, &side, b":", &side].concat())
    })
}

/// Every spelling of `HEAD` before a destination that makes the key of 4,095 to 4,097 bytes;
/// and the longest that are accepted.
fn with_head() -> impl Iterator<Item = Vec<u8>> {
    let starts: [&[u8]; 6] = [b":", b"@:", b"HEAD:", b"+:", b"+@:", b"+HEAD:"];
    starts.into_iter().flat_map(|start| {
        let head = if start.starts_with(b"+") { "+HEAD:".len() } else { "HEAD:".len() };
        let near = (SPEC_LIMIT - 1..=SPEC_LIMIT + 1).map(move |length| letters(start, length - head));
        near.chain([letters(start, SPEC_LIMIT - start.len())])
    })
}

/// Long keys, some of which do not fit a spec, and specs that only the crate accepts.
fn long() -> impl Iterator<Item = Vec<u8>> {
    one_sided().chain(twice()).chain(with_head())
}

/// All of them, each once.
pub fn all() -> Vec<Vec<u8>> {
    let once: BTreeSet<_> = short().into_iter().chain(long()).collect();
    once.into_iter().collect()
}

#[cfg(test)]
mod tests {
    use super::*;

    /// The lengths of the long keys of an operation.
    fn lengths(op: u64, specs: impl Iterator<Item = Vec<u8>>) -> Vec<usize> {
        let keys = specs.filter_map(|spec| Some(paper::Instruction::read(op, &spec).ok()?.text().len()));
        let mut lengths: Vec<usize> = keys.collect();
        lengths.sort();
        lengths.dedup();
        lengths
    }

    #[test]
    fn keys_are_as_long_as_a_spec_may_be_and_longer() {
        assert_eq!(lengths(0, with_head()), [4095, 4096, 4097, 4099, 4100]);
        let pushed = lengths(1, one_sided());
        assert!([4095, 4096, 4097, 8193].iter().all(|length| pushed.contains(length)), "{pushed:?}");
        assert_eq!(lengths(0, one_sided()).last(), Some(&4096));
        assert!(one_sided().chain(twice()).any(|spec| spec.len() > SPEC_LIMIT));
    }
}
