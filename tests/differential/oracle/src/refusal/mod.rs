//! Which question the crate's error answers. The words of an error tell its number, but
//! not the side that it is about: 5 and 7 have the same words, and 6 and 8 are both an
//! error of gix-validate that the crate passes on.

#[cfg(not(feature = "real-crates"))]
mod address;
#[cfg(any(feature = "real-crates", test))]
mod order;
#[cfg(feature = "real-crates")]
mod real;

#[cfg(not(feature = "real-crates"))]
use address::{of_the_source, words};
#[cfg(feature = "real-crates")]
use real::{of_the_source, words};

/// The number of the question that refuses a spec.
pub(crate) fn refusal(op: u64, spec: &[u8], error: &gix_error::Error) -> u64 {
    let source = || of_the_source(op, spec, error);
    match words(error) {
        None if source() => 6,
        None => 8,
        Some("Empty refspecs are invalid") => 2,
        Some("Negative refspecs cannot have destinations as they exclude sources") => 3,
        Some("Cannot push into an empty destination") => 4,
        Some("refspec patterns may only contain a single '*' character") if source() => 5,
        Some("refspec patterns may only contain a single '*' character") => 7,
        Some("Both sides of a two-sided specification need a pattern, like 'a/*:b/*'") => 9,
        Some("Negative specs must not be empty") => 10,
        Some("Negative specs must not be object hashes") => 11,
        Some(other) => panic!("the crate has an error that no question answers: {other}"),
    }
}

/// The source of a spec as it is spelled: what stands between the sign and the last colon.
fn source(spec: &[u8]) -> &[u8] {
    let rest = &spec[sign(spec)..];
    &rest[..last_colon(rest).unwrap_or(rest.len())]
}

/// How many bytes the leading sign takes.
fn sign(spec: &[u8]) -> usize {
    usize::from(spec.starts_with(b"+") || spec.starts_with(b"^"))
}

fn last_colon(text: &[u8]) -> Option<usize> {
    text.iter().rposition(|b| *b == b':')
}

/// A pattern as the crate puts it to the name rules: with the letter a for its star.
fn with_a_letter(pattern: &[u8]) -> Vec<u8> {
    pattern.iter().map(|b| if *b == b'*' { b'a' } else { *b }).collect()
}
