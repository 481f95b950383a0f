//! Document 02, W1: "Can two specs ever collide?"

use crate::{
    Mode, Spec,
    group::completed,
    name::{capture, halves},
    read_spec,
};

/// Why one of two specs is refused.
#[derive(Clone, Copy, Debug, PartialEq, Eq)]
pub struct RefusedSpec {
    /// The number of the first question whose answer is no.
    pub number: u64,
    /// The spec that it was asked of: 1 or 2.
    pub which: u64,
}

/// What may be written: a name, or each name that a pattern matches.
enum Written<'a> {
    Name(Vec<u8>),
    Pattern(&'a [u8], &'a [u8]),
}

/// "Can some name under the first and some name under the second be written to one
/// destination? [..] A yes comes with a colliding destination [..]. A no means that none
/// exists. The first spec's questions come before the second's."
pub fn collide(first: &[u8], second: &[u8]) -> Result<Option<Vec<u8>>, RefusedSpec> {
    let first = read_spec(0, first).map_err(|number| RefusedSpec { number, which: 1 })?;
    let second = read_spec(0, second).map_err(|number| RefusedSpec { number, which: 2 })?;
    let (Some(first), Some(second)) = (written(&first), written(&second)) else { return Ok(None) };
    Ok(common(first, second))
}

/// "A spec that is negative or has no destination collides with nothing. [..] Literal
/// destinations count in their completed form." Some name is under each source, and for a
/// pattern a name with each capture: "the names may be any bytes of any length".
fn written<'a>(spec: &Spec<'a>) -> Option<Written<'a>> {
    let destination = spec.destination.filter(|_| spec.mode != Mode::Negative)?;
    Some(match halves(destination) {
        Some((start, end)) => Written::Pattern(start, end),
        None => Written::Name(completed(destination)),
    })
}

/// "Two patterns collide exactly if one start begins the other and one end closes the other.
/// [..] The longer start followed by the longer end, or the literal."
fn common(first: Written, second: Written) -> Option<Vec<u8>> {
    match (first, second) {
        (Written::Name(one), Written::Name(other)) => (one == other).then_some(one),
        (Written::Name(name), Written::Pattern(start, end))
        | (Written::Pattern(start, end), Written::Name(name)) => {
            capture((start, end), &name).is_some().then_some(name)
        }
        (Written::Pattern(start, end), Written::Pattern(other_start, other_end)) => {
            let [start, other_start] = by_length(start, other_start);
            let [end, other_end] = by_length(end, other_end);
            let together = start.starts_with(other_start) && end.ends_with(other_end);
            together.then(|| [start, end].concat())
        }
    }
}

/// The longer of two texts, then the other.
fn by_length<'a>(one: &'a [u8], other: &'a [u8]) -> [&'a [u8]; 2] {
    if one.len() > other.len() { [one, other] } else { [other, one] }
}

#[cfg(test)]
mod tests {
    use super::*;

    const DIGITS: &str = "0123456789ABCDEF0123456789abcdef01234567";

    /// The destination that is told, in either order.
    fn on(first: &str, second: &str) -> Option<String> {
        let told = collide(first.as_bytes(), second.as_bytes()).unwrap();
        assert_eq!(collide(second.as_bytes(), first.as_bytes()), Ok(told.clone()));
        told.map(|destination| String::from_utf8(destination).unwrap())
    }

    fn yes(destination: &str) -> Option<String> {
        Some(destination.to_owned())
    }

    #[test]
    fn two_patterns() {
        assert_eq!(on("*:refs/a/*", "*:refs/*"), yes("refs/a/"));
        assert_eq!(on("*:refs/a*", "*:refs/b*"), None);
        assert_eq!(on("*:refs/a*x", "*:refs/a*y"), None);
        assert_eq!(on("*:ab*c", "*:a*bc"), yes("abbc"), "abc is shared too, and not told");
        assert_eq!(on("*:ab*", "*:*ba"), yes("abba"));
        assert_eq!(on("*:a*a", "*:a*a"), yes("aa"));
        assert_eq!(on("*:*", "a*:*"), yes(""), "a yes with no bytes");
    }

    #[test]
    fn patterns_are_not_completed() {
        assert_eq!(on("*:tags/*", "*:refs/tags/*"), None);
        assert_eq!(on("*:*", "a:tags/b"), yes("refs/tags/b"));
        assert_eq!(on("*:tags/*", "a:tags/b"), None);
    }

    #[test]
    fn literals_in_their_completed_form() {
        assert_eq!(on("a:b", "c:refs/heads/b"), yes("refs/heads/b"));
        assert_eq!(on("a:tags/b", "c:refs/tags/b"), yes("refs/tags/b"));
        assert_eq!(on("a:remotes/b", "c:refs/remotes/b"), yes("refs/remotes/b"));
        assert_eq!(on("a:heads/b", "c:refs/heads/b"), None);
        assert_eq!(on("a:HEAD", "c:refs/heads/HEAD"), yes("refs/heads/HEAD"));
        let lower = format!("refs/heads/{}", DIGITS.to_lowercase());
        assert_eq!(on(&format!("a:{DIGITS}"), "*:refs/heads/*"), yes(&lower));
        assert_eq!(on(&format!("a:{DIGITS}"), &format!("b:{lower}")), yes(&lower));
        assert_eq!(on(&format!("a:{DIGITS}"), &format!("b:refs/heads/{DIGITS}")), None);
        assert_eq!(on(&format!("a:{DIGITS}0"), &format!("b:{}0", DIGITS.to_lowercase())), None);
    }

    #[test]
    fn a_literal_and_a_pattern() {
        assert_eq!(on("a:refs/aba", "*:refs/ab*ba"), None);
        assert_eq!(on("a:refs/abba", "*:refs/ab*ba"), yes("refs/abba"));
        assert_eq!(on("a:refs/b", "*:refs/a*"), None);
    }

    #[test]
    fn any_source_counts_and_the_name_may_be_one() {
        assert_eq!(on("refs/a:refs/x", "refs/a:refs/x"), yes("refs/x"));
        assert_eq!(on(&format!("{DIGITS}:x"), "+b:x"), yes("refs/heads/x"));
        assert_eq!(on(":x", "@:x"), yes("refs/heads/x"));
    }

    #[test]
    fn specs_that_write_nowhere() {
        for spec in ["^a*", "^a", "a", "a:", "", "+", DIGITS] {
            assert_eq!(on(spec, "*:*"), None);
            assert_eq!(on(spec, spec), None);
        }
    }

    #[test]
    fn the_first_is_asked_first() {
        let refused = |number, which| Err(RefusedSpec { number, which });
        assert_eq!(collide(b"a*:b", b"^a:b"), refused(9, 1));
        assert_eq!(collide(b"a:b", b"^a:b"), refused(3, 2));
        assert_eq!(collide(b"^", &[b'a'; 4097]), refused(10, 1));
        assert_eq!(collide(b"^a", &[b'a'; 4097]), refused(1, 2));
        assert_eq!(collide(b"", b"a:"), Ok(None), "2 and 4 are asked of a push");
    }

    #[test]
    fn long_texts() {
        let letters = "l".repeat(4093);
        let told = on(&format!("*:{letters}*"), &format!("*:*{letters}"));
        assert_eq!(told, yes(&letters.repeat(2)));
        let name = "l".repeat(4094);
        assert_eq!(on(&format!("a:{name}"), "*:*"), Some(format!("refs/heads/{name}")));
    }
}
