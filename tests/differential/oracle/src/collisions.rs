//! Where a fetch spec writes, by gix-refspec's forward mapping. The crate has no report on
//! two specs: what they share is found by trying names.

use crate::Group;
use std::{collections::BTreeSet, iter};

/// A spec that the crate has read for fetch.
pub struct FetchSpec<'a>(Group<'a>);

impl<'a> FetchSpec<'a> {
    /// Reads a spec, or answers the number of the question that refuses it.
    pub fn read(text: &'a [u8]) -> Result<FetchSpec<'a>, u64> {
        Group::read(0, iter::once(text)).map(FetchSpec).map_err(|(_, number)| number)
    }

    /// The destinations to which `match_lhs` maps these names and, if the source is an
    /// object id, that.
    pub fn destinations(&self, names: &[&[u8]]) -> BTreeSet<Vec<u8>> {
        self.0.match_lhs(names).into_iter().filter_map(|row| row.destination).collect()
    }

    fn source(&self) -> &[u8] {
        self.0.specs[0].source().map_or(b"", |side| &**side)
    }

    fn destination(&self) -> &[u8] {
        self.0.specs[0].destination().map_or(b"", |side| &**side)
    }

    /// Names that may be mapped to these destinations: the source itself; of a pattern, for
    /// each destination the source with what is left in the middle of it in place of its star.
    fn names_for(&self, destinations: &BTreeSet<Vec<u8>>) -> Vec<Vec<u8>> {
        let mut names = vec![self.source().to_vec()];
        if let (Some((start, end)), Some((before, after))) =
            (halves(self.source()), halves(self.destination()))
        {
            let middle = |text: &'_ Vec<u8>| {
                let left = text.get(before.len()..text.len().checked_sub(after.len())?)?;
                Some([start, left, end].concat())
            };
            names.extend(destinations.iter().filter_map(middle));
        }
        names
    }
}

/// Destinations that two specs share; at least one, if they share any.
///
/// Two patterns that share a destination share one that is the start of one of them followed
/// by the end of one of them: the longer start and the longer end of those that the shared
/// destination has. A literal shares itself or nothing. So it is enough to try names that may
/// be mapped to these.
pub fn shared(first: &FetchSpec, second: &FetchSpec) -> BTreeSet<Vec<u8>> {
    let specs = [first, second];
    let mut likely: BTreeSet<Vec<u8>> =
        specs.iter().flat_map(|spec| spec.destinations(&[spec.source()])).collect();
    let stars: Vec<_> = specs.iter().filter_map(|spec| halves(spec.destination())).collect();
    for (start, _) in &stars {
        likely.extend(stars.iter().map(|(_, end)| [start, *end].concat()));
    }
    let [one, other] = specs.map(|spec| {
        let names = spec.names_for(&likely);
        spec.destinations(&names.iter().map(Vec::as_slice).collect::<Vec<_>>())
    });
    &one & &other
}

/// What stands before and after a star.
fn halves(text: &[u8]) -> Option<(&[u8], &[u8])> {
    let star = text.iter().position(|byte| *byte == b'*')?;
    Some((&text[..star], &text[star + 1..]))
}

#[cfg(test)]
mod tests {
    use super::*;

    const DIGITS: &str = "ABCDEFabcdef0123456789ABCDEFabcdef012345";

    fn both(first: &str, second: &str) -> Vec<String> {
        let [first, second] = [first, second].map(|text| FetchSpec::read(text.as_bytes()).ok().unwrap());
        shared(&first, &second).into_iter().map(|text| String::from_utf8(text).unwrap()).collect()
    }

    #[test]
    fn what_is_shared_is_found() {
        assert!(both("a*:ab*c", "*b:a*bc").contains(&"abbc".to_owned()));
        assert_eq!(both("x:refs/abba", "y*:refs/ab*ba"), ["refs/abba"]);
        assert_eq!(both(":b", "*:refs/heads/*"), ["refs/heads/b"]);
        assert_eq!(both(&format!("{DIGITS}:tags/b"), "x:refs/tags/b"), ["refs/tags/b"]);
        let lower = format!("refs/heads/{}", DIGITS.to_lowercase());
        assert_eq!(both(&format!("x:{DIGITS}"), &format!("y:{lower}")), [lower]);
        assert!(both("*:*", "*:*").contains(&String::new()));
    }

    #[test]
    fn nothing_is_shared() {
        for (first, second) in [
            ("*:a*", "*:b*"),
            ("*:*a", "*:*b"),
            ("x:refs/aba", "*:refs/ab*ba"),
            ("^a", "*:*"),
            ("a", "*:*"),
            ("a:tags/b", "*:tags/*"),
        ] {
            assert!(both(first, second).is_empty() && both(second, first).is_empty(), "{first} {second}");
        }
        assert_eq!(FetchSpec::read(b"a*:b").err(), Some(9));
    }
}
