//! Good lists of specs and items, to be damaged.

use crate::damage::Pair;
use vasigmon::list;

/// The good lists.
pub fn pairs() -> Vec<Pair> {
    let pair = |op, specs: &[Vec<u8>], items: &[Vec<u8>]| (op, list::of(specs), list::of(items));
    good().iter().flat_map(|(ops, specs, items)| ops.iter().map(move |op| pair(*op, specs, items))).collect()
}

/// The good lists: the operations they are read for, the specs' texts and the items'.
fn good() -> Vec<(&'static [u64], Vec<Vec<u8>>, Vec<Vec<u8>>)> {
    let (fetch, push, both) = ([0].as_slice(), [1].as_slice(), [0, 1].as_slice());
    let texts = |texts: &[&[u8]]| texts.iter().map(|text| text.to_vec()).collect::<Vec<_>>();
    let digits = b"0123456789ABCDEF0123456789abcdef01234567";
    let of_length = |length: usize| [b"refs/".as_slice(), &vec![b'l'; length - 5]].concat();
    vec![
        // The sample of document 01.
        (
            both,
            texts(&[b"+refs/heads/*:refs/remotes/hub/*", b"^refs/heads/tmp*"]),
            texts(&[b"refs/heads/codes", b"refs/heads/tmp1"]),
        ),
        // Object ids, texts of no bytes, both directions.
        (
            fetch,
            texts(&[
                b"a:b",
                &[&digits[..], b":tags/c"].concat(),
                b"*a:b*",
                b"",
                &[b"+", &digits[..]].concat(),
            ]),
            texts(&[b"", b"refs/heads/a", b"aa", b"bb", b"HEAD"]),
        ),
        // Every kind of push.
        (
            push,
            texts(&[b"+a", b":d", b":", b"a~1:refs/b", b"a*", b"^a/b", b"@:c", b"+"]),
            texts(&[b"a", b"a/b", b"d", b"c", b"b"]),
        ),
        // Many records, whose numbers have two groups.
        (both, vec![b"a".to_vec(); 130], texts(&[b"a"])),
        (both, texts(&[b"*1:*2", b"^1*"]), (0..130).map(|n| vec![b'0' + n % 10]).collect()),
        // Lengths of two groups, at their edges.
        (both, [127, 128, 129, 300].map(of_length).to_vec(), [127, 128, 129, 300].map(of_length).to_vec()),
        // A length of three groups: well formed, and above the limit of a spec or a name.
        (both, vec![b"a".to_vec(), of_length(16_390)], texts(&[b"a"])),
        (both, texts(&[b"a"]), vec![b"a".to_vec(), of_length(16_390)]),
    ]
}

#[cfg(test)]
mod tests {
    use super::*;

    #[test]
    fn good_lists_are_good() {
        let refused: Vec<u64> = pairs()
            .iter()
            .filter_map(|(op, specs, items)| paper::match_lhs(*op, specs, items).err())
            .map(|why| why.number)
            .collect();
        assert_eq!(refused, [1, 1, 15, 15], "all but the last two, for either operation");
    }
}
