//! Pairs at the edges: each question of either spec, and texts around 4,096 bytes.

use super::Pair;
use cases::{SPEC_LIMIT, TELLING_SPECS};

/// All pairs of a list of specs.
fn all(specs: &[Vec<u8>]) -> Vec<Pair> {
    let with = |first: &Vec<u8>| {
        let first = first.clone();
        specs.iter().map(move |second| Pair { first: first.clone(), second: second.clone() })
    };
    specs.iter().flat_map(with).collect()
}

/// Each question of either spec, beside any of the other.
pub fn questions() -> Vec<Pair> {
    let long = [&b"a:"[..], &[b'b'; SPEC_LIMIT]].concat();
    all(&TELLING_SPECS.iter().map(|text| text.to_vec()).chain([long]).collect::<Vec<_>>())
}

/// Long starts, ends and literals, of 4,093 to 4,098 bytes, and short ones beside them.
pub fn long() -> Vec<Pair> {
    let forms: [(&[u8], &[u8]); 7] = [
        (b"*:", b"*"),
        (b"*:*", b""),
        (b"*:l*", b""),
        (b"*:", b"*l"),
        (b"a:refs/", b""),
        (b"a:", b""),
        (b"*:refs/", b"*l"),
    ];
    let mut specs: Vec<Vec<u8>> =
        [b"*:*".as_slice(), b"*:refs/*", b"*:*ll", b"a:refs/lll", b"*:refs/heads/l*l"]
            .map(<[u8]>::to_vec)
            .into();
    for length in SPEC_LIMIT - 3..=SPEC_LIMIT + 2 {
        specs.extend(
            forms.map(|(start, end)| [start, &vec![b'l'; length - start.len() - end.len()], end].concat()),
        );
    }
    all(&specs)
}
