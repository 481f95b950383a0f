//! Records of pairs of fetch specs: whether they collide, as the crate's forward mapping of
//! names shows it, or which of them the crate refuses.

use crate::{SEED, text};
use cases::{Random, SPEC_LIMIT, TELLING_SPECS, pair};
use oracle::FetchSpec;
use std::collections::BTreeSet;

/// How many grown pairs are recorded, and the most bytes of one.
const GROWN: usize = 500;
const USUAL: usize = 300;

type Pair = [Vec<u8>; 2];

/// The records of all pairs, each pair once.
pub fn records() -> Vec<Vec<u8>> {
    let mut seen = BTreeSet::new();
    let grown = (0..).map(|number| pair(&mut Random::new(SEED, number)));
    let short = grown.filter(|pair| record(pair).len() <= USUAL);
    let mut recorded: Vec<Pair> = questions().chain(named()).chain(long()).collect();
    recorded.retain(|pair| seen.insert(pair.clone()));
    recorded.extend(short.filter(|pair| seen.insert(pair.clone())).take(GROWN));
    recorded.iter().map(record).collect()
}

/// Each question of either spec, beside any of the other.
fn questions() -> impl Iterator<Item = Pair> {
    let with = |first: &'static &[u8]| TELLING_SPECS.iter().map(|second| [first.to_vec(), second.to_vec()]);
    TELLING_SPECS.iter().flat_map(with)
}

/// The named pairs, in either order, and each spec with itself.
fn named() -> impl Iterator<Item = Pair> {
    NAMED.iter().flat_map(|(first, second)| {
        let [first, second] = [first, second].map(|text| spelt(text));
        [
            [first.clone(), second.clone()],
            [second.clone(), first.clone()],
            [first.clone(), first],
            [second.clone(), second],
        ]
    })
}

/// A text with the digits of an object id in place of `U`, and of the same in lower case in
/// place of `L`.
fn spelt(text: &str) -> Vec<u8> {
    let digits = "0123456789ABCDEF0123456789abcdef01234567";
    text.replace('U', digits).replace('L', &digits.to_lowercase()).into_bytes()
}

/// Texts just below the limit: a destination of nearly two specs' length, one that is
/// completed beyond the limit, and a no.
fn long() -> impl Iterator<Item = Pair> {
    let filled =
        |start: &[u8], end: &[u8]| [start, &vec![b'l'; SPEC_LIMIT - start.len() - end.len()], end].concat();
    [
        [filled(b"*:", b"*"), filled(b"*:*", b"")],
        [filled(b"a:", b""), b"*:refs/heads/l*l".to_vec()],
        [b"*:refs/heads/*".to_vec(), filled(b"*:", b"*a")],
    ]
    .into_iter()
}

/// What document 02 speaks of.
const NAMED: [(&str, &str); 44] = [
    // Two patterns: the longer start followed by the longer end, or none.
    ("refs/heads/*:refs/hub/*", "refs/tags/*:refs/hub/*"),
    ("refs/heads/*:refs/*", "refs/tags/*:refs/hub/*"),
    ("refs/a*:refs/a*b", "refs/*:refs/ab*"),
    ("+refs/heads/*:refs/remotes/hub/*", "refs/*/main:refs/remotes/*/main"),
    ("*:a*b", "*:*xb"),
    ("*:ab*c", "*:a*bc"),
    ("*:ab*", "*:*ba"),
    ("*:a*a", "a*a:a*"),
    ("*:refs/a*", "*:refs/b*"),
    ("*:refs/a*x", "*:refs/a*y"),
    ("*:abc*", "*:abd*"),
    ("*:*cba", "*:*dba"),
    // A destination of no bytes.
    ("*:*", "a*:*"),
    ("a*a:*", "+*:*"),
    // A pattern is not completed.
    ("*:tags/*", "*:refs/tags/*"),
    ("*:tags/*", "a:tags/b"),
    ("*:heads/*", "a:refs/heads/b"),
    // A literal is: in one way or another.
    ("a:b", "c:refs/heads/b"),
    ("a:tags/b", "c:refs/tags/b"),
    ("a:remotes/b", "c:refs/remotes/b"),
    ("a:heads/b", "c:refs/heads/b"),
    ("a:heads/b", "c:refs/heads/heads/b"),
    ("a:b", "c:tags/b"),
    ("a:HEAD", "c:refs/heads/HEAD"),
    ("a:refs/b", "c:refs/heads/refs/b"),
    ("a:tags/b", "*:*"),
    ("a:b", "*:refs/heads/*"),
    ("a:b", "*:b*"),
    // An object id: as a source, and as a destination in either case.
    ("U:x", "b:x"),
    ("L:tags/x", "U:refs/tags/x"),
    ("a:U", "b:L"),
    ("a:U", "b:refs/heads/L"),
    ("a:U", "b:refs/heads/U"),
    ("a:U", "*:refs/heads/*"),
    ("a:U0", "b:L0"),
    ("a:tags/U", "b:refs/tags/L"),
    // A literal that a pattern matches, or misses by overlap.
    ("a:refs/abba", "*:refs/ab*ba"),
    ("a:refs/aba", "*:refs/ab*ba"),
    ("a:aa", "*:refs/heads/a*a"),
    ("a:a", "*:refs/heads/a*a"),
    // A negative spec, and one without a destination.
    ("^refs/x", "a:refs/x"),
    ("^refs/*", "*:refs/*"),
    ("refs/x", ":refs/x"),
    ("U", "a:"),
];

/// One record.
fn record(pair: &Pair) -> Vec<u8> {
    let [first, second] = pair;
    let mut out = Vec::new();
    text(&mut out, first);
    text(&mut out, second);
    let (numbers, destination) = match report(first, second) {
        Err((number, which)) => ([number as u8, which, 0], vec![]),
        Ok(None) => ([0, 0, 0], vec![]),
        Ok(Some(destination)) => ([0, 0, 1], destination),
    };
    out.extend(numbers);
    text(&mut out, &destination);
    out
}

/// The crate's refusal and the spec that it is of, or the destination that both write to.
fn report(first: &[u8], second: &[u8]) -> Result<Option<Vec<u8>>, (u64, u8)> {
    let one = FetchSpec::read(first).map_err(|number| (number, 1))?;
    let other = FetchSpec::read(second).map_err(|number| (number, 2))?;
    let told = paper::collide(first, second).expect("the paper accepts what the crate accepts");
    Ok(agreed(told, &oracle::shared(&one, &other)))
}

/// A destination that is told, where the crate maps names of both specs to it; or none, where
/// it maps no names of both to one.
fn agreed(told: Option<Vec<u8>>, shared: &BTreeSet<Vec<u8>>) -> Option<Vec<u8>> {
    match &told {
        Some(destination) => assert!(shared.contains(destination), "the crate maps names of both to it"),
        None => assert!(shared.is_empty(), "the crate maps no names of both to one"),
    }
    told
}

#[cfg(test)]
mod tests {
    use super::*;

    fn of(first: &str, second: &str) -> String {
        record(&[first, second].map(spelt)).escape_ascii().to_string()
    }

    #[test]
    fn a_record_of_each_kind() {
        let is = |first, second, expected: &[u8]| {
            assert_eq!(of(first, second), expected.escape_ascii().to_string())
        };
        is("a:b", "*:*", b"\x03\x00a:b\x03\x00*:*\x00\x00\x01\x0c\x00refs/heads/b");
        is("*:*", "*:*", b"\x03\x00*:*\x03\x00*:*\x00\x00\x01\x00\x00");
        is("^a", "*:*", b"\x02\x00^a\x03\x00*:*\x00\x00\x00\x00\x00");
        is("a:@", "^", b"\x03\x00a:@\x01\x00^\x08\x01\x00\x00\x00");
        is("", "^", b"\x00\x00\x01\x00^\x0a\x02\x00\x00\x00");
    }

    #[test]
    #[should_panic = "names of both to it"]
    fn a_destination_to_which_the_crate_maps_nothing_is_not_recorded() {
        agreed(Some(b"a".to_vec()), &BTreeSet::from([b"b".to_vec()]));
    }

    #[test]
    #[should_panic = "no names of both"]
    fn a_no_is_not_recorded_where_the_crate_maps_names_of_both_to_one() {
        agreed(None, &BTreeSet::from([b"b".to_vec()]));
    }

    #[test]
    fn some_hundreds_of_records_with_each_answer_often() {
        let records = records();
        let bytes: usize = records.iter().map(Vec::len).sum();
        assert!(records.len() > 800 && bytes < 150_000, "{} records, {bytes} bytes", records.len());
        let answer = |record: &Vec<u8>| {
            let after = |at: usize| at + 2 + usize::from(record[at]) + 256 * usize::from(record[at + 1]);
            record[after(after(0))..][..3].to_vec()
        };
        let often = |found: fn(&[u8]) -> bool| records.iter().filter(|record| found(&answer(record))).count();
        let counts = [
            often(|answer| answer == [0, 0, 1]),
            often(|answer| answer == [0, 0, 0]),
            often(|answer| answer[1] == 1),
            often(|answer| answer[1] == 2),
        ];
        assert!(counts.iter().all(|count| *count > 60), "{counts:?}");
    }
}
