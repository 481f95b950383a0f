//! Groups as large as they may be, and one step larger.

use super::Lists;
use cases::{Random, group_of};
use vasigmon::list;

/// The limits of document 01.
const SPECS: usize = 256;
const ITEMS: usize = 1024;
const LIST_BYTES: usize = 65_535;
const NAME_BYTES: usize = 4096;

/// How many groups are grown to full size for each operation.
const GROWN: u64 = 4;

/// All lists, for both operations.
pub fn lists(seed: u64) -> Vec<Lists> {
    let mut all = Vec::new();
    for op in [0, 1] {
        all.extend((0..GROWN).map(|number| grown(op, &mut Random::new(seed, number))));
        let pairs = [bytes(), counts(), names(), large(), last_records()].concat();
        all.extend(pairs.into_iter().map(|(specs, items)| Lists { op, specs, items }));
    }
    all
}

/// A group of 256 specs that are accepted and 1,024 items, which fit their lists.
fn grown(op: u64, random: &mut Random) -> Lists {
    let mut group = group_of(op, SPECS, ITEMS, random);
    for spec in &mut group.specs {
        spec.truncate(200);
        if paper::read_spec(op, spec).is_err() {
            *spec = b"refs/heads/a".to_vec();
        }
    }
    group.items.iter_mut().for_each(|item| item.truncate(60));
    let items = list::of(&group.items);
    assert!(items.len() <= LIST_BYTES);
    Lists { op, specs: list::of(&group.specs), items }
}

/// Lists of exactly 65,535 and 65,536 bytes, in all four pairs and beside a small
/// list or a bad one.
fn bytes() -> Vec<(Vec<u8>, Vec<u8>)> {
    let specs = [LIST_BYTES, LIST_BYTES + 1].map(|length| filled(b"refs/heads/*:refs/x/*", length));
    let items = [LIST_BYTES, LIST_BYTES + 1].map(|length| filled(b"refs/heads/a", length));
    let small = list::of([b"refs/heads/*:refs/y/*"]);
    let bad = list::of([b"a".as_slice(), b"a..b"]);
    let pairs = [&specs[0], &specs[1], &small, &bad]
        .map(|specs| [&items[0], &items[1], &small].map(|items| (specs.clone(), items.clone())));
    pairs.concat()
}

/// A list of that many bytes: a text, and names as long as they may be.
fn filled(first: &[u8], length: usize) -> Vec<u8> {
    let mut texts = vec![first.to_vec()];
    let mut left = length - first.len() - 1;
    while left > 0 {
        // A record of 128 bytes or more has a length of two groups. One that would leave
        // a few bytes leaves more, so that the last is such a record too.
        let name = (left - 2).min(if left < NAME_BYTES + 300 { left / 2 } else { NAME_BYTES });
        let name = if left - 2 <= NAME_BYTES { left - 2 } else { name };
        texts.push([b"refs/heads/".as_slice(), &vec![b'f'; name - 11]].concat());
        left -= name + 2;
    }
    let list = list::of(&texts);
    assert_eq!(list.len(), length);
    list
}

/// 256 and 257 specs, 1,024 and 1,025 items; what comes beyond is well formed or not.
fn counts() -> Vec<(Vec<u8>, Vec<u8>)> {
    let specs = list::of((0..SPECS).map(|n| format!("refs/heads/{n}:refs/to/{n}")));
    let items = list::of((0..ITEMS).map(|n| format!("refs/heads/{n}")));
    let mut pairs = vec![(specs.clone(), items.clone())];
    for beyond in [b"\x00".as_slice(), b"\x01a", b"\x02a*", b"\x80", b"\xff\xff\xff\xff", b"\x05a"] {
        pairs.push(([&specs, beyond].concat(), items.clone()));
        pairs.push((specs.clone(), [&items, beyond].concat()));
        pairs.push(([&specs, beyond].concat(), [&items, beyond].concat()));
    }
    pairs.push((list::of([b""; 0]), list::of(vec![b""; ITEMS])));
    pairs
}

/// Names and specs of 4,096 and 4,097 bytes, and the longest rows they give.
fn names() -> Vec<(Vec<u8>, Vec<u8>)> {
    let name = |length: usize| [b"refs/heads/".as_slice(), &vec![b'n'; length - 11]].concat();
    let patterns = list::of([b"*:*".as_slice(), b"refs/*:refs/x/*", b"^refs/heads/no*"]);
    let mut pairs = Vec::new();
    for length in [NAME_BYTES - 1, NAME_BYTES, NAME_BYTES + 1] {
        let (name, short) = (name(length), b"refs/heads/a".to_vec());
        pairs.push((patterns.clone(), list::of([&name])));
        pairs.push((patterns.clone(), list::of([&short, &short, &name])));
        pairs.push((list::of([&name]), list::of([&name])));
        pairs.push((list::of([&short, &name]), list::of([&name, &short])));
    }
    // A capture of 4,096 bytes in a destination of nearly as many.
    let to = |length: usize| [b"*:".as_slice(), &vec![b't'; length - 3], b"*"].concat();
    let back = |length: usize| [&vec![b's'; length - 3], b"*:*".as_slice()].concat();
    let longest = list::of([to(NAME_BYTES), back(NAME_BYTES), to(130), back(130)]);
    let captures = list::of([0, 1, 126, 127, 128, 4095, 4096].map(|length| vec![b'c'; length]));
    pairs.push((longest, captures));
    // Fifteen names of the longest kind on either side.
    let many: Vec<Vec<u8>> = (0..15).map(|n| name(NAME_BYTES - n)).collect();
    pairs.push((list::of(&many), list::of(&many)));
    pairs
}

/// Large answers: every spec matches every item, rows that all repeat one, prefixes
/// that are all different or all the same, object ids alone, negatives.
fn large() -> Vec<(Vec<u8>, Vec<u8>)> {
    let items = list::of((0..ITEMS).map(|n| format!("refs/heads/{n}")));
    let back = list::of((0..ITEMS).map(|n| format!("refs/to/{}/{}", n % 8, n / 8)));
    let patterns = list::of((0..SPECS).map(|n| format!("refs/heads/*:refs/to/{n}/*")));
    let to_one = list::of((0..SPECS).map(|n| format!("from/{n}/*:refs/to/*")));
    let excluded =
        list::of((0..SPECS).map(|n| if n == 7 { "*:*".into() } else { format!("^refs/heads/{n}*") }));
    let objects = list::of((0..SPECS).map(|n| match n % 3 {
        0 => format!("{n:040X}"),
        1 => format!("+{n:040x}:tags/{n}"),
        _ => format!("refs/{n}:{n:040X}"),
    }));
    let partial = list::of((0..SPECS).map(|n| format!("{n}:refs/n/{n}")));
    let same = list::of(vec![b"a:b"; SPECS]);
    let same_items = list::of(vec![b"refs/heads/a"; ITEMS]);
    vec![
        (patterns.clone(), items.clone()),
        (patterns, back.clone()),
        (to_one, back),
        (excluded, items.clone()),
        (objects, items.clone()),
        (partial, items),
        (same, same_items),
    ]
}

/// Each refusal of a record at the last record of a full list.
fn last_records() -> Vec<(Vec<u8>, Vec<u8>)> {
    let specs = list::of(vec![b"a"; SPECS - 1]);
    let items = list::of(vec![b"a"; ITEMS - 1]);
    let long = list::of([vec![b'a'; NAME_BYTES + 1]]);
    let mut pairs = Vec::new();
    for last in [b"\x00".as_slice(), b"\x02a*", b"\x03a:@", b"\x05a", b"\x80", b"\x80\x00", &long] {
        pairs.push(([&specs, last].concat(), items.clone()));
        pairs.push((specs.clone(), [&items, last].concat()));
    }
    pairs
}

#[cfg(test)]
mod tests {
    use super::*;

    #[test]
    fn lists_at_the_limits_are_accepted_and_beyond_them_not() {
        let (mut accepted, mut refused) = (0, [0; 19]);
        for lists in lists(1) {
            match paper::match_lhs(lists.op, &lists.specs, &lists.items) {
                Ok(_) => accepted += 1,
                Err(why) => refused[why.number as usize] += 1,
            }
        }
        assert!(accepted > 40, "{accepted}");
        assert!([1, 6, 12, 13, 14, 15].iter().all(|number| refused[*number] > 0), "{refused:?}");
    }
}
