//! Simpler copies of a case that shows a difference.

use crate::specs::records;
use cases::{short_text, short_texts};
use std::time::{Duration, Instant};
use vasigmon::list;

/// How long two smaller texts are looked for.
const PATIENCE: Duration = Duration::from_secs(20);

/// Copies of a list without a run of its elements, longer runs first.
pub fn shorter<T: Clone>(list: &[T]) -> impl Iterator<Item = Vec<T>> + '_ {
    let runs = std::iter::successors(Some(list.len()), |run| Some(run / 2)).take_while(|run| *run > 0);
    runs.flat_map(move |run| {
        (0..=list.len() - run).step_by(run).map(move |at| [&list[..at], &list[at + run..]].concat())
    })
}

/// Copies of a text that are simpler: a run of bytes is left out, longer runs
/// first, or one byte is an `a`.
pub fn copies(text: &[u8]) -> impl Iterator<Item = Vec<u8>> + '_ {
    let plainer = (0..text.len()).filter(|at| text[*at] != b'a').map(|at| {
        let mut copy = text.to_vec();
        copy[at] = b'a';
        copy
    });
    shorter(text).chain(plainer)
}

/// A list with runs of its elements left out, longer ones first, as long as it differs.
pub fn fewest<T: Clone>(mut list: Vec<T>, differs: impl Fn(&[T]) -> bool) -> Vec<T> {
    let mut run = list.len();
    while run > 0 {
        let mut at = 0;
        while at < list.len() {
            let mut fewer = list.clone();
            fewer.drain(at..list.len().min(at + run));
            if differs(&fewer) {
                list = fewer;
            } else {
                at += run;
            }
        }
        run /= 2;
    }
    list
}

/// The same of the records of a list, if it has records.
pub fn fewest_records(list: &[u8], differs: impl Fn(Vec<u8>) -> bool) -> Vec<u8> {
    match records(list) {
        Ok(records) => list::of(fewest(records, |fewer| differs(list::of(fewer)))),
        Err(_) => list.to_vec(),
    }
}

/// Copies of two texts that are simpler alike: a run of bytes of the first is left out wherever
/// it stands in either, longer runs first, or is an `a` there.
fn both(texts: &[Vec<u8>; 2]) -> impl Iterator<Item = [Vec<u8>; 2]> + '_ {
    let first = &texts[0];
    let replaced = |run: &[u8], with: &[u8]| texts.each_ref().map(|text| replaced(text, run, with));
    let lengths =
        std::iter::successors(Some(first.len()), |length| Some(length / 2)).take_while(|length| *length > 0);
    let runs = lengths.flat_map(|length| first.chunks(length));
    let plainer = runs.clone().filter(|run| *run != b"a").map(move |run| replaced(run, b"a"));
    runs.map(move |run| replaced(run, b"")).chain(plainer)
}

/// A text with other bytes wherever a run of bytes, which is not empty, stands.
fn replaced(mut text: &[u8], run: &[u8], with: &[u8]) -> Vec<u8> {
    let mut copy = Vec::new();
    while let Some(at) = text.windows(run.len()).position(|bytes| bytes == run) {
        copy.extend_from_slice(&text[..at]);
        copy.extend_from_slice(with);
        text = &text[at + run.len()..];
    }
    copy.extend_from_slice(text);
    copy
}

/// Two smallest texts that still differ: bytes are left out, and then also made an `a`, of one
/// text or of both alike, while they do and time allows.
pub fn smallest_two(texts: [Vec<u8>; 2], differs: impl Fn(&[Vec<u8>; 2]) -> bool) -> [Vec<u8>; 2] {
    let until = Instant::now() + PATIENCE;
    let differs = |texts: &[Vec<u8>; 2]| Instant::now() < until && differs(texts);
    let [first, second] = texts;
    let first = fewest(first, |first| differs(&[first.to_vec(), second.clone()]));
    let second = fewest(second, |second| differs(&[first.clone(), second.to_vec()]));
    let mut texts = [first, second];
    loop {
        let firsts = copies(&texts[0]).map(|first| [first, texts[1].clone()]);
        let seconds = copies(&texts[1]).map(|second| [texts[0].clone(), second]);
        let smaller =
            firsts.chain(seconds).chain(both(&texts)).take_while(|_| Instant::now() < until).find(differs);
        match smaller {
            Some(smaller) => texts = smaller,
            None => return texts,
        }
    }
}

/// Copies of a list that are simpler. Where it has records: some are left out, or one
/// is plainer. Else by its bytes.
pub fn simpler<'a>(
    list: &'a [u8],
    records: Option<&'a [Vec<u8>]>,
    bytes: &'a [u8],
) -> Box<dyn Iterator<Item = Vec<u8>> + 'a> {
    let Some(records) = records else { return Box::new(copies(list)) };
    let plainer = records.iter().enumerate().flat_map(move |(at, record)| {
        plainer(record, bytes).map(move |copy| {
            let mut records = records.to_vec();
            records[at] = copy;
            list::of(&records)
        })
    });
    Box::new(shorter(records).map(list::of).chain(plainer))
}

/// Simpler copies of a text, and the shorter ones among the texts of up to two of these
/// bytes.
pub fn plainer<'a>(text: &'a [u8], bytes: &'a [u8]) -> impl Iterator<Item = Vec<u8>> + 'a {
    let short = (0..short_texts(bytes, 2)).map(|n| short_text(bytes, n));
    copies(text).chain(short.take_while(|short| short.len() < text.len()))
}

#[cfg(test)]
mod tests {
    use super::*;

    #[test]
    fn two_texts_shrink_alike() {
        let differs = |[first, second]: &[Vec<u8>; 2]| {
            !first.is_empty() && *second == [b"+".as_slice(), first, b":", first].concat()
        };
        for side in [b"b".as_slice(), b"refs/heads/b", b"aaa", &[b'l'; 4096]] {
            let texts = [side.to_vec(), [b"+", side, b":", side].concat()];
            assert_eq!(smallest_two(texts, differs), [b"a".to_vec(), b"+a:a".to_vec()]);
        }
    }
}
