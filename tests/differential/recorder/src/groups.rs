//! Records of groups: what the crate's listings are, and its prefixes.

use crate::{SEED, text};
use cases::{Random, group};
use paper::{Group, Items, Row, list};

/// How many grown groups are recorded.
const GROWN: usize = 400;

/// Of these at least so many rows, both listings together.
const FEWEST_ROWS: usize = 2;

/// A record of a grown group has at most so many bytes, but for a few.
const USUAL: usize = 2000;
const LONG: usize = 8;

/// The records of all groups: named ones, then grown ones in which something matches.
pub fn records() -> Vec<Vec<u8>> {
    let mut records: Vec<_> =
        named().iter().filter_map(|(op, specs, items)| record(*op, specs, items)).collect();
    let named = records.len();
    assert_eq!(named, self::named().len(), "a named group has no repeats");
    let mut long = 0;
    for number in 0.. {
        let mut random = Random::new(SEED, number);
        let op = number % 2;
        let group = group(op, 8, 8, &mut random);
        let (specs, items) = (list(&group.specs), list(&group.items));
        let Some(record) = record(op, &specs, &items) else { continue };
        if rows(op, &specs, &items).is_some_and(|(rows, back)| rows.len() + back.len() < FEWEST_ROWS) {
            continue;
        }
        if record.len() > USUAL {
            long += 1;
            if long > LONG {
                continue;
            }
        }
        records.push(record);
        if records.len() == named + GROWN {
            break;
        }
    }
    records
}

/// Groups that the papers speak of, and those without specs or items.
fn named() -> Vec<(u64, Vec<u8>, Vec<u8>)> {
    let digits = b"0123456789ABCDEF0123456789abcdef01234567";
    let object = [&digits[..], b":tags/x"].concat();
    let sample = list([b"+refs/heads/*:refs/remotes/hub/*".as_slice(), b"^refs/heads/tmp*"]);
    let items = list([b"refs/heads/codes".as_slice(), b"refs/heads/tmp1"]);
    let back = list([b"refs/remotes/hub/codes".as_slice(), b"refs/remotes/hub/tmp1"]);
    let mut named = Vec::new();
    for op in [0, 1] {
        named.push((op, vec![], vec![]));
        named.push((op, vec![], items.clone()));
        named.push((op, sample.clone(), vec![]));
        named.push((op, sample.clone(), items.clone()));
        named.push((op, sample.clone(), back.clone()));
        named.push((op, list([b"a*a:b*".as_slice()]), list([b"a".as_slice(), b"aa", b"aba", b"b"])));
        named.push((op, list([b"refs/*:b/*".as_slice(), b"refs/*/b:b/*"]), list([b"refs/b/b".as_slice()])));
        named.push((op, list([b"a:b".as_slice(), &object, b"^*"]), list([b"a".as_slice(), b"tags/x"])));
        named.push((op, list([b"a:HEAD".as_slice(), b"b/*:*"]), list([b"a".as_slice(), b"b/HEAD"])));
    }
    named
}

/// The rows of both listings, unless the crate refuses a spec or removes a row.
fn rows(op: u64, specs: &[u8], items: &[u8]) -> Option<(Vec<Row>, Vec<Row>)> {
    let (group, items) = (Group::read(op, specs).ok()?, Items::read(items).ok()?);
    let the_crate = oracle::Group::read(op, group.texts()).ok()?;
    let names: Vec<&[u8]> = items.names().collect();
    let as_written = |row: oracle::Row| Row {
        item: row.item.map_or(0, |item| item + 1),
        spec: row.spec,
        kind: usize::from(row.object),
        source: row.source,
        destination: row.destination,
    };
    let rows: Vec<Row> = the_crate.match_lhs(&names).into_iter().map(as_written).collect();
    let back: Vec<Row> = the_crate.match_rhs(&names).into_iter().map(as_written).collect();
    let complete = rows.len() == group.forward(&items).len() && back.len() == group.reverse(&items).len();
    complete.then_some((rows, back))
}

/// One record, if the group is recorded.
fn record(op: u64, specs: &[u8], items: &[u8]) -> Option<Vec<u8>> {
    let (rows, back) = rows(op, specs, items)?;
    let group = oracle::Group::read(op, Group::read(op, specs).ok()?.texts()).ok()?;
    let mut out = vec![op as u8];
    for bytes in [specs, items, &Row::list(&rows), &Row::list(&back), &list(once(group.prefixes()))] {
        text(&mut out, bytes);
    }
    Some(out)
}

/// The texts in first-seen order, each once.
fn once(texts: Vec<Vec<u8>>) -> Vec<Vec<u8>> {
    let mut seen = Vec::new();
    for text in texts {
        if !seen.contains(&text) {
            seen.push(text);
        }
    }
    seen
}

#[cfg(test)]
mod tests {
    use super::*;

    #[test]
    fn a_record() {
        let specs = list([b":b"]);
        let items = list([b"b".as_slice(), b"HEAD"]);
        let expected = b"\x00\x03\x00\x02:b\x07\x00\x01b\x04HEAD\x15\x00\x02\x00\x00\x04HEAD\x0drefs/heads/b\x0a\x00\x01\x00\x00\x04HEAD\x02b\x05\x00\x04HEAD";
        assert_eq!(
            record(0, &specs, &items).unwrap().escape_ascii().to_string(),
            expected.escape_ascii().to_string()
        );
        assert_eq!(record(0, &list([b"b", b"b"]), &list([b"b"])), None, "the crate removes a row");
        let first_seen = record(0, &list([b"refs/b".as_slice(), b"refs/a", b"refs/b:x"]), b"").unwrap();
        assert!(first_seen.ends_with(b"\x0e\x00\x06refs/b\x06refs/a"), "{}", first_seen.escape_ascii());
        assert_eq!(record(0, &list([b"a:@"]), b""), None);
    }

    #[test]
    fn some_hundreds_of_records() {
        let records = records();
        let bytes: usize = records.iter().map(Vec::len).sum();
        assert!(records.len() > GROWN && bytes < 400_000, "{bytes}");
        assert!(records.iter().filter(|record| record[0] == 1).count() > GROWN / 3);
    }
}
