//! Walks over any bytes: they end, and they go as far as the archive says that rows are
//! well formed.

use vasigmon::{
    Group, Items, ListRefusal, Operation, Refusal, Validated,
    list::{self, Walk},
};

/// Specs of which two put different names on one destination, and one is an object id.
const SPECS: [&str; 3] =
    ["refs/heads/*:refs/x/*", "refs/heads/a:refs/x/b", "0123456789abcdef0123456789abcdef01234567:c"];

fn group() -> Group {
    Group::new(Operation::Fetch, SPECS).unwrap()
}

fn listing() -> Vec<u8> {
    group().match_lhs(&Items::new(["refs/heads/a", "refs/heads/b"]).unwrap())
}

fn conflicts() -> Vec<u8> {
    match group().validated(&listing()).unwrap() {
        Validated::Conflicts(found) => found,
        Validated::Passed { .. } => panic!("refs/x/b has two sources"),
    }
}

fn fixes() -> Vec<u8> {
    match group().validated(b"\x00\x00\x00\x01a\x02b\x00\x02\x00\x01a\x03cd").unwrap() {
        Validated::Passed { fixes, .. } => fixes,
        Validated::Conflicts(_) => panic!("no destination has two sources"),
    }
}

/// Where the records of a list end, and the bytes behind the last that is well formed.
fn ends<R>(list: &[u8], mut walk: Walk<'_, R>) -> (Vec<usize>, usize) {
    let mut ends = vec![];
    while walk.next().is_some() {
        ends.push(list.len() - walk.rest().len());
    }
    assert!(walk.next().is_none(), "a walk that ended has no more records");
    (ends, walk.rest().len())
}

/// Checks that a list is walked to its end, and one that is cut short up to the last record
/// that is whole.
fn stops_where_it_is_cut<'a, R>(list: &'a [u8], walk: fn(&'a [u8]) -> Walk<'a, R>, count: usize) {
    let (all, left) = ends(list, walk(list));
    assert_eq!((all.len(), left), (count, 0));
    for length in 0..list.len() {
        let cut = &list[..length];
        let whole: Vec<usize> = all.iter().copied().filter(|&end| end <= length).collect();
        let left = length - whole.last().copied().unwrap_or_default();
        assert_eq!(ends(cut, walk(cut)), (whole, left));
    }
}

#[test]
fn lists_that_are_cut() {
    stops_where_it_is_cut(&list::of(SPECS), list::records, 3);
    stops_where_it_is_cut(&listing(), list::rows, 4);
    stops_where_it_is_cut(&conflicts(), list::conflicts, 1);
    stops_where_it_is_cut(&fixes(), list::fixes, 2);
}

/// Copies of a list in which one byte is another.
fn damaged(list: &[u8]) -> impl Iterator<Item = Vec<u8>> {
    (0..list.len()).flat_map(move |at| {
        (0..=u8::MAX).map(move |byte| {
            let mut copy = list.to_vec();
            copy[at] = byte;
            copy
        })
    })
}

#[test]
fn rows_go_as_far_as_the_archive_reads_them() {
    let group = group();
    let mut malformed = 0;
    for rows in damaged(&listing()) {
        let (ends, left) = ends(&rows, list::rows(&rows));
        match group.validated(&rows) {
            Ok(_) => assert_eq!(left, 0),
            Err(ListRefusal { refusal: Refusal::Malformed, record }) => {
                assert_eq!(record, Some(ends.len()));
                assert_ne!(left, 0);
                malformed += 1;
            }
            Err(refused) => assert_eq!(refused.refusal, Refusal::OutsideTheLists),
        }
    }
    assert!(malformed > 1000, "only {malformed} lists were not well formed");
}

#[test]
fn records_go_as_far_as_the_archive_reads_them() {
    for list in damaged(&list::of(["a", "refs/heads/b", ""])) {
        let (ends, left) = ends(&list, list::records(&list));
        match Items::from_list(list) {
            Ok(items) => assert_eq!((items.names().count(), left), (ends.len(), 0)),
            Err(refused) => {
                assert_eq!(refused, ListRefusal { refusal: Refusal::Malformed, record: Some(ends.len()) })
            }
        }
    }
}

#[test]
fn conflicts_and_fixes_that_are_damaged_end() {
    for list in damaged(&conflicts()) {
        ends(&list, list::conflicts(&list));
    }
    for list in damaged(&fixes()) {
        ends(&list, list::fixes(&list));
    }
}

#[test]
fn numbers_have_at_most_three_groups_in_their_shortest_form() {
    let spec = |number: &[u8]| list::fixes(&[b"\x00", number].concat()).next().map(|fix| fix.spec);
    for (number, value) in [(b"\x00".as_slice(), 0), (b"\x80\x01", 128), (b"\xff\xff\x7f", (1 << 21) - 1)] {
        assert_eq!(spec(number), Some(value));
    }
    for number in [b"".as_slice(), b"\x80", b"\x80\x00", b"\x81\x80\x00", b"\x80\x80\x80\x01"] {
        assert_eq!(spec(number), None);
    }
}

#[test]
fn a_count_may_be_more_than_there_are_bytes() {
    assert_eq!(list::conflicts(b"\x01x\xff\xff\x7f\x00\x00\x01a").next(), None);
}
