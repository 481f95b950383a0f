//! Row lists as large as they may be, and one step larger; and edges of few bytes.

use super::{
    Case, Second,
    good::{object, row},
};
use crate::buffers::Again;
use paper::Row;
use vasigmon::list;

/// The limit of document 01.
const BYTES: usize = 1_048_576;

/// All cases, each with the buffers it is compared with: few for long lists and for many
/// destinations.
pub fn cases() -> Vec<(Case, Again)> {
    let families = [small(), limits(), last_rows(), counts(), spec_lists()].concat();
    let with_buffers = |case: Case| {
        let rows = case.rows().expect("the archive lists them");
        let destinations = match paper::Group::read(case.op, &case.specs).and_then(|group| group.rows(&rows))
        {
            Ok(rows) => rows.iter().filter(|row| row.destination.is_some()).count(),
            Err(_) => 0,
        };
        // Both buffers empty, the second short, both one short, both exact, both longer.
        let few: &[u64] = if destinations > 2000 { &[18] } else { &[0, 15, 12, 18, 24] };
        if rows.len() < 100_000 && destinations < 200 {
            return vec![(case, Again::All)];
        }
        few.iter().map(|number| (case.clone(), Again::One(*number))).collect()
    };
    families.into_iter().flat_map(with_buffers).collect()
}

fn specs() -> Vec<u8> {
    list::of([b"a:b".as_slice(), b"c:d"])
}

fn case(specs: &[u8], rows: Vec<u8>) -> Case {
    Case { op: 0, specs: specs.to_vec(), second: Second::Rows(rows) }
}

/// Lists of no rows and of few, with texts of no bytes and every refusal of a row.
fn small() -> Vec<Case> {
    let (none, one) = (list::of([b""; 0]), list::of([b"a"]));
    let mut cases = vec![case(&none, vec![]), case(&one, vec![])];
    let rows: [&[u8]; 17] = [
        // Texts of no bytes: a source, a destination, both.
        b"\x00\x00\x00\x00\x00",
        b"\x00\x00\x00\x00\x01",
        b"\x00\x00\x00\x01a\x01",
        b"\x00\x00\x00\x00\x01\x00\x00\x00\x01a\x01",
        // 16: a spec, a kind of one group and of two, an object id of no bytes.
        b"\x00\x01\x00\x00\x00",
        b"\x00\x00\x02\x00\x00",
        b"\x00\x00\x80\x01\x00\x00",
        b"\x00\x00\x01\x00\x00",
        // 16 of a row before 13 of the next, but not before 13 of its own.
        b"\x00\x00\x02\x00\x00\x80",
        b"\x00\x00\x02\x00\x05a",
        b"\x00\x05\x01\x00",
        // 13: a number that does not end, one not in its shortest form, of four groups,
        // texts that do not end.
        b"\x80",
        b"\x80\x00\x00\x00\x00\x00",
        b"\x00\x00\x80\x00\x00\x00",
        b"\x80\x80\x80\x01\x00\x00\x00\x00",
        b"\x00\x00\x00\x02a",
        b"\x00\x00\x00\x00\x02",
    ];
    for rows in rows {
        cases.push(case(&none, rows.to_vec()));
        cases.push(case(&one, rows.to_vec()));
        // Behind a good row, which must not be written.
        cases.push(case(&one, [b"\x01\x00\x00\x01a\x00", rows].concat()));
    }
    // 16 of what is nearly an object id.
    for digits in [&b"f".repeat(39)[..], &b"f".repeat(41), &b"F".repeat(40), &b"g".repeat(40)] {
        let near = Row { kind: 1, ..row(0, 0, digits, Some(b"x")) };
        cases.push(case(&one, Row::list(&[near.clone()])));
        cases.push(case(&one, Row::list(&[object(0, Some(b"x")), near])));
    }
    // The largest numbers that are well formed.
    cases.push(case(&one, Row::list(&[row(2_097_151, 0, b"a", Some(b"x"))])));
    cases.push(case(&one, Row::list(&[row(0, 2_097_151, b"a", Some(b"x"))])));
    cases.push(case(&one, b"\x00\x00\x00\xff\xff\x7f".to_vec()));
    cases
}

/// A row list of that many bytes: rows, and one whose source fills it.
fn filled(rows: &[Row], destination: Option<&[u8]>, length: usize) -> Vec<u8> {
    let list = Row::list(rows);
    // A source of more than 16,383 bytes has a length of three groups.
    let fields = Row::list(&[row(0, 0, &[b's'; 16_384], destination)]).len() - 16_384;
    let source = vec![b's'; length - list.len() - fields];
    let list = [list, Row::list(&[row(0, 0, &source, destination)])].concat();
    assert_eq!(list.len(), length);
    list
}

/// Lists of exactly the limit and of one byte more, which pass, give fixes or are in
/// conflict; and lists of texts of 4,000 bytes.
fn limits() -> Vec<Case> {
    let long = vec![b'd'; 400_000];
    let long_full = [b"refs/".as_slice(), &long].concat();
    let mut cases = Vec::new();
    for length in [BYTES, BYTES + 1] {
        let of = |rows: &[Row], destination: Option<&[u8]>| case(&specs(), filled(rows, destination, length));
        cases.push(of(&[], None));
        cases.push(of(&[], Some(b"x")));
        cases.push(of(&[], Some(&long)));
        cases.push(of(&[row(1, 1, b"a", Some(b"refs/a"))], Some(b"refs/b")));
        cases.push(of(&[row(1, 1, b"a", Some(&long_full))], Some(&long_full)));
        cases.push(of(&[object(0, Some(b"HEAD"))], Some(b"HEAD")));
        cases.push(case(&specs(), vec![0; length]));
        // A bad spec is met before the rows are.
        cases.push(case(&list::of([b"a".as_slice(), b"a..b"]), vec![0; length]));
        cases.push(case(&[b"\x01a".as_slice(), b"\x05a"].concat(), vec![0; length]));
    }
    // Five bytes fewer: as many rows as there can be, whole.
    cases.push(case(&specs(), vec![0; BYTES / 5 * 5]));
    let text = |n: usize| [format!("{n:04}").as_bytes(), &[b't'; 4000]].concat();
    let sources: Vec<Row> = (0..250).map(|n| row(n, n % 2, &text(n), Some(b"x"))).collect();
    let destinations: Vec<Row> = (0..250).rev().map(|n| row(n, n % 2, b"a", Some(&text(n)))).collect();
    cases.push(case(&specs(), Row::list(&sources)));
    cases.push(case(&specs(), Row::list(&destinations)));
    cases
}

/// Each refusal of a row at the last row of a long list.
fn last_rows() -> Vec<Case> {
    let mut cases = Vec::new();
    for last in [b"\x80".as_slice(), b"\x00\x00\x00\x05a", b"\x00\x02\x00\x00\x00", b"\x00\x00\x03\x00\x00"] {
        let conflict = [row(1, 0, b"a", Some(b"x")), row(1, 0, b"b", Some(b"x"))];
        let list = filled(&conflict, Some(b"refs/b"), BYTES - last.len());
        cases.push(case(&specs(), [&list[..], last].concat()));
        let rows: Vec<Row> = (0..20_000).map(|n| row(n, n % 2, b"a", None)).collect();
        cases.push(case(&specs(), [&Row::list(&rows)[..], last].concat()));
    }
    cases
}

/// Many rows: all on one destination, two on each, one on each, on none; so many
/// sources that their number gets a group more.
fn counts() -> Vec<Case> {
    let name = |n: usize| format!("refs/heads/{n}").into_bytes();
    let rows = |count: usize, row: &dyn Fn(usize) -> Row| {
        case(&specs(), Row::list(&(0..count).map(row).collect::<Vec<_>>()))
    };
    let mut cases = Vec::new();
    for count in [126, 127, 128, 129, 1000] {
        cases.push(rows(count, &|n| row(n, n % 2, &name(n), Some(b"refs/x"))));
        cases.push(rows(count, &|n| row(n, n % 2, &name(n / 2 * 2), Some(b"refs/x"))));
        cases.push(rows(count, &|n| row(n, n % 2, &name(n), Some(&name((count - n) / 2)))));
        cases.push(rows(count, &|n| row(n, n % 2, &name(n), Some(&name(count - n)))));
        cases.push(rows(count, &|n| row(n, n % 2, &name(n), Some(&name(n)[n % 7..]))));
        cases.push(rows(count, &|n| row(n, n % 2, &name(n), None)));
    }
    // Texts at the lengths where a number gets a group more.
    let lengths = [125, 126, 127, 128, 16_381, 16_382, 16_383, 16_384];
    let text = |length: usize| vec![b't'; length];
    cases.push(rows(8, &|n| row(n, n % 2, &text(lengths[n]), Some(&text(lengths[n])))));
    cases.push(rows(8, &|n| row(n, n % 2, &text(lengths[n]), Some(b"x"))));
    cases.push(rows(8, &|n| row(n, n % 2, b"a", Some(&text(lengths[n / 2])))));
    // Listings of whole groups: one of 4,096 rows, one above the limit of a row list.
    let items = list::of((0..1024).map(|n| format!("refs/heads/{n}")));
    for count in [4, 256] {
        let specs = list::of((0..count).map(|n| format!("refs/heads/*:refs/to/{n}/*")));
        cases.push(Case { op: 0, specs, second: Second::Items(items.clone()) });
    }
    cases
}

/// Spec lists at their limits, and rows that name the last spec and the one beyond.
fn spec_lists() -> Vec<Case> {
    let full = list::of(vec![b"a"; 256]);
    let naming = |spec| Row::list(&[row(0, spec, b"a", Some(b"x"))]);
    let long = [list::of(vec![vec![b'a'; 4000]; 16]), list::of([vec![b'a'; 1501]])].concat();
    assert_eq!(long.len(), 65_535);
    let mut cases = Vec::new();
    for spec in [0, 127, 128, 255, 256, 257] {
        cases.push(case(&full, naming(spec)));
    }
    for beyond in [b"\x00".as_slice(), b"\x80", b"\x02a*"] {
        cases.push(case(&[&full[..], beyond].concat(), naming(0)));
        cases.push(case(&[&full[..], beyond].concat(), vec![0; BYTES + 1]));
    }
    for rows in [naming(0), naming(16), naming(17), vec![0; BYTES + 1]] {
        cases.push(case(&long, rows.clone()));
        cases.push(case(&[&long[..], b"\x00"].concat(), rows));
    }
    cases
}

#[cfg(test)]
mod tests {
    use super::*;
    use paper::Verdict;

    #[test]
    fn lists_at_the_limits_are_accepted_and_beyond_them_not() {
        let (mut passed, mut conflicts, mut refused) = (0, 0, [0; 19]);
        for (case, _) in cases() {
            match paper::validated(case.op, &case.specs, &case.rows().unwrap()) {
                Ok(Verdict::Passed { .. }) => passed += 1,
                Ok(Verdict::Conflicts(_)) => conflicts += 1,
                Err(why) => refused[why.number as usize] += 1,
            }
        }
        assert!(passed > 30 && conflicts > 20, "{passed} {conflicts}");
        assert!([6, 12, 13, 14, 16].iter().all(|number| refused[*number] > 0), "{refused:?}");
    }
}
