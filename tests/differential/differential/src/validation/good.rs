//! Good lists of specs and rows, to be damaged.

use crate::damage::Pair;
use paper::Row;
use vasigmon::list;

const DIGITS: &[u8] = b"0123456789abcdef0123456789abcdef01234567";

/// A row.
pub fn row(item: usize, spec: usize, source: &[u8], destination: Option<&[u8]>) -> Row {
    Row { item, spec, kind: 0, source: source.to_vec(), destination: destination.map(<[u8]>::to_vec) }
}

/// A row of an object id.
pub fn object(spec: usize, destination: Option<&[u8]>) -> Row {
    Row { kind: 1, ..row(0, spec, DIGITS, destination) }
}

/// The good lists.
pub fn pairs() -> Vec<Pair> {
    let full = |text: &[u8]| [b"refs/", text].concat();
    let of_length = |length: usize| vec![b'l'; length];
    let specs = list::of([b"a:b".as_slice(), b"c", b"^d"]);
    let many = list::of(vec![b"a"; 140]);
    let pair = |specs: &[u8], rows: &[Row]| (0, specs.to_vec(), Row::list(rows));
    vec![
        // Kept rows and fixes, texts of no bytes, an object id.
        pair(
            &specs,
            &[
                row(1, 0, b"a", Some(b"refs/b")),
                row(0, 2, b"", None),
                row(3, 1, b"", Some(b"")),
                object(1, Some(b"HEAD")),
                row(2, 0, b"a", Some(b"x")),
            ],
        ),
        // Conflicts, one of them between a name and an object id that look alike.
        pair(
            &specs,
            &[
                row(1, 2, b"b", Some(b"y")),
                object(0, Some(b"x")),
                row(1, 1, b"a", Some(b"y")),
                row(1, 0, b"b", Some(b"y")),
                row(0, 1, DIGITS, Some(b"x")),
            ],
        ),
        // One byte from a conflict: the same but for a destination, a source, a kind.
        pair(&specs, &[row(1, 0, b"a", Some(b"x")), row(1, 0, b"b", Some(b"y")), row(1, 1, b"a", None)]),
        // Numbers of two groups: items, specs, lengths.
        pair(
            &many,
            &[
                row(200, 130, &of_length(128), Some(&full(&of_length(123)))),
                row(16_384, 139, &of_length(127), Some(&of_length(126))),
                row(128, 128, &of_length(129), Some(&of_length(127))),
            ],
        ),
        // More rows: one destination of many sources, and many destinations of one.
        pair(&specs, &(0..30).map(|n| row(n, n % 3, &[n as u8], Some(b"x"))).collect::<Vec<_>>()),
        pair(&specs, &(0..30).map(|n| row(n, n % 3, b"a", Some(&[n as u8]))).collect::<Vec<_>>()),
        // A length of three groups.
        pair(&specs, &[row(1, 0, &of_length(16_390), Some(b"refs/b")), row(1, 0, b"", Some(b"refs/b"))]),
    ]
}

#[cfg(test)]
mod tests {
    use super::*;
    use paper::Verdict;

    #[test]
    fn good_lists_are_good() {
        let verdicts: Vec<bool> = pairs()
            .iter()
            .map(|(op, specs, rows)| {
                matches!(paper::validated(*op, specs, rows).unwrap(), Verdict::Conflicts(_))
            })
            .collect();
        assert_eq!(verdicts, [false, true, false, false, true, false, true], "which are in conflict");
    }
}
