//! Validation: conflicts, or kept rows and fixes.

use crate::{
    Row,
    number::{write, write_text},
};
use std::collections::BTreeSet;

/// "A conflict is a destination with two different sources."
#[derive(Clone, Debug, PartialEq, Eq)]
pub struct Conflict {
    pub destination: Vec<u8>,
    pub sources: Vec<ConflictSource>,
}

/// A source in a conflict.
#[derive(Clone, Debug, PartialEq, Eq)]
pub struct ConflictSource {
    pub spec: usize,
    /// 0 name, 1 object.
    pub kind: usize,
    pub name: Vec<u8>,
}

/// A row that went out.
#[derive(Clone, Debug, PartialEq, Eq)]
pub struct Fix {
    /// Its destination.
    pub name: Vec<u8>,
    pub spec: usize,
}

/// What validation answers.
#[derive(Clone, Debug, PartialEq, Eq)]
pub enum Verdict {
    Conflicts(Vec<Conflict>),
    Passed { kept: Vec<Row>, fixes: Vec<Fix> },
}

impl Verdict {
    /// Conflicts are "found before anything is removed".
    pub fn on(rows: &[Row]) -> Verdict {
        let conflicts = conflicts(rows);
        if !conflicts.is_empty() {
            return Verdict::Conflicts(conflicts);
        }
        // "With no conflict, rows whose destination neither begins `refs/` nor is
        // `HEAD` go out, each giving a fix in row order; rows without destination stay."
        let (mut kept, mut fixes) = (Vec::new(), Vec::new());
        for row in rows {
            match &row.destination {
                Some(name) if !name.starts_with(b"refs/") && name != b"HEAD" => {
                    fixes.push(Fix { name: name.clone(), spec: row.spec });
                }
                _ => kept.push(row.clone()),
            }
        }
        Verdict::Passed { kept, fixes }
    }

    /// The bytes for the first output buffer, and for the second unless that is
    /// untouched.
    pub fn bytes(&self) -> (Vec<u8>, Option<Vec<u8>>) {
        match self {
            Verdict::Conflicts(conflicts) => (conflict_list(conflicts), None),
            Verdict::Passed { kept, fixes } => (Row::list(kept), Some(fix_list(fixes))),
        }
    }
}

/// "Conflicts come in byte order of destination. Their sources stand in first-seen
/// order with the spec of that first row. A name and an object id are always
/// different."
fn conflicts(rows: &[Row]) -> Vec<Conflict> {
    let mut with_destination: Vec<(&Vec<u8>, &Row)> =
        rows.iter().filter_map(|row| Some((row.destination.as_ref()?, row))).collect();
    // The sort leaves rows of one destination in their order.
    with_destination.sort_by_key(|(destination, _)| *destination);
    let mut conflicts = Vec::new();
    for rows in with_destination.chunk_by(|one, next| one.0 == next.0) {
        let mut seen = BTreeSet::new();
        let sources: Vec<ConflictSource> = rows
            .iter()
            .filter(|(_, row)| seen.insert((row.kind, &row.source)))
            .map(|(_, row)| ConflictSource { spec: row.spec, kind: row.kind, name: row.source.clone() })
            .collect();
        if sources.len() > 1 {
            conflicts.push(Conflict { destination: rows[0].0.clone(), sources });
        }
    }
    conflicts
}

/// "Conflict: destination length and bytes; how many sources; for each, spec number,
/// kind, length, bytes."
fn conflict_list(conflicts: &[Conflict]) -> Vec<u8> {
    let mut out = Vec::new();
    for conflict in conflicts {
        write_text(&mut out, &conflict.destination);
        write(&mut out, conflict.sources.len());
        for source in &conflict.sources {
            write(&mut out, source.spec);
            write(&mut out, source.kind);
            write_text(&mut out, &source.name);
        }
    }
    out
}

/// "Fix: name length and bytes; spec number."
fn fix_list(fixes: &[Fix]) -> Vec<u8> {
    let mut out = Vec::new();
    for fix in fixes {
        write_text(&mut out, &fix.name);
        write(&mut out, fix.spec);
    }
    out
}

#[cfg(test)]
mod tests {
    use super::*;

    fn row(spec: usize, kind: usize, source: &[u8], destination: Option<&[u8]>) -> Row {
        Row { item: 0, spec, kind, source: source.to_vec(), destination: destination.map(<[u8]>::to_vec) }
    }

    #[test]
    fn conflicts_in_byte_order_with_sources_as_first_seen() {
        let digits = [b'1'; 40];
        let rows = [
            row(5, 0, b"b", Some(b"refs/y")),
            row(4, 0, &digits, Some(b"")),
            row(3, 0, b"a", Some(b"refs/y")),
            row(2, 0, b"b", Some(b"refs/y")),
            row(1, 1, &digits, Some(b"")),
            row(0, 0, b"a", None),
            row(0, 0, b"a", Some(b"refs/z")),
        ];
        let of = |spec, kind, name: &[u8]| ConflictSource { spec, kind, name: name.to_vec() };
        let nameless = Conflict { destination: vec![], sources: vec![of(4, 0, &digits), of(1, 1, &digits)] };
        let y = Conflict { destination: b"refs/y".to_vec(), sources: vec![of(5, 0, b"b"), of(3, 0, b"a")] };
        let verdict = Verdict::on(&rows);
        assert_eq!(verdict, Verdict::Conflicts(vec![nameless, y]));
        let (out, fixes) = verdict.bytes();
        let first = [b"\x00\x02\x04\x00\x28", &digits[..], b"\x01\x01\x28", &digits].concat();
        assert_eq!(out, [&first[..], b"\x06refs/y\x02\x05\x00\x01b\x03\x00\x01a"].concat());
        assert_eq!(fixes, None);
    }

    #[test]
    fn partial_destinations_are_looked_at_for_conflicts_first() {
        let rows = [row(0, 0, b"a", Some(b"x")), row(1, 0, b"b", Some(b"x"))];
        assert!(matches!(Verdict::on(&rows), Verdict::Conflicts(_)));
    }

    #[test]
    fn kept_rows_and_fixes_in_row_order() {
        let kept = [
            row(0, 0, b"a", None),
            row(1, 0, b"a", Some(b"refs/")),
            row(2, 0, b"a", Some(b"HEAD")),
            row(2, 0, b"b", None),
            row(2, 0, b"a", Some(b"HEAD")),
        ];
        let out =
            [row(3, 0, b"a", Some(b"refs")), row(4, 0, b"a", Some(b"")), row(5, 0, b"a", Some(b"HEAD/"))];
        let rows = [&kept[..2], &out[..2], &kept[2..], &out[2..], &out[..1]].concat();
        let fix = |name: &[u8], spec| Fix { name: name.to_vec(), spec };
        let fixes = vec![fix(b"refs", 3), fix(b"", 4), fix(b"HEAD/", 5), fix(b"refs", 3)];
        let verdict = Verdict::on(&rows);
        assert_eq!(verdict, Verdict::Passed { kept: kept.to_vec(), fixes });
        let bytes = b"\x04refs\x03\x00\x04\x05HEAD/\x05\x04refs\x03".to_vec();
        assert_eq!(verdict.bytes(), (Row::list(&kept), Some(bytes)));
    }

    #[test]
    fn no_rows_pass() {
        assert_eq!(Verdict::on(&[]).bytes(), (vec![], Some(vec![])));
    }
}
