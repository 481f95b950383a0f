//! Spec lists, item lists and row lists, read.

use crate::{
    Refused, Row,
    number::{read, read_text, write_text},
    spec::{Spec, read_spec},
};

/// "Spec list, item list and prefix list: for each record a length, then the bytes."
pub fn list<T: AsRef<[u8]>>(texts: impl IntoIterator<Item = T>) -> Vec<u8> {
    let mut out = Vec::new();
    texts.into_iter().for_each(|text| write_text(&mut out, text.as_ref()));
    out
}

/// A record of a list: its text, and where that starts in the list.
#[derive(Clone, Copy, Debug)]
pub struct Record<'a> {
    pub start: usize,
    pub text: &'a [u8],
}

/// "Is a spec or item list at most 65,535 bytes? No: 12. Is this record within 256
/// specs or 1,024 items? No: 14. Is it well formed within its list? No: 13", and then
/// what is asked of each record.
fn read_records<'a, T>(
    list: &'a [u8],
    most: usize,
    accept: impl Fn(Record<'a>) -> Result<T, u64>,
) -> Result<Vec<T>, Refused> {
    if list.len() > 65_535 {
        return Err(Refused::whole(12));
    }
    let mut records = Vec::new();
    let mut rest = list;
    while !rest.is_empty() {
        let here = records.len();
        if here == most {
            return Err(Refused::at(14, here));
        }
        let (text, after) = read_text(rest).ok_or(Refused::at(13, here))?;
        let start = list.len() - after.len() - text.len();
        records.push(accept(Record { start, text }).map_err(|number| Refused::at(number, here))?);
        rest = after;
    }
    Ok(records)
}

/// "Is the spec accepted? No: its own number."
pub fn read_specs(op: u64, list: &[u8]) -> Result<Vec<(Record<'_>, Spec<'_>)>, Refused> {
    if op > 1 {
        return Err(Refused::whole(18));
    }
    read_records(list, 256, |record| Ok((record, read_spec(op, record.text)?)))
}

/// An item list that was read.
#[derive(Clone, Debug)]
pub struct Items<'a> {
    pub(crate) records: Vec<Record<'a>>,
}

impl<'a> Items<'a> {
    /// "Is the item name at most 4,096 bytes? No: 15."
    pub fn read(list: &'a [u8]) -> Result<Items<'a>, Refused> {
        let accept = |record: Record<'a>| if record.text.len() > 4096 { Err(15) } else { Ok(record) };
        Ok(Items { records: read_records(list, 1024, accept)? })
    }

    /// The items' names.
    pub fn names(&self) -> impl ExactSizeIterator<Item = &'a [u8]> {
        self.records.iter().map(|record| record.text)
    }
}

/// "A row list at most 1,048,576? No: 12", 13 as above, and "is the row's spec number
/// in the list, its kind 0 or 1, an object's source 40 lower-case digits? No: 16."
pub fn read_rows(list: &[u8], specs: usize) -> Result<Vec<Row>, Refused> {
    if list.len() > 1_048_576 {
        return Err(Refused::whole(12));
    }
    let mut rows = Vec::new();
    let mut rest = list;
    while !rest.is_empty() {
        let (row, after) = read_row(rest).ok_or(Refused::at(13, rows.len()))?;
        let digit = |byte: &u8| matches!(byte, b'0'..=b'9' | b'a'..=b'f');
        let object = row.source.len() == 40 && row.source.iter().all(digit);
        if row.spec >= specs || row.kind > 1 || (row.kind == 1 && !object) {
            return Err(Refused::at(16, rows.len()));
        }
        rows.push(row);
        rest = after;
    }
    Ok(rows)
}

/// "Row: item number plus 1 (0 for none); spec number; source kind (0 name, 1
/// object); source length and bytes (40 lower-case digits for an object); then 0 for
/// no destination, else its length plus 1 and its bytes."
pub fn read_row(bytes: &[u8]) -> Option<(Row, &[u8])> {
    let (item, rest) = read(bytes)?;
    let (spec, rest) = read(rest)?;
    let (kind, rest) = read(rest)?;
    let (source, rest) = read_text(rest)?;
    let (destination, rest) = match read(rest)? {
        (0, rest) => (None, rest),
        (length, rest) => {
            let (destination, rest) = rest.split_at_checked(length - 1)?;
            (Some(destination.to_vec()), rest)
        }
    };
    Some((Row { item, spec, kind, source: source.to_vec(), destination }, rest))
}

#[cfg(test)]
mod tests {
    use super::*;

    fn items(list: &[u8]) -> Result<usize, Refused> {
        Items::read(list).map(|items| items.names().count())
    }

    #[test]
    fn fourteen_comes_before_thirteen() {
        let full = [0].repeat(1024);
        assert_eq!(items(&full), Ok(1024));
        for more in [b"\x00".as_slice(), b"\x80", b"\x01a"] {
            assert_eq!(items(&[&full, more].concat()), Err(Refused::at(14, 1024)));
        }
        let specs = b"\x01a".repeat(256);
        assert_eq!(read_specs(0, &specs).map(|specs| specs.len()), Ok(256));
        assert_eq!(
            read_specs(0, &[&specs[..], b"\xff"].concat()).map(|specs| specs.len()),
            Err(Refused::at(14, 256))
        );
    }

    #[test]
    fn each_record_in_turn() {
        assert_eq!(items(b"\x01a\x02"), Err(Refused::at(13, 1)));
        assert_eq!(items(&[0; 65_536]), Err(Refused::whole(12)));
        let long = [b"\x00\x81\x20".as_slice(), &[b'a'; 4097]].concat();
        assert_eq!(items(&long), Err(Refused::at(15, 1)));
        let number = |op, list| read_specs(op, list).map(|specs| specs.len());
        assert_eq!(number(1, b"\x01a\x00"), Err(Refused::at(2, 1)));
        assert_eq!(number(0, b"\x01a\x00"), Ok(2));
        assert_eq!(number(2, b"\x80"), Err(Refused::whole(18)));
    }

    #[test]
    fn rows() {
        let kind = |groups: &[u8]| [b"\x09\x00", groups, b"\x01a\x00"].concat();
        assert_eq!(read_rows(&kind(b"\x00"), 1).unwrap()[0].item, 9);
        assert_eq!(read_rows(&kind(b"\x80\x01"), 1), Err(Refused::at(16, 0)));
        assert_eq!(read_rows(&kind(b"\x80\x00"), 1), Err(Refused::at(13, 0)));
        assert_eq!(read_rows(&kind(b"\x01"), 1), Err(Refused::at(16, 0)));
        assert_eq!(read_rows(&kind(b"\x00"), 0), Err(Refused::at(16, 0)));
        let two = [kind(b"\x02"), b"\x80".to_vec()].concat();
        assert_eq!(read_rows(&two, 1), Err(Refused::at(16, 0)), "16 of a row before 13 of the next");
        let object = |digit: u8| [b"\x00\x00\x01\x28".as_slice(), &[digit; 40], b"\x01"].concat();
        assert_eq!(read_rows(&object(b'f'), 1).unwrap()[0].destination, Some(vec![]));
        assert_eq!(read_rows(&object(b'F'), 1), Err(Refused::at(16, 0)));
        assert_eq!(read_rows(&[0; 1_048_577], 1), Err(Refused::whole(12)));
    }
}
