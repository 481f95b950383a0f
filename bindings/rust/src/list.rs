//! The byte lists of the interface: made of texts, and walked.
//!
//! A number is written in groups of seven bits, lowest first, the top bit set while more
//! follow, in its shortest form and in at most three groups. A list of specs, items or
//! prefixes holds for each record its length and its bytes; rows, conflicts and fixes have
//! fields.
//!
//! ```
//! use vasigmon::list;
//!
//! let specs = list::of(["main", "^tmp"]);
//! assert_eq!(specs, b"\x04main\x04^tmp");
//! assert_eq!(list::records(&specs).collect::<Vec<_>>(), [b"main".as_slice(), b"^tmp"]);
//! ```

use std::{fmt, iter::FusedIterator};

/// The list of these texts, as many as there are and as long as they are.
pub fn of<T: AsRef<[u8]>>(texts: impl IntoIterator<Item = T>) -> Vec<u8> {
    let mut list = Vec::new();
    for text in texts {
        push(&mut list, text.as_ref());
    }
    list
}

/// Appends a record to a list.
pub fn push(list: &mut Vec<u8>, text: &[u8]) {
    let mut length = text.len();
    while length >= 128 {
        list.push((length % 128) as u8 | 0x80);
        length /= 128;
    }
    list.push(length as u8);
    list.extend(text);
}

/// Walks the records of a list.
///
/// What the archive wrote is walked to its end. Of any other bytes the walk ends before the
/// first record that is not well formed, and [`Walk::rest`] has what is left.
///
/// ```
/// use vasigmon::list;
///
/// let mut walk = list::records(b"\x01a\x02b");
/// assert_eq!(walk.next(), Some(b"a".as_slice()));
/// assert_eq!(walk.next(), None);
/// assert_eq!(walk.rest(), b"\x02b");
/// ```
#[derive(Clone)]
pub struct Walk<'a, R> {
    reader: Reader<'a>,
    read: fn(&mut Reader<'a>) -> Option<R>,
}

impl<'a, R> Walk<'a, R> {
    fn new(list: &'a [u8], read: fn(&mut Reader<'a>) -> Option<R>) -> Walk<'a, R> {
        Walk { reader: Reader { rest: list }, read }
    }

    /// The bytes that are not walked yet. Where the walk has ended there are none, if the
    /// list is well formed.
    pub fn rest(&self) -> &'a [u8] {
        self.reader.rest
    }
}

impl<R> Iterator for Walk<'_, R> {
    type Item = R;

    fn next(&mut self) -> Option<R> {
        let mut reader = self.reader.clone();
        let record = (self.read)(&mut reader)?;
        self.reader = reader;
        Some(record)
    }
}

impl<R> FusedIterator for Walk<'_, R> {}

impl<R> fmt::Debug for Walk<'_, R> {
    fn fmt(&self, f: &mut fmt::Formatter<'_>) -> fmt::Result {
        f.debug_struct("Walk").field("rest", &self.rest()).finish()
    }
}

/// The records of a list of specs, items or prefixes.
pub fn records(list: &[u8]) -> Walk<'_, &[u8]> {
    Walk::new(list, Reader::text)
}

/// A row of a listing: what one spec maps one source to.
#[derive(Clone, Copy, Debug, PartialEq, Eq, Hash)]
pub struct Row<'a> {
    /// The item that matched; none for an object id, which matches no item.
    pub item: Option<usize>,
    /// The spec, counted from 0.
    pub spec: usize,
    /// What is mapped.
    pub source: Source<'a>,
    /// What it is mapped to, if anything.
    pub destination: Option<&'a [u8]>,
}

/// What a row maps.
#[derive(Clone, Copy, Debug, PartialEq, Eq, Hash)]
pub enum Source<'a> {
    /// The name of a reference.
    Name(&'a [u8]),
    /// An object id: forty hexadecimal digits in lower case.
    Object(&'a [u8]),
}

impl<'a> Source<'a> {
    /// The name, or the digits.
    pub fn text(self) -> &'a [u8] {
        let (Source::Name(text) | Source::Object(text)) = self;
        text
    }
}

/// The rows of a listing.
///
/// ```
/// use vasigmon::list::{self, Source};
///
/// let row = list::rows(b"\x01\x00\x00\x01a\x0drefs/heads/b").next().unwrap();
/// assert_eq!((row.item, row.spec, row.source), (Some(0), 0, Source::Name(b"a")));
/// assert_eq!(row.destination, Some(b"refs/heads/b".as_slice()));
/// ```
pub fn rows(listing: &[u8]) -> Walk<'_, Row<'_>> {
    Walk::new(listing, Reader::row)
}

/// A destination that different sources are mapped to.
#[derive(Clone, Debug, PartialEq, Eq, Hash)]
pub struct Conflict<'a> {
    /// The destination.
    pub destination: &'a [u8],
    /// Its sources, two or more, in the order in which the rows first have them.
    pub sources: Vec<ConflictSource<'a>>,
}

/// A source in a conflict.
#[derive(Clone, Copy, Debug, PartialEq, Eq, Hash)]
pub struct ConflictSource<'a> {
    /// The spec of the first row that maps this source to the destination.
    pub spec: usize,
    /// What is mapped.
    pub source: Source<'a>,
}

/// The conflicts that validation found.
///
/// ```
/// use vasigmon::list::{self, Source};
///
/// let conflict = list::conflicts(b"\x06refs/x\x02\x00\x00\x01a\x01\x00\x01b").next().unwrap();
/// assert_eq!(conflict.destination, b"refs/x");
/// assert_eq!((conflict.sources[0].spec, conflict.sources[0].source), (0, Source::Name(b"a")));
/// assert_eq!((conflict.sources[1].spec, conflict.sources[1].source), (1, Source::Name(b"b")));
/// ```
pub fn conflicts(list: &[u8]) -> Walk<'_, Conflict<'_>> {
    Walk::new(list, Reader::conflict)
}

/// A row that validation left out, because its destination is partial: it neither
/// begins `refs/` nor is `HEAD`.
#[derive(Clone, Copy, Debug, PartialEq, Eq, Hash)]
pub struct Fix<'a> {
    /// The destination.
    pub name: &'a [u8],
    /// The row's spec.
    pub spec: usize,
}

/// What validation left out.
///
/// ```
/// use vasigmon::list::{self, Fix};
///
/// assert_eq!(list::fixes(b"\x01b\x03").next(), Some(Fix { name: b"b", spec: 3 }));
/// ```
pub fn fixes(list: &[u8]) -> Walk<'_, Fix<'_>> {
    Walk::new(list, Reader::fix)
}

/// Reads at the front of a list; each answer is none where what is asked for does not
/// stand there.
#[derive(Clone)]
struct Reader<'a> {
    rest: &'a [u8],
}

impl<'a> Reader<'a> {
    fn number(&mut self) -> Option<usize> {
        let mut number = 0;
        for group in 0..3 {
            let (&byte, rest) = self.rest.split_first()?;
            self.rest = rest;
            number |= usize::from(byte & 0x7f) << (7 * group);
            if byte & 0x80 == 0 {
                let shortest = group == 0 || byte != 0;
                return shortest.then_some(number);
            }
        }
        None
    }

    fn bytes(&mut self, length: usize) -> Option<&'a [u8]> {
        let (bytes, rest) = self.rest.split_at_checked(length)?;
        self.rest = rest;
        Some(bytes)
    }

    fn text(&mut self) -> Option<&'a [u8]> {
        let length = self.number()?;
        self.bytes(length)
    }

    fn source(&mut self) -> Option<Source<'a>> {
        match self.number()? {
            0 => self.text().map(Source::Name),
            1 => self.text().map(Source::Object),
            _ => None,
        }
    }

    fn destination(&mut self) -> Option<Option<&'a [u8]>> {
        match self.number()? {
            0 => Some(None),
            length => self.bytes(length - 1).map(Some),
        }
    }

    fn row(&mut self) -> Option<Row<'a>> {
        Some(Row {
            item: self.number()?.checked_sub(1),
            spec: self.number()?,
            source: self.source()?,
            destination: self.destination()?,
        })
    }

    fn conflict(&mut self) -> Option<Conflict<'a>> {
        let destination = self.text()?;
        let sources = (0..self.number()?).map(|_| self.conflict_source()).collect::<Option<_>>()?;
        Some(Conflict { destination, sources })
    }

    fn conflict_source(&mut self) -> Option<ConflictSource<'a>> {
        Some(ConflictSource { spec: self.number()?, source: self.source()? })
    }

    fn fix(&mut self) -> Option<Fix<'a>> {
        Some(Fix { name: self.text()?, spec: self.number()? })
    }
}

#[cfg(test)]
mod tests {
    use super::*;

    #[test]
    fn lengths_of_one_two_and_three_groups() {
        let texts = [0, 1, 127, 128, 300, 16_383, 16_384].map(|length| vec![b'x'; length]);
        let list = of(&texts);
        assert_eq!(list[..2], *b"\x00\x01");
        assert_eq!(list[131..133], *b"\x80\x01");
        assert!(records(&list).eq(&texts));
    }

    #[test]
    fn an_empty_list_has_no_records() {
        assert_eq!(of([b""; 0]), b"");
        assert_eq!(records(b"").count(), 0);
        assert_eq!(rows(b"").count(), 0);
        assert_eq!(conflicts(b"").count(), 0);
        assert_eq!(fixes(b"").count(), 0);
    }

    #[test]
    fn rows_with_and_without_item_and_destination() {
        let listing = b"\x00\x81\x01\x01\x02ab\x00\x82\x01\x00\x00\x00\x01";
        let found: Vec<_> = rows(listing).collect();
        let object = Row { item: None, spec: 129, source: Source::Object(b"ab"), destination: None };
        let empty = Row { item: Some(129), spec: 0, source: Source::Name(b""), destination: Some(b"") };
        assert_eq!(found, [object, empty]);
    }

    #[test]
    fn conflicts_of_names_and_object_ids() {
        let list = b"\x00\x02\x81\x01\x01\x02ab\x00\x00\x02ab\x01x\x02\x03\x00\x00\x03\x00\x01y";
        let found: Vec<_> = conflicts(list).collect();
        let object = ConflictSource { spec: 129, source: Source::Object(b"ab") };
        let name = ConflictSource { spec: 0, source: Source::Name(b"ab") };
        assert_eq!(found[0], Conflict { destination: b"", sources: vec![object, name] });
        let sources =
            [b"".as_slice(), b"y"].map(|name| ConflictSource { spec: 3, source: Source::Name(name) });
        assert_eq!(found[1..], [Conflict { destination: b"x", sources: sources.to_vec() }]);
    }

    #[test]
    fn fixes_in_a_row() {
        let found: Vec<_> = fixes(b"\x00\x81\x01\x02ab\x00").collect();
        assert_eq!(found, [Fix { name: b"", spec: 129 }, Fix { name: b"ab", spec: 0 }]);
    }
}
