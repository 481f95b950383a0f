use crate::{
    ListRefusal, Operation, Refusal, Spec,
    buffer::written,
    list::{self, Walk},
    parse, raw,
};

/// Specs that are used together for one operation, each of them accepted. At most 256,
/// which as a list have at most 65,535 bytes.
#[derive(Clone, Debug, PartialEq, Eq, Hash)]
pub struct Group {
    op: Operation,
    list: Vec<u8>,
}

/// The names that a group is asked about, counted from 0. At most 1,024, which as a list
/// have at most 65,535 bytes.
#[derive(Clone, Debug, PartialEq, Eq, Hash)]
pub struct Items {
    list: Vec<u8>,
}

impl Items {
    /// The items of these names.
    ///
    /// ```
    /// use vasigmon::Items;
    ///
    /// let items = Items::new(["HEAD", "refs/heads/main"])?;
    /// assert_eq!(items.names().nth(1), Some(b"refs/heads/main".as_slice()));
    /// # Ok::<(), vasigmon::ListRefusal>(())
    /// ```
    pub fn new<T: AsRef<[u8]>>(names: impl IntoIterator<Item = T>) -> Result<Items, ListRefusal> {
        Items::from_list(list::of(names))
    }

    /// The items of a byte list, as [`list::of`] makes it.
    pub fn from_list(list: Vec<u8>) -> Result<Items, ListRefusal> {
        accepted(Operation::Fetch, &[], &list)?;
        Ok(Items { list })
    }

    /// The names, in their order.
    pub fn names(&self) -> Walk<'_, &[u8]> {
        list::records(&self.list)
    }
}

impl Group {
    /// The group of these specs, in their order.
    ///
    /// ```
    /// use vasigmon::{Group, Operation, Refusal};
    ///
    /// let group = Group::new(Operation::Push, ["main:refs/heads/main", "^refs/heads/tmp*"])?;
    /// assert_eq!(group.specs().count(), 2);
    ///
    /// let refused = Group::new(Operation::Push, ["main:refs/heads/main", "main:"]).unwrap_err();
    /// assert_eq!((refused.refusal, refused.record), (Refusal::PushIntoNothing, Some(1)));
    /// # Ok::<(), vasigmon::ListRefusal>(())
    /// ```
    pub fn new<T: AsRef<[u8]>>(
        op: Operation,
        specs: impl IntoIterator<Item = T>,
    ) -> Result<Group, ListRefusal> {
        Group::from_list(op, list::of(specs))
    }

    /// The group of a byte list, as [`list::of`] makes it.
    pub fn from_list(op: Operation, list: Vec<u8>) -> Result<Group, ListRefusal> {
        accepted(op, &list, &[])?;
        Ok(Group { op, list })
    }

    /// What the specs are read for.
    pub fn operation(&self) -> Operation {
        self.op
    }

    /// The specs, in their order.
    pub fn specs(&self) -> impl Iterator<Item = Spec<'_>> {
        list::records(&self.list).map(|text| parse(self.op, text).expect("it was accepted before"))
    }

    /// The byte list of the specs.
    pub(crate) fn list(&self) -> &[u8] {
        &self.list
    }

    /// What the specs map the items to, sources to destinations: a listing, whose rows
    /// [`list::rows`] walks.
    ///
    /// First comes a row for each spec whose source is an object id, in the order of the
    /// specs; then rows by spec, and then by item. Negative specs give no rows and take
    /// away those of the names that they match. Nothing else is taken away: rows may
    /// repeat others.
    ///
    /// ```
    /// use vasigmon::{Group, Items, Operation, list::{self, Source}};
    ///
    /// let group = Group::new(Operation::Fetch, ["+refs/heads/*:refs/remotes/hub/*", "^refs/heads/tmp*"])?;
    /// let items = Items::new(["refs/heads/codes", "refs/heads/tmp1"])?;
    /// let listing = group.match_lhs(&items);
    ///
    /// let rows: Vec<_> = list::rows(&listing).collect();
    /// assert_eq!(rows.len(), 1);
    /// assert_eq!((rows[0].item, rows[0].spec), (Some(0), 0));
    /// assert_eq!(rows[0].source, Source::Name(b"refs/heads/codes"));
    /// assert_eq!(rows[0].destination, Some(b"refs/remotes/hub/codes".as_slice()));
    /// # Ok::<(), vasigmon::ListRefusal>(())
    /// ```
    pub fn match_lhs(&self, items: &Items) -> Vec<u8> {
        written(|out| raw::match_lhs(self.op as u64, &self.list, &items.list, out))
    }

    /// What the specs map the items back to, destinations to sources: a listing, by spec
    /// and then by item.
    ///
    /// Each row has the item's name as its destination, and as its source what the spec
    /// has there, literally, with what its star stood for. Negative specs take away rows
    /// by that source.
    ///
    /// ```
    /// use vasigmon::{Group, Items, Operation, list::{self, Source}};
    ///
    /// let group = Group::new(Operation::Fetch, ["refs/heads/*:refs/remotes/hub/*"])?;
    /// let listing = group.match_rhs(&Items::new(["refs/remotes/hub/codes"])?);
    /// assert_eq!(list::rows(&listing).next().unwrap().source, Source::Name(b"refs/heads/codes"));
    /// # Ok::<(), vasigmon::ListRefusal>(())
    /// ```
    pub fn match_rhs(&self, items: &Items) -> Vec<u8> {
        written(|out| raw::match_rhs(self.op as u64, &self.list, &items.list, out))
    }

    /// The prefixes of the names that the specs ask the remote for: each that
    /// [`Spec::expand_prefixes`] gives for some spec, once, in no order that is promised.
    ///
    /// ```
    /// use vasigmon::{Group, Operation};
    ///
    /// let group = Group::new(Operation::Fetch, ["refs/heads/a*:b*", "HEAD", "refs/heads/a", "^refs/heads/b"])?;
    /// let mut prefixes = group.prefixes();
    /// prefixes.sort();
    /// assert_eq!(prefixes, [b"HEAD".as_slice(), b"refs/heads/a"]);
    /// # Ok::<(), vasigmon::ListRefusal>(())
    /// ```
    pub fn prefixes(&self) -> Vec<Vec<u8>> {
        let list = written(|out| raw::group_prefixes(self.op as u64, &self.list, out));
        list::records(&list).map(<[u8]>::to_vec).collect()
    }

    /// The source of a row of [`Group::match_lhs`], by the row's item and spec: the item's
    /// name, or where there is no item the object id as the spec spells it. An item is
    /// found whichever spec of the group is named beside it. [`raw::source`] answers where
    /// in the lists it stands.
    ///
    /// ```
    /// use vasigmon::{Group, Items, Operation, Refusal};
    ///
    /// let group = Group::new(Operation::Fetch, ["+0123456789ABCDEF0123456789abcdef01234567:a"])?;
    /// let items = Items::new(["a", "refs/heads/a"])?;
    /// assert_eq!(group.source(&items, Some(1), 0)?, b"refs/heads/a");
    /// assert_eq!(group.source(&items, None, 0)?, b"0123456789ABCDEF0123456789abcdef01234567");
    /// assert_eq!(group.source(&items, Some(2), 0), Err(Refusal::OutsideTheLists));
    /// # Ok::<(), Box<dyn std::error::Error>>(())
    /// ```
    pub fn source<'a>(
        &'a self,
        items: &'a Items,
        item: Option<usize>,
        spec: usize,
    ) -> Result<&'a [u8], Refusal> {
        // No list has as many items as the largest number.
        let field = item.map_or(0, |item| (item as u64).saturating_add(1));
        let part = raw::source(self.op as u64, &self.list, &items.list, field, spec as u64);
        Refusal::told(part.refusal)?;
        let list = match part.list {
            0 => &items.list,
            1 => &self.list,
            number => unreachable!("no list has the number {number}"),
        };
        Ok(&list[part.start as usize..][..part.length as usize])
    }
}

/// Whether two lists are accepted: the source view reads both, and only then finds that no
/// list has a spec of this number.
fn accepted(op: Operation, specs: &[u8], items: &[u8]) -> Result<(), ListRefusal> {
    let answer = raw::source(op as u64, specs, items, 0, u64::MAX);
    if answer.refusal == Refusal::OutsideTheLists.number() {
        return Ok(());
    }
    ListRefusal::told(answer.refusal, answer.record)
}

#[cfg(test)]
mod tests {
    use super::*;
    use crate::list::{Row, Source};
    use Operation::{Fetch, Push};

    const DIGITS: &[u8] = b"0123456789ABCDEF0123456789abcdef01234567";

    fn group<const N: usize>(op: Operation, specs: [&[u8]; N]) -> Group {
        Group::new(op, specs).unwrap()
    }

    fn items<const N: usize>(names: [&[u8]; N]) -> Items {
        Items::new(names).unwrap()
    }

    #[test]
    fn specs_and_names_are_as_they_were_given() {
        let group = group(Push, [b"+a:b", b"^c"]);
        assert_eq!(group.operation(), Push);
        assert!(group.specs().map(|spec| spec.text()).eq([b"+a:b".as_slice(), b"^c"]));
        assert!(group.specs().all(|spec| spec.operation() == Push));
        assert!(items([b"", b"a"]).names().eq([b"".as_slice(), b"a"]));
    }

    #[test]
    fn objects_come_first_and_negatives_leave_them() {
        let lower = DIGITS.to_ascii_lowercase();
        let object = [DIGITS, b":x"].concat();
        let listing = group(Fetch, [b"*:refs/x/*", &object, b"^*"]).match_lhs(&items([b"a"]));
        let row = Row {
            item: None,
            spec: 1,
            source: Source::Object(&lower),
            destination: Some(b"refs/heads/x".as_slice()),
        };
        assert_eq!(list::rows(&listing).collect::<Vec<_>>(), [row]);
        assert_eq!(row.source.text(), lower);
        let listing = group(Fetch, [b"*:refs/x/*", &object]).match_lhs(&items([b"a"]));
        let numbers: Vec<_> = list::rows(&listing).map(|row| (row.item, row.spec)).collect();
        assert_eq!(numbers, [(None, 1), (Some(0), 0)]);
    }

    #[test]
    fn a_one_sided_push_has_no_destination() {
        let group = group(Push, [b"main"]);
        let listing = group.match_lhs(&items([b"refs/heads/main"]));
        assert_eq!(list::rows(&listing).next().unwrap().destination, None);
        assert_eq!(group.match_rhs(&items([b"main"])), b"");
    }

    #[test]
    fn no_specs_and_no_items() {
        let (group, items) = (group(Fetch, []), items([]));
        assert_eq!(group.specs().count(), 0);
        assert_eq!(group.match_lhs(&items), b"");
        assert_eq!(group.match_rhs(&items), b"");
        assert_eq!(group.prefixes(), [b""; 0]);
        assert_eq!(group.source(&items, None, 0), Err(Refusal::OutsideTheLists));
    }

    #[test]
    fn the_view_has_edges() {
        let outside = Err(Refusal::OutsideTheLists);
        let (group, items) = (group(Fetch, [b"a", DIGITS]), items([b"x", b""]));
        assert_eq!(group.source(&items, Some(0), 0), Ok(b"x".as_slice()));
        assert_eq!(group.source(&items, Some(1), 1), Ok(b"".as_slice()));
        assert_eq!(group.source(&items, Some(2), 1), outside);
        assert_eq!(group.source(&items, Some(usize::MAX), 1), outside);
        assert_eq!(group.source(&items, Some(0), 2), outside);
        assert_eq!(group.source(&items, None, 0), outside);
        assert_eq!(group.source(&items, None, 1), Ok(DIGITS), "as the spec spells it");
    }

    #[test]
    fn listings_longer_than_the_first_buffer() {
        let name = [b'a'; 4096];
        let group = group(Fetch, [b"*:refs/*"]);
        let listing = group.match_lhs(&items([&name]));
        let row = list::rows(&listing).next().unwrap();
        assert_eq!(row.source, Source::Name(&name));
        assert_eq!(row.destination.unwrap(), [b"refs/", &name[..]].concat());
        let listing = group.match_rhs(&items([row.destination.unwrap()].map(|name| &name[..4096])));
        assert_eq!(list::rows(&listing).next().unwrap().source, Source::Name(&name[..4091]));
    }
}
