//! What gix-refspec answers about a group of specs.

use crate::{operation, refusal::refusal, validation::mapping};
use bstr::BStr;
use gix_hash::ObjectId;
use gix_refspec::{
    MatchGroup, RefSpecRef,
    match_group::{Item, Mapping, SourceRef},
    parse::Operation,
};
use std::hash::{DefaultHasher, Hash, Hasher};

/// A row of a listing.
#[derive(Clone, Debug, PartialEq, Eq)]
pub struct Row {
    /// The item's number, from 0.
    pub item: Option<usize>,
    pub spec: usize,
    /// Whether the source is an object id; it is shown in lower case then.
    pub object: bool,
    pub source: Vec<u8>,
    pub destination: Option<Vec<u8>>,
}

impl Row {
    /// The hash by which the crate tells whether a mapping repeats another, made as its
    /// private `calculate_hash` makes it.
    pub fn crate_hash(&self) -> u64 {
        let mut state = DefaultHasher::new();
        mapping(self).hash(&mut state);
        state.finish()
    }
}

/// Specs that the crate has read.
pub struct Group<'a> {
    operation: Operation,
    pub(crate) specs: Vec<RefSpecRef<'a>>,
    /// What the items are said to point at. It must not matter, so it is what might:
    /// an object id that is a source.
    target: ObjectId,
}

impl<'a> Group<'a> {
    /// Reads specs for operation 0 (fetch) or 1 (push), or answers the number of the
    /// first that is refused, and of the question that refuses it.
    pub fn read(op: u64, texts: impl Iterator<Item = &'a [u8]>) -> Result<Group<'a>, (usize, u64)> {
        let operation = operation(op);
        let parse = |(number, text): (usize, &'a [u8])| {
            gix_refspec::parse(BStr::new(text), operation)
                .map_err(|error| (number, refusal(op, text, &error)))
        };
        let specs: Vec<RefSpecRef> = texts.enumerate().map(parse).collect::<Result<_, _>>()?;
        let objects = specs.iter().filter_map(|spec| ObjectId::from_hex(spec.source()?).ok());
        let target = objects.last().unwrap_or_else(|| gix_hash::Kind::shortest().null());
        Ok(Group { operation, specs, target })
    }

    /// The rows of `match_lhs`. The crate removes repeats.
    pub fn match_lhs(&self, names: &[&[u8]]) -> Vec<Row> {
        self.matched().match_lhs(self.items(names)).mappings.iter().map(row).collect()
    }

    /// The rows of `match_rhs`. The crate removes repeats.
    pub fn match_rhs(&self, names: &[&[u8]]) -> Vec<Row> {
        self.matched().match_rhs(self.items(names)).mappings.iter().map(row).collect()
    }

    /// What `expand_prefixes` yields for each spec in turn.
    pub fn prefixes(&self) -> Vec<Vec<u8>> {
        let mut prefixes = Vec::new();
        self.specs.iter().for_each(|spec| spec.expand_prefixes(&mut prefixes));
        prefixes.iter().map(|prefix| prefix.to_vec()).collect()
    }

    pub(crate) fn matched(&self) -> MatchGroup<'a> {
        match self.operation {
            Operation::Fetch => MatchGroup::from_fetch_specs(self.specs.iter().copied()),
            Operation::Push => MatchGroup::from_push_specs(self.specs.iter().copied()),
        }
    }

    pub(crate) fn items<'b>(&'b self, names: &'b [&'b [u8]]) -> impl Iterator<Item = Item<'b>> + Clone {
        names.iter().map(|name| Item {
            full_ref_name: BStr::new(name),
            target: &self.target,
            object: Some(&self.target),
        })
    }
}

pub(crate) fn row(mapping: &Mapping) -> Row {
    let (object, source) = shown(&mapping.lhs);
    Row {
        item: mapping.item_index,
        spec: mapping.spec_index,
        object,
        source,
        destination: mapping.rhs.as_ref().map(|name| name.to_vec()),
    }
}

/// Whether a source is an object id, and its name or digits.
pub(crate) fn shown(source: &SourceRef) -> (bool, Vec<u8>) {
    match source {
        SourceRef::FullName(name) => (false, name.to_vec()),
        SourceRef::ObjectId(id) => (true, id.to_string().into_bytes()),
    }
}

#[cfg(test)]
mod tests {
    use super::*;

    const DIGITS: &[u8] = b"ABCDEFabcdef0123456789ABCDEFabcdef012345";

    #[test]
    fn both_listings() {
        let object = [DIGITS, b":b"].concat();
        let texts = [b"refs/a/*:refs/b/*".as_slice(), b"^refs/a/x", &object];
        let group = Group::read(0, texts.into_iter()).ok().unwrap();
        let digits = DIGITS.to_ascii_lowercase();
        let to_b = Some(b"refs/heads/b".to_vec());
        assert_eq!(
            group.match_lhs(&[b"refs/a/x", b"refs/a/y"]),
            [
                Row { item: None, spec: 2, object: true, source: digits, destination: to_b },
                Row {
                    item: Some(1),
                    spec: 0,
                    object: false,
                    source: b"refs/a/y".to_vec(),
                    destination: Some(b"refs/b/y".to_vec())
                }
            ]
        );
        let back = group.match_rhs(&[b"refs/b/y", b"b", b"refs/b/x"]);
        assert_eq!(back.iter().map(|row| &row.source[..]).collect::<Vec<_>>(), [b"refs/a/y", DIGITS]);
        assert_eq!(group.prefixes(), [b"refs/a/"]);
    }

    #[test]
    fn repeats_have_one_hash() {
        let row = Row { item: None, spec: 0, object: false, source: b"a".to_vec(), destination: None };
        let hash = row.crate_hash();
        assert_eq!(Row { item: Some(1), spec: 1, ..row.clone() }.crate_hash(), hash);
        assert_ne!(Row { source: b"b".to_vec(), ..row.clone() }.crate_hash(), hash);
        assert_ne!(Row { destination: Some(b"".to_vec()), ..row }.crate_hash(), hash);
    }

    #[test]
    fn the_first_that_is_refused() {
        let texts = [b"a".as_slice(), b"a:", b"**"];
        assert_eq!(Group::read(1, texts.into_iter()).err(), Some((1, 4)));
        assert_eq!(Group::read(0, texts.into_iter()).err(), Some((2, 5)));
    }
}
