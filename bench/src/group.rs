//! Specs and items for both sides, and the rows that these make of them.

use crate::texts::Texts;
use bstr::BStr;
use gix_hash::{Kind, ObjectId};
use gix_refspec::{
    MatchGroup,
    match_group::{Item, Mapping, SourceRef},
    parse::Operation,
};
use vasigmon::{Items, list};

/// Specs, and names that are matched with them.
#[derive(Clone, Copy)]
pub struct Group {
    pub specs: Texts,
    pub items: Texts,
    /// What all items point at; no listing shows it.
    target: &'static ObjectId,
}

impl Group {
    pub fn new(specs: Texts, items: Texts) -> Group {
        Group { specs, items, target: Box::leak(Box::new(Kind::shortest().null())) }
    }

    /// The specs as the archive reads them.
    pub fn read_by_the_archive(self) -> vasigmon::Group {
        vasigmon::Group::new(vasigmon::Operation::Fetch, self.specs).expect("good specs")
    }

    /// The items as the archive takes them.
    pub fn items_for_the_archive(self) -> Items {
        Items::new(self.items).expect("good names")
    }

    /// The specs as the crate reads them.
    pub fn read_by_the_crate(self) -> MatchGroup<'static> {
        let read = |spec: &'static String| {
            gix_refspec::parse(BStr::new(spec.as_bytes()), Operation::Fetch).expect("a good spec")
        };
        MatchGroup::from_fetch_specs(self.specs.iter().map(read))
    }

    /// The items as the crate takes them.
    pub fn items_for_the_crate(self) -> impl Iterator<Item = Item<'static>> + Clone {
        self.items.iter().map(move |name| Item {
            full_ref_name: BStr::new(name.as_bytes()),
            target: self.target,
            object: None,
        })
    }
}

/// A row in the terms of neither side: item, spec, source and destination.
pub type Row = (Option<usize>, usize, Vec<u8>, Option<Vec<u8>>);

/// The rows of a list that the archive wrote.
pub fn rows_of_the_archive(listing: &[u8]) -> Vec<Row> {
    let row = |row: list::Row| {
        (row.item, row.spec, row.source.text().to_vec(), row.destination.map(<[u8]>::to_vec))
    };
    list::rows(listing).map(row).collect()
}

/// The rows that the crate collected.
pub fn rows_of_the_crate(mappings: &[Mapping]) -> Vec<Row> {
    let row = |row: &Mapping| {
        let destination = row.rhs.as_ref().map(|name| name.to_vec());
        (row.item_index, row.spec_index, bytes(&row.lhs), destination)
    };
    mappings.iter().map(row).collect()
}

/// A source of the crate, as the archive would write it.
pub fn bytes(source: &SourceRef) -> Vec<u8> {
    match source {
        SourceRef::FullName(name) => name.to_vec(),
        SourceRef::ObjectId(id) => id.to_string().into_bytes(),
    }
}
