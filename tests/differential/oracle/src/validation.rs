//! What gix-refspec answers about rows, its own or others.

use crate::{
    Group, Row,
    groups::{row, shown},
};
use bstr::BStr;
use gix_hash::ObjectId;
use gix_refspec::match_group::{
    Mapping, SourceRef, match_lhs,
    validate::{Error, Fix as Fixed, Issue},
};

/// A destination with two sources or more.
#[derive(Clone, Debug, PartialEq, Eq)]
pub struct Conflict {
    pub destination: Vec<u8>,
    pub sources: Vec<ConflictSource>,
}

/// A source in a conflict. The crate names its spec by the canonical text.
#[derive(Clone, Debug, PartialEq, Eq)]
pub struct ConflictSource {
    pub spec: Vec<u8>,
    /// Whether the source is an object id; it is shown in lower case then.
    pub object: bool,
    pub source: Vec<u8>,
}

/// A mapping that went out. The crate has its spec, of which the canonical text is
/// here.
#[derive(Clone, Debug, PartialEq, Eq)]
pub struct Fix {
    pub name: Vec<u8>,
    pub spec: Vec<u8>,
}

/// What `validated` answers.
#[derive(Clone, Debug, PartialEq, Eq)]
pub enum Verdict {
    Conflicts(Vec<Conflict>),
    Passed { kept: Vec<Row>, fixes: Vec<Fix> },
}

impl Group<'_> {
    /// `validated` on rows that are handed in, whoever made them. Their specs are those
    /// of this group.
    pub fn validated(&self, rows: &[Row]) -> Verdict {
        let mappings = rows.iter().map(mapping).collect();
        verdict(match_lhs::Outcome { group: self.matched(), mappings })
    }

    /// `validated` on what `match_lhs` answers, and how many rows that has.
    pub fn match_lhs_validated(&self, names: &[&[u8]]) -> (usize, Verdict) {
        let outcome = self.matched().match_lhs(self.items(names));
        (outcome.mappings.len(), verdict(outcome))
    }

    /// The canonical text of a spec.
    pub fn text(&self, spec: usize) -> Vec<u8> {
        self.specs[spec].to_bstring().to_vec()
    }
}

/// A row as the crate has it.
pub(crate) fn mapping(row: &Row) -> Mapping<'_, '_> {
    let lhs = if row.object {
        SourceRef::ObjectId(ObjectId::from_hex(&row.source).expect("forty digits"))
    } else {
        SourceRef::FullName(BStr::new(&row.source).into())
    };
    Mapping {
        item_index: row.item,
        lhs,
        rhs: row.destination.as_deref().map(|name| BStr::new(name).into()),
        spec_index: row.spec,
    }
}

fn verdict(outcome: match_lhs::Outcome) -> Verdict {
    match outcome.validated() {
        Ok((outcome, fixes)) => {
            let fix = |Fixed::MappingWithPartialDestinationRemoved { name, spec }: &Fixed| Fix {
                name: name.to_vec(),
                spec: spec.to_ref().to_bstring().to_vec(),
            };
            Verdict::Passed {
                kept: outcome.mappings.iter().map(row).collect(),
                fixes: fixes.iter().map(fix).collect(),
            }
        }
        Err(Error { issues }) => Verdict::Conflicts(issues.iter().map(conflict).collect()),
    }
}

fn conflict(Issue::Conflict { destination_full_ref_name, sources, specs }: &Issue) -> Conflict {
    assert_eq!(sources.len(), specs.len(), "a spec for each source");
    let source = |(source, spec): (&SourceRef, &bstr::BString)| {
        let (object, source) = shown(source);
        ConflictSource { spec: spec.to_vec(), object, source }
    };
    Conflict {
        destination: destination_full_ref_name.to_vec(),
        sources: sources.iter().zip(specs).map(source).collect(),
    }
}

#[cfg(test)]
mod tests {
    use super::*;

    fn group() -> Group<'static> {
        let texts = [b"refs/a/*:refs/b/*".as_slice(), b"+:b", b"refs/a/*:b/*"];
        Group::read(0, texts.into_iter()).ok().unwrap()
    }

    fn name(spec: usize, source: &[u8], destination: &[u8]) -> Row {
        let (source, destination) = (source.to_vec(), Some(destination.to_vec()));
        Row { item: None, spec, object: false, source, destination }
    }

    #[test]
    fn conflicts_name_specs_by_their_texts() {
        let object = Row { object: true, ..name(1, &[b'a'; 40], b"x") };
        let rows = [name(1, &[b'a'; 40], b"x"), object, name(0, &[b'a'; 40], b"x")];
        let source = |object| ConflictSource { spec: b"+HEAD:b".to_vec(), object, source: vec![b'a'; 40] };
        let sources = vec![source(false), source(true)];
        let conflict = Conflict { destination: b"x".to_vec(), sources };
        assert_eq!(group().validated(&rows), Verdict::Conflicts(vec![conflict]));
        assert_eq!(group().text(1), b"+HEAD:b");
    }

    #[test]
    fn partial_destinations_go_out() {
        let kept = vec![name(0, b"a", b"refs/b"), Row { destination: None, ..name(1, b"a", b"") }];
        let rows = [kept[0].clone(), name(1, b"a", b"b"), kept[1].clone()];
        let fixes = vec![Fix { name: b"b".to_vec(), spec: b"+HEAD:b".to_vec() }];
        assert_eq!(group().validated(&rows), Verdict::Passed { kept, fixes });
    }

    #[test]
    fn listings_are_validated() {
        let (rows, verdict) = group().match_lhs_validated(&[b"refs/a/x"]);
        let Verdict::Passed { kept, fixes } = verdict else { panic!() };
        assert_eq!((rows, kept.len(), fixes.len()), (2, 1, 1));
        assert_eq!(group().validated(&group().match_lhs(&[b"refs/a/x"])), Verdict::Passed { kept, fixes });
    }

    #[test]
    fn repeats_are_gone_before_validation() {
        let group = Group::read(0, [b"a*:b*".as_slice(), b"a*:b*"].into_iter()).ok().unwrap();
        let fix = || Fix { name: b"b".to_vec(), spec: b"a*:b*".to_vec() };
        let expected = Verdict::Passed { kept: vec![], fixes: vec![fix()] };
        assert_eq!(group.match_lhs_validated(&[b"a"]), (1, expected));
        let rows = [name(0, b"a", b"b"), name(1, b"a", b"b")];
        assert_eq!(group.validated(&rows), Verdict::Passed { kept: vec![], fixes: vec![fix(), fix()] });
    }
}
