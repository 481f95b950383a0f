//! Groups: both listings, the prefixes and the source view.

use crate::{
    Items, Mode, Refused, Spec,
    list::{Record, read_rows, read_specs},
    name::{capture, filled, halves, object},
    number::{write, write_text},
};
use std::collections::BTreeSet;

/// A row of a listing, its fields as they are written.
#[derive(Clone, Debug, PartialEq, Eq)]
pub struct Row {
    /// The item's number plus 1, or 0 for none.
    pub item: usize,
    pub spec: usize,
    /// 0 name, 1 object.
    pub kind: usize,
    pub source: Vec<u8>,
    pub destination: Option<Vec<u8>>,
}

impl Row {
    /// Appends the row's bytes.
    pub fn write(&self, out: &mut Vec<u8>) {
        write(out, self.item);
        write(out, self.spec);
        write(out, self.kind);
        write_text(out, &self.source);
        match &self.destination {
            None => write(out, 0),
            Some(destination) => {
                write(out, destination.len() + 1);
                out.extend(destination);
            }
        }
    }

    /// The bytes of a listing.
    pub fn list(rows: &[Row]) -> Vec<u8> {
        let mut out = Vec::new();
        rows.iter().for_each(|row| row.write(&mut out));
        out
    }
}

/// What the source view hands back.
#[derive(Clone, Copy, Debug, PartialEq, Eq)]
pub struct Part {
    /// Whether it is a part of the spec list, not of the item list.
    pub of_specs: bool,
    pub start: usize,
    pub length: usize,
}

/// A spec list that was read.
#[derive(Clone, Debug)]
pub struct Group<'a> {
    push: bool,
    specs: Vec<(Record<'a>, Spec<'a>)>,
}

impl<'a> Group<'a> {
    pub fn read(op: u64, list: &'a [u8]) -> Result<Group<'a>, Refused> {
        Ok(Group { push: op == 1, specs: read_specs(op, list)? })
    }

    /// The specs.
    pub fn specs(&self) -> impl ExactSizeIterator<Item = &Spec<'a>> {
        self.specs.iter().map(|(_, spec)| spec)
    }

    /// The specs' texts.
    pub fn texts(&self) -> impl ExactSizeIterator<Item = &'a [u8]> {
        self.specs.iter().map(|(record, _)| record.text)
    }

    /// A row list, read beside this group.
    pub fn rows(&self, list: &[u8]) -> Result<Vec<Row>, Refused> {
        read_rows(list, self.specs.len())
    }

    /// The forward listing.
    pub fn forward(&self, items: &Items) -> Vec<Row> {
        self.without_excluded(self.matched_forward(items))
    }

    /// The reverse listing.
    pub fn reverse(&self, items: &Items) -> Vec<Row> {
        self.without_excluded(self.matched_reverse(items))
    }

    /// "Forward rows: first one for each object source, in spec order, whatever the
    /// items; then by spec, then by item."
    pub fn matched_forward(&self, items: &Items) -> Vec<Row> {
        let mut rows = Vec::new();
        for (number, (_, spec)) in self.specs.iter().enumerate() {
            if let Some(digits) = object_source(spec) {
                let destination = spec.destination.map(completed);
                rows.push(Row { item: 0, spec: number, kind: 1, source: digits, destination });
            }
        }
        for (number, (_, spec)) in self.specs.iter().enumerate() {
            for (item, name) in items.names().enumerate() {
                if let Some(destination) = forward(spec, name) {
                    let source = name.to_vec();
                    rows.push(Row { item: item + 1, spec: number, kind: 0, source, destination });
                }
            }
        }
        rows
    }

    /// "Reverse rows need both sides, stand by spec and then by item, have source kind
    /// 0 always, and have the item's name as destination."
    pub fn matched_reverse(&self, items: &Items) -> Vec<Row> {
        let mut rows = Vec::new();
        for (number, (_, spec)) in self.specs.iter().enumerate() {
            for (item, name) in items.names().enumerate() {
                if let Some(source) = reverse(spec, name) {
                    let destination = Some(name.to_vec());
                    rows.push(Row { item: item + 1, spec: number, kind: 0, source, destination });
                }
            }
        }
        rows
    }

    /// "In both listings negatives remove rows by source name; rows of source kind 1
    /// stay." A negative source is a pattern or literal.
    fn without_excluded(&self, mut rows: Vec<Row>) -> Vec<Row> {
        for (_, spec) in self.specs.iter().filter(|(_, spec)| spec.mode == Mode::Negative) {
            let source = spec.source.expect("question 10");
            rows.retain(|row| row.kind == 1 || literally(source, &row.source).is_none());
        }
        rows
    }

    /// "The group's prefix list holds exactly once each prefix that `expand_prefixes`
    /// yields for some spec, in an order left open."
    pub fn prefixes(&self) -> BTreeSet<Vec<u8>> {
        self.specs.iter().flat_map(|(_, spec)| yielded(self.push, spec)).collect()
    }

    /// "The source view takes a forward row's item field and spec number. It hands
    /// back a part of the item list, or of the spec list for an object source. [..]
    /// The view gives 16 for numbers outside the lists, and for item field 0 where the
    /// source is no object id."
    pub fn view(&self, items: &Items, field: u64, spec: u64) -> Result<Part, Refused> {
        let outside = Refused::whole(16);
        let (record, spec) = usize::try_from(spec).ok().and_then(|n| self.specs.get(n)).ok_or(outside)?;
        if field == 0 {
            let digits = object_source(spec).ok_or(outside)?;
            return Ok(Part { of_specs: true, start: record.start + spec.sign, length: digits.len() });
        }
        let item = usize::try_from(field - 1).ok().and_then(|n| items.records.get(n)).ok_or(outside)?;
        Ok(Part { of_specs: false, start: item.start, length: item.text.len() })
    }
}

/// "Sources are read in this order: star, `refs/`, object id, partial name; a
/// negative source without a star is literal." The digits of one that is an object id.
fn object_source(spec: &Spec) -> Option<Vec<u8>> {
    if spec.mode == Mode::Negative {
        return None;
    }
    object(spec.source?)
}

/// Whether a positive spec matches a name, and with what destination.
fn forward(spec: &Spec, name: &[u8]) -> Option<Option<Vec<u8>>> {
    let source = spec.source?;
    if spec.mode == Mode::Negative || object(source).is_some() {
        return None;
    }
    if let Some(pattern) = halves(source) {
        let capture = capture(pattern, name)?;
        let fill = |side| filled(halves(side).expect("question 9"), capture);
        return Some(spec.destination.map(fill));
    }
    let matches = if source.starts_with(b"refs/") {
        source == name
    } else {
        candidates(source).iter().any(|candidate| candidate == name)
    };
    matches.then(|| spec.destination.map(completed))
}

/// "Reverse matching takes both sides literally or as patterns": the source that a
/// name is mapped back to.
fn reverse(spec: &Spec, name: &[u8]) -> Option<Vec<u8>> {
    if spec.mode == Mode::Negative {
        return None;
    }
    let (source, destination) = (spec.source?, spec.destination?);
    let capture = literally(destination, name)?;
    Some(match halves(source) {
        Some(pattern) => filled(pattern, capture),
        None => source.to_vec(),
    })
}

/// Whether a side, literal or a pattern, matches a name: the capture, which is empty
/// where there is no star.
fn literally<'a>(side: &[u8], name: &'a [u8]) -> Option<&'a [u8]> {
    match halves(side) {
        Some(pattern) => capture(pattern, name),
        None => (side == name).then_some(b""),
    }
}

/// "A literal destination outside `refs/` becomes `refs/heads/` and an object id's
/// lower-case digits, or `refs/` and the name for `tags/` and `remotes/`, or
/// `refs/heads/` and the name."
pub fn completed(destination: &[u8]) -> Vec<u8> {
    if destination.starts_with(b"refs/") {
        destination.to_vec()
    } else if let Some(digits) = object(destination) {
        [b"refs/heads/", &digits[..]].concat()
    } else if destination.starts_with(b"tags/") || destination.starts_with(b"remotes/") {
        [b"refs/", destination].concat()
    } else {
        [b"refs/heads/", destination].concat()
    }
}

/// "The candidates of a partial name follow six fixed frames."
fn candidates(name: &[u8]) -> [Vec<u8>; 6] {
    let framed = |start: &str, end: &str| [start.as_bytes(), name, end.as_bytes()].concat();
    [
        framed("", ""),
        framed("refs/", ""),
        framed("refs/tags/", ""),
        framed("refs/heads/", ""),
        framed("refs/remotes/", ""),
        framed("refs/remotes/", "/HEAD"),
    ]
}

/// The prefixes that a spec yields. "Only `HEAD` and names beginning `refs/` have a
/// `prefix`; negatives and names beginning `refs/*` have none. A starred name with `]`
/// has no prefix either."
fn yielded(push: bool, spec: &Spec) -> Vec<Vec<u8>> {
    let side = if push { spec.destination } else { spec.source };
    let Some(side) = side.filter(|_| spec.mode != Mode::Negative) else { return vec![] };
    if side == b"HEAD" {
        return vec![side.to_vec()];
    }
    let Some(rest) = side.strip_prefix(b"refs/") else {
        return if object(side).is_some() { vec![] } else { candidates(side).to_vec() };
    };
    match halves(side) {
        None => vec![side.to_vec()],
        Some((start, _)) if !rest.starts_with(b"*") && !rest.contains(&b']') => vec![start.to_vec()],
        // "A starred name beginning `refs/` that has no prefix yields itself where no
        // slash follows `refs/`, else nothing."
        Some(_) if rest.contains(&b'/') => vec![],
        Some(_) => vec![side.to_vec()],
    }
}

#[cfg(test)]
mod tests {
    use super::*;
    use crate::list;

    const DIGITS: &[u8] = b"0123456789ABCDEF0123456789abcdef01234567";

    /// The rows of a listing, as a line of text each: item field, spec, kind, source,
    /// destination.
    fn lines(rows: &[Row]) -> Vec<String> {
        let destination = |row: &Row| match &row.destination {
            Some(destination) => format!("={}", destination.escape_ascii()),
            None => "-".to_owned(),
        };
        let line = |row: &Row| {
            let source = row.source.escape_ascii();
            format!("{} {} {} {source} {}", row.item, row.spec, row.kind, destination(row))
        };
        rows.iter().map(line).collect()
    }

    fn both(op: u64, specs: &[&[u8]], items: &[&[u8]]) -> (Vec<String>, Vec<String>) {
        let (specs, items) = (list(specs), list(items));
        let (group, items) = (Group::read(op, &specs).unwrap(), Items::read(&items).unwrap());
        for rows in [group.forward(&items), group.reverse(&items)] {
            assert_eq!(group.rows(&Row::list(&rows)), Ok(rows), "a listing is read back");
        }
        (lines(&group.forward(&items)), lines(&group.reverse(&items)))
    }

    fn forward_rows(specs: &[&[u8]], items: &[&[u8]]) -> Vec<String> {
        both(0, specs, items).0
    }

    fn reverse_rows(specs: &[&[u8]], items: &[&[u8]]) -> Vec<String> {
        both(0, specs, items).1
    }

    fn prefixes(op: u64, specs: &[&[u8]]) -> Vec<String> {
        let specs = list(specs);
        let prefixes = Group::read(op, &specs).unwrap().prefixes();
        prefixes.iter().map(|prefix| prefix.escape_ascii().to_string()).collect()
    }

    #[test]
    fn the_sample() {
        let specs = [b"+refs/heads/*:refs/remotes/hub/*".as_slice(), b"^refs/heads/tmp*"];
        let items = [b"refs/heads/codes".as_slice(), b"refs/heads/tmp1"];
        assert_eq!(forward_rows(&specs, &items), ["1 0 0 refs/heads/codes =refs/remotes/hub/codes"]);
    }

    #[test]
    fn objects_first_and_whatever_the_items() {
        let object = [DIGITS, b":tags/x"].concat();
        let rows = forward_rows(&[b"a", &object, b"^*", DIGITS], &[]);
        let digits = "0123456789abcdef0123456789abcdef01234567";
        assert_eq!(rows, [format!("0 1 1 {digits} =refs/tags/x"), format!("0 3 1 {digits} -")]);
        assert_eq!(
            reverse_rows(&[&object], &[b"tags/x"]),
            [format!("1 0 0 {} =tags/x", DIGITS.escape_ascii())]
        );
    }

    #[test]
    fn partial_names_have_six_candidates_forward_and_one_in_reverse() {
        let items = [
            b"a".as_slice(),
            b"refs/a",
            b"refs/tags/a",
            b"refs/heads/a",
            b"refs/remotes/a",
            b"refs/remotes/a/HEAD",
            b"refs/b/a",
        ];
        assert_eq!(forward_rows(&[b"a"], &items).len(), 6);
        assert_eq!(reverse_rows(&[b"x:a"], &items), ["1 0 0 x =a"]);
        assert_eq!(forward_rows(&[b"refs/a"], &items).len(), 1);
        assert_eq!(forward_rows(&[b"*:x/*", b"^a"], &items).len(), 6, "a negative name is literal");
    }

    #[test]
    fn destinations_are_completed() {
        let to = |destination: &[u8]| {
            forward_rows(&[&[b"a:", destination].concat()], &[b"a"])[0].split('=').nth(1).unwrap().to_owned()
        };
        assert_eq!(to(b"refs/b"), "refs/b");
        assert_eq!(to(b"b"), "refs/heads/b");
        assert_eq!(to(b"HEAD"), "refs/heads/HEAD");
        assert_eq!(to(b"tags/b"), "refs/tags/b");
        assert_eq!(to(b"remotes/b"), "refs/remotes/b");
        assert_eq!(to(b"heads/b"), "refs/heads/heads/b");
        assert_eq!(to(DIGITS), "refs/heads/0123456789abcdef0123456789abcdef01234567");
        assert_eq!(forward_rows(&[b"a*:b*"], &[b"a"]), ["1 0 0 a =b"], "patterns are not");
    }

    #[test]
    fn negatives_look_at_the_source_in_both_listings() {
        let specs = [b"refs/a/*:refs/b/*".as_slice(), b"^refs/a/x"];
        assert_eq!(forward_rows(&specs, &[b"refs/a/x", b"refs/a/y"]), ["2 0 0 refs/a/y =refs/b/y"]);
        assert_eq!(reverse_rows(&specs, &[b"refs/b/x", b"refs/b/y"]), ["2 0 0 refs/a/y =refs/b/y"]);
    }

    #[test]
    fn repeats_are_kept() {
        assert_eq!(forward_rows(&[b"a:b", b"+a:b"], &[b"a", b"a"]).len(), 4);
    }

    #[test]
    fn pushes() {
        let (forward, reverse) =
            both(1, &[b"a", b":d", b":", b"a b:c"], &[b"a", b"d", b"c", b"a b", b"refs/heads/a b"]);
        assert_eq!(forward, ["1 0 0 a -", "4 3 0 a b =refs/heads/c", "5 3 0 refs/heads/a b =refs/heads/c"]);
        assert_eq!(reverse, ["3 3 0 a b =c"]);
    }

    #[test]
    fn which_prefixes() {
        assert_eq!(prefixes(0, &[b"refs/*:b/*"]), ["refs/*"]);
        assert_eq!(prefixes(0, &[b"refs/*/b:b/*"]), [""; 0]);
        assert_eq!(prefixes(0, &[b"refs/a]*:b*"]), ["refs/a]*"]);
        assert_eq!(prefixes(0, &[b"refs/a]/*:b*", DIGITS, b"^a"]), [""; 0]);
        assert_eq!(prefixes(0, &[b"refs/a/b*c:b*", b"refs/a/b", b"", b"HEAD"]), ["HEAD", "refs/a/b"]);
        assert_eq!(prefixes(0, &[b"a*:b*", b"a*:c*"]).len(), 6);
        assert_eq!(prefixes(1, &[b"a", b":refs/d"]), ["refs/d"]);
    }

    #[test]
    fn views() {
        let specs = list([b"a", &[b"+", DIGITS, b":a"].concat()[..]]);
        let items = list([b"x".as_slice(), b"", b"yz"]);
        let (group, items) = (Group::read(0, &specs).unwrap(), Items::read(&items).unwrap());
        let outside = Err(Refused::whole(16));
        let part = |of_specs, start, length| Ok(Part { of_specs, start, length });
        assert_eq!(group.view(&items, 0, 1), part(true, 4, 40));
        assert_eq!(group.view(&items, 0, 0), outside);
        assert_eq!(group.view(&items, 2, 0), part(false, 3, 0));
        assert_eq!(group.view(&items, 3, 1), part(false, 4, 2));
        assert_eq!(group.view(&items, 4, 1), outside);
        assert_eq!(group.view(&items, 1, 2), outside);
        assert_eq!(group.view(&items, u64::MAX, u64::MAX), outside);
    }
}
