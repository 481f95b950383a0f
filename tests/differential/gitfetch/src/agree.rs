//! On which groups Git and we agree. The others are set aside, each for a reason that
//! ../differences.txt has an example of.

use crate::outcome::Text;
use paper::{Group, Items, Mode, Row, Spec, Verdict};
use std::collections::BTreeSet;
use vasigmon::{Operation, list};

/// Every reason.
#[cfg(test)]
pub const REASONS: [&str; 15] = [
    "a conflict on a destination that is no name",
    "a conflict on a partial destination",
    "a conflict with an object id",
    "a destination HEAD",
    "a destination below another",
    "a destination of forty digits with capitals",
    "a destination that begins heads/",
    "a destination that is no name",
    "a full name found below another",
    "a literal source that is absent",
    "a partial name with several candidates",
    "a spec that we refuse",
    "an object id in two spellings",
    "an object id under a negative",
    "no specs",
];

/// Why a group is set aside, if it is.
pub fn reason(specs: &[Text], names: &[Text]) -> Option<&'static str> {
    let (specs, items) = (list::of(specs), list::of(names));
    let (group, items) = match (Group::read(0, &specs), Items::read(&items)) {
        (Ok(group), Ok(items)) => (group, items),
        _ => return Some("a spec that we refuse"),
    };
    if group.specs().len() == 0 {
        return Some("no specs");
    }
    group.specs().find_map(|spec| of_spec(spec, names)).or_else(|| of_rows(&group, &items))
}

fn of_spec(spec: &Spec, names: &[Text]) -> Option<&'static str> {
    let source = spec.source.filter(|_| spec.mode != Mode::Negative)?;
    if let Some(destination) = spec.destination.filter(|side| !side.contains(&b'*')) {
        if destination.starts_with(b"heads/") {
            return Some("a destination that begins heads/");
        }
        if destination.len() == 40 && destination.iter().all(u8::is_ascii_hexdigit) && !is_lower(destination)
        {
            return Some("a destination of forty digits with capitals");
        }
    }
    if source.contains(&b'*') || is_object(source) {
        return None;
    }
    let frames: [(&[u8], &[u8]); 6] = [
        (b"", b""),
        (b"refs/", b""),
        (b"refs/tags/", b""),
        (b"refs/heads/", b""),
        (b"refs/remotes/", b""),
        (b"refs/remotes/", b"/HEAD"),
    ];
    let candidates = frames.map(|(start, end)| [start, source, end].concat());
    let there: Vec<&Text> = candidates.iter().filter(|name| names.contains(name)).collect();
    match there[..] {
        [] => Some("a literal source that is absent"),
        // Git takes the first candidate, which is the name itself.
        [first, ..] if source.starts_with(b"refs/") => {
            (first != source).then_some("a full name found below another")
        }
        [_] => None,
        _ => Some("a partial name with several candidates"),
    }
}

fn of_rows(group: &Group, items: &Items) -> Option<&'static str> {
    let rows = group.forward(items);
    let objects: Vec<&Row> = rows.iter().filter(|row| row.kind == 1).collect();
    let matches = |spec: &Spec, digits: &[u8]| {
        let source = spec.source.expect("question 10");
        match source.iter().position(|byte| *byte == b'*') {
            Some(star) => {
                digits.strip_prefix(&source[..star]).is_some_and(|rest| rest.ends_with(&source[star + 1..]))
            }
            None => source == digits,
        }
    };
    let negatives = || group.specs().filter(|spec| spec.mode == Mode::Negative);
    let spelled =
        |row: &Row| group.specs().nth(row.spec).and_then(|spec| spec.source).unwrap_or_default().to_vec();
    if objects.iter().any(|row| negatives().any(|spec| matches(spec, &spelled(row)))) {
        return Some("an object id under a negative");
    }
    match Verdict::on(&rows) {
        Verdict::Conflicts(conflicts) => {
            let partial = |name: &[u8]| !name.starts_with(b"refs/");
            if conflicts.iter().any(|conflict| partial(&conflict.destination)) {
                return Some("a conflict on a partial destination");
            }
            if conflicts.iter().any(|conflict| !well_formed(&conflict.destination)) {
                return Some("a conflict on a destination that is no name");
            }
            let object = |conflict: &paper::Conflict| conflict.sources.iter().any(|source| source.kind == 1);
            if conflicts.iter().any(object) {
                return Some("a conflict with an object id");
            }
            // Rows on such a destination are no conflict of ours, and are one of Git's.
            same_object_twice(&objects, spelled)
        }
        Verdict::Passed { kept, .. } => {
            let destinations: BTreeSet<&Text> =
                kept.iter().filter_map(|row| row.destination.as_ref()).collect();
            if destinations.iter().any(|name| *name == b"HEAD") {
                return Some("a destination HEAD");
            }
            if destinations.iter().any(|name| !well_formed(name)) {
                return Some("a destination that is no name");
            }
            let below = |name: &&&Text| {
                let folder = [&name[..], b"/"].concat();
                destinations.iter().any(|other| other.starts_with(&folder))
            };
            if destinations.iter().any(|name| below(&name)) {
                return Some("a destination below another");
            }
            same_object_twice(&objects, spelled)
        }
    }
}

/// Git takes an object id in two spellings for two sources.
fn same_object_twice(objects: &[&Row], spelled: impl Fn(&Row) -> Text) -> Option<&'static str> {
    let twice = objects.iter().any(|one| {
        objects.iter().any(|other| {
            one.destination.is_some()
                && one.destination == other.destination
                && one.source == other.source
                && spelled(one) != spelled(other)
        })
    });
    twice.then_some("an object id in two spellings")
}

fn is_object(text: &[u8]) -> bool {
    text.len() == 40 && text.iter().all(u8::is_ascii_hexdigit)
}

fn is_lower(text: &[u8]) -> bool {
    !text.iter().any(u8::is_ascii_uppercase)
}

/// Whether a name passes the name rules, as the destination of a spec.
fn well_formed(name: &[u8]) -> bool {
    vasigmon::parse(Operation::Fetch, &[b"a:", name].concat())
        .is_ok_and(|spec| spec.destination() == Some(name))
}
