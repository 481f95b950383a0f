//! What the examples read and print: lines of text.

use std::{borrow::Cow, error::Error, io};
use vasigmon::{
    Group, Items, Operation,
    list::{Row, Source},
};

/// The group and the items that standard input has: lines `fetch SPEC` and `name NAME`,
/// between blank lines and comments that begin with `#`.
pub fn read() -> Result<(Group, Items), Box<dyn Error>> {
    let (mut specs, mut names) = (Vec::new(), Vec::new());
    for line in io::stdin().lines() {
        let line = line?;
        match line.split_once(' ') {
            _ if line.is_empty() || line.starts_with('#') => {}
            Some(("fetch", spec)) => specs.push(spec.to_owned()),
            Some(("name", name)) => names.push(name.to_owned()),
            _ => return Err(format!("neither `fetch SPEC` nor `name NAME`: {line}").into()),
        }
    }
    let group = Group::new(Operation::Fetch, specs).map_err(|refused| format!("specs: {refused}"))?;
    let items = Items::new(names).map_err(|refused| format!("names: {refused}"))?;
    Ok((group, items))
}

/// A row in print.
pub fn arrow(row: Row<'_>) -> String {
    match row.destination {
        Some(destination) => format!("{} -> {}", source(row.source), text(destination)),
        None => format!("{} -> nothing", source(row.source)),
    }
}

/// A source in print.
pub fn source(source: Source<'_>) -> String {
    match source {
        Source::Name(name) => text(name).into_owned(),
        Source::Object(digits) => format!("object {}", text(digits)),
    }
}

/// Bytes in print.
pub fn text(bytes: &[u8]) -> Cow<'_, str> {
    String::from_utf8_lossy(bytes)
}
