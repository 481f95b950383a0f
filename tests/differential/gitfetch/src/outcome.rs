//! What comes of a fetch or a push.

use std::{
    collections::{BTreeMap, BTreeSet},
    fmt,
};

/// A name or an object id, or what Git says.
pub type Text = Vec<u8>;

/// What comes of a fetch or a push, in Git or by us.
#[derive(Clone, Debug, PartialEq, Eq)]
pub enum Outcome {
    Done {
        /// The sources, by spec and then by item: what Git writes to FETCH_HEAD.
        fetched: Vec<Text>,
        /// The source that each destination is written from.
        written: BTreeMap<Text, Text>,
        /// The destinations of rows that went out.
        left_out: Vec<Text>,
    },
    Pushed {
        /// Sources, each with the ref of the remote that it is pushed to, if there is one.
        pushed: BTreeSet<(Text, Option<Text>)>,
        /// Refs of the remote that are deleted.
        deleted: BTreeSet<Text>,
    },
    /// Two sources of one destination, of the first row that is in conflict with one
    /// before it.
    Conflict { sources: [Text; 2], destination: Text },
    /// Anything else, in words.
    Refused(String),
}

impl fmt::Display for Outcome {
    fn fmt(&self, f: &mut fmt::Formatter<'_>) -> fmt::Result {
        match self {
            Outcome::Done { fetched, written, left_out } => {
                let fetched = fetched.iter().map(|name| format!("fetch {}", name.escape_ascii()));
                let written = written.iter().map(|(name, source)| {
                    format!("write {} from {}", name.escape_ascii(), source.escape_ascii())
                });
                let left_out = left_out.iter().map(|name| format!("leave out {}", name.escape_ascii()));
                f.write_str(&joined(fetched.chain(written).chain(left_out)))
            }
            Outcome::Pushed { pushed, deleted } => {
                let pushed = pushed.iter().map(|(source, destination)| match destination {
                    Some(name) => format!("push {} to {}", source.escape_ascii(), name.escape_ascii()),
                    None => format!("push {}, no destination", source.escape_ascii()),
                });
                let deleted = deleted.iter().map(|name| format!("delete {}", name.escape_ascii()));
                f.write_str(&joined(pushed.chain(deleted)))
            }
            Outcome::Conflict { sources: [one, other], destination } => write!(
                f,
                "conflict of {} and {} on {}",
                one.escape_ascii(),
                other.escape_ascii(),
                destination.escape_ascii()
            ),
            Outcome::Refused(why) => f.write_str(why),
        }
    }
}

/// What is done, in one line.
fn joined(parts: impl Iterator<Item = String>) -> String {
    let all: Vec<String> = parts.collect();
    if all.is_empty() { "nothing".to_owned() } else { all.join("; ") }
}
