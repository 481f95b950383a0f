//! Random refs and fetch specs.

use crate::{git::REFS, outcome::Text};
use cases::Random;

/// Names of refs. No set of refs has two of which one is a folder of the other.
const NAMES: &[&str] = &[
    "refs/heads/a",
    "refs/heads/a",
    "refs/heads/b",
    "refs/heads/ab",
    "refs/heads/ba",
    "refs/heads/main",
    "refs/heads/x/a",
    "refs/heads/x/b",
    "refs/heads/x/y/z",
    "refs/heads/tmp1",
    "refs/heads/HEAD",
    "refs/heads/refs/a",
    "refs/heads/a.b",
    "refs/heads/-a",
    "refs/heads/é",
    "refs/tags/a",
    "refs/tags/v1",
    "refs/tags/v2",
    "refs/tags/x/v1",
    "refs/remotes/hub/a",
    "refs/remotes/hub/HEAD",
    "refs/notes/n",
    "refs/a",
    "refs/q/a",
];

/// Sources and destinations of patterns. The last destinations are partial.
const SOURCES: &[&str] = &[
    "refs/heads/*",
    "refs/heads/*",
    "refs/heads/*",
    "refs/tags/*",
    "refs/*",
    "*",
    "refs/heads/a*",
    "refs/heads/*a",
    "refs/heads/x/*",
    "refs/heads/x/*/z",
    "refs/*/a",
    "refs/heads/*b",
];

const DESTINATIONS: &[&str] = &[
    "refs/x/*",
    "refs/x/*",
    "refs/y/*",
    "refs/remotes/hub/*",
    "refs/heads/*",
    "refs/x/p-*",
    "refs/x/*-s",
    "refs/*/z",
    "*",
    "y/*",
    "y*",
    "*y",
];

/// Destinations of literal specs.
const LITERALS: &[&str] = &[
    "refs/x/a",
    "refs/x/a",
    "refs/x/b",
    "refs/y/a",
    "b",
    "tags/t",
    "remotes/r/q",
    "x/a",
    "HEAD",
    "refs",
    "heads/b",
    "0123456789abcdef0123456789abcdef01234567",
    "0123456789ABCDEF0123456789abcdef01234567",
];

const NEGATIVES: &[&str] = &[
    "^refs/heads/a",
    "^refs/heads/a*",
    "^refs/heads/x/*",
    "^refs/tags/*",
    "^*b",
    "^*/a",
    "^HEAD",
    "^@",
    "^a",
    "^refs/heads/none",
    "^*",
];

/// Some refs, in the order in which Git lists them.
pub fn refs(random: &mut Random) -> Vec<Text> {
    let mut names: Vec<Text> = Vec::new();
    for _ in 0..1 + random.below(REFS - 2) {
        let name = random.pick(NAMES).as_bytes();
        let folder = |one: &[u8], other: &[u8]| other.starts_with(&[one, b"/"].concat());
        if !names.iter().any(|other| other == name || folder(other, name) || folder(name, other)) {
            names.push(name.to_vec());
        }
    }
    names.sort();
    if !random.once_in(3) {
        names.insert(0, b"HEAD".to_vec());
    }
    names
}

/// One to six specs for such refs. Most of them have something to fetch, and they share
/// few destinations.
pub fn specs(names: &[Text], objects: &[Text], random: &mut Random) -> Vec<Text> {
    let patterns = [(); 2].map(|()| random.pick(DESTINATIONS));
    let literals = [(); 2].map(|()| random.pick(LITERALS));
    let count = 1 + random.below(6);
    let mut maker = Maker { names, objects, patterns, literals, random };
    (0..count).map(|_| maker.spec()).collect()
}

/// Makes the specs of one group.
struct Maker<'a> {
    names: &'a [Text],
    objects: &'a [Text],
    patterns: [&'static str; 2],
    literals: [&'static str; 2],
    random: &'a mut Random,
}

impl Maker<'_> {
    fn spec(&mut self) -> Text {
        let sign = self.random.pick(&["", "", "+"]);
        let source = match self.random.below(14) {
            0..=5 => {
                let (source, destination) = (self.random.pick(SOURCES), self.random.pick(&self.patterns));
                return format!("{sign}{source}:{destination}").into_bytes();
            }
            6 | 7 => return self.random.pick(NEGATIVES).into(),
            8 => {
                let object = self.objects[self.random.below(self.objects.len())].clone();
                if self.random.once_in(4) { object.to_ascii_uppercase() } else { object }
            }
            9 => self.random.pick(&["", "@", "HEAD"]).into(),
            10 | 11 => self.names[self.random.below(self.names.len())].clone(),
            _ => self.partial(),
        };
        let destination = match self.random.below(4) {
            0 => "",
            1 if self.random.once_in(4) => ":",
            1 => &format!(":{}", self.random.pick(LITERALS)),
            _ => &format!(":{}", self.random.pick(&self.literals)),
        };
        [sign.as_bytes(), &source, destination.as_bytes()].concat()
    }

    /// The end of a name, which may complete to that name.
    fn partial(&mut self) -> Text {
        let name = &self.names[self.random.below(self.names.len())];
        let starts = ["refs/heads/", "refs/tags/", "refs/remotes/", "refs/"];
        let ends: Vec<&[u8]> =
            starts.iter().filter_map(|start| name.strip_prefix(start.as_bytes())).collect();
        if ends.is_empty() { name.clone() } else { self.random.pick(&ends).to_vec() }
    }
}
