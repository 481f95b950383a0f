use crate::{
    Random, SPEC_LIMIT,
    specs::{damaged, grown},
};

/// Specs and items that go together, as texts.
#[derive(Clone, Debug)]
pub struct Group {
    pub specs: Vec<Vec<u8>>,
    pub items: Vec<Vec<u8>>,
}

/// What names begin with.
const STARTS: &[&[u8]] = &[
    b"",
    b"",
    b"refs/",
    b"refs/heads/",
    b"refs/heads/",
    b"refs/tags/",
    b"refs/remotes/",
    b"refs/remotes/hub/",
    b"tags/",
    b"remotes/",
    b"heads/",
];

/// What follows: few words, some of which begin or end others, so that names meet.
const WORDS: &[&[u8]] =
    &[b"a", b"b", b"aa", b"ab", b"aba", b"main", b"HEAD", b"tmp1", b"a/b", b"a/HEAD", b"x.y", b"]", b"\xff"];

/// Sources that only a push with a destination may have.
const REVISIONS: &[&[u8]] = &[
    b":/fix",
    b"main~1",
    b"HEAD^{}",
    b"a b",
    b"@{-1}",
    b"a..b",
    b":",
    b"refs/heads/a b",
    b"\x00",
    b"main:a",
];

/// What a star stands for.
const CAPTURES: &[&[u8]] =
    &[b"", b"", b"a", b"b", b"ab", b"main", b"tmp1", b"HEAD", b"a/b", b"*", b"b*a", b":", b"/", b"\x00"];

/// A group of up to so many specs and items, which share what they are made of.
/// Most specs are accepted for `op`, 0 fetch or 1 push.
pub fn group(op: u64, most_specs: usize, most_items: usize, random: &mut Random) -> Group {
    group_of(op, random.below(most_specs + 1), random.below(most_items + 1), random)
}

/// A group of that many specs and items.
pub fn group_of(op: u64, specs: usize, items: usize, random: &mut Random) -> Group {
    let mut maker = Maker::new(op, random);
    let specs: Vec<Vec<u8>> = (0..specs).map(|_| maker.spec()).collect();
    let mut names: Vec<Vec<u8>> = Vec::with_capacity(items);
    for _ in 0..items {
        let name = match names.len() {
            0 => maker.item(&specs),
            known if maker.random.once_in(12) => names[maker.random.below(known)].clone(),
            _ => maker.item(&specs),
        };
        names.push(name);
    }
    Group { specs, items: names }
}

/// Makes the texts of one group.
struct Maker<'a> {
    random: &'a mut Random,
    push: bool,
    /// Names and patterns that several specs may have.
    names: Vec<Vec<u8>>,
    patterns: Vec<Vec<u8>>,
    objects: [Vec<u8>; 2],
}

impl Maker<'_> {
    fn new(op: u64, random: &mut Random) -> Maker<'_> {
        let names = (0..3).map(|_| name(random)).collect();
        let patterns = (0..3).map(|_| pattern(random)).collect();
        let objects = [(); 2].map(|()| (0..40).map(|_| random.pick(b"0123456789abcdef")).collect());
        Maker { random, push: op == 1, names, patterns, objects }
    }

    fn spec(&mut self) -> Vec<u8> {
        if self.random.once_in(200) {
            return grown(self.random);
        }
        let sign: &[u8] = self.random.pick(&[b"".as_slice(), b"", b"+"]);
        let spec = match self.random.below(if self.push { 19 } else { 16 }) {
            0..=3 => [sign, &self.pattern(), b":", &self.pattern()].concat(),
            4..=6 => [sign, &self.name(), b":", &self.name()].concat(),
            7 | 8 => [sign, &self.name()].concat(),
            9 => [sign, &self.object(), b":", &self.name()].concat(),
            10 => [sign, &self.object()].concat(),
            11 => [sign, self.random.pick(&[b"@".as_slice(), b"HEAD"])].concat(),
            12 => [sign, self.random.pick(&[b"@:".as_slice(), b":"]), &self.name()].concat(),
            13 => [b"^", &self.pattern()[..]].concat(),
            14 | 15 => [b"^", &self.name()[..]].concat(),
            16 => [sign, &self.pattern()].concat(),
            17 => [sign, self.random.pick(REVISIONS), b":", &self.name()].concat(),
            _ => self.random.pick(&[b":".as_slice(), b"+", b"+:"]).to_vec(),
        };
        if self.random.once_in(120) { self.lengthened(spec) } else { spec }
    }

    /// A spec made long: its last byte many times over.
    fn lengthened(&mut self, mut spec: Vec<u8>) -> Vec<u8> {
        let last = spec.last().copied().filter(|byte| *byte != b'*' && *byte != b':').unwrap_or(b'l');
        let length = match self.random.below(4) {
            0 => SPEC_LIMIT,
            1 => 128 + self.random.below(200),
            _ => SPEC_LIMIT - self.random.below(40),
        };
        spec.resize(length, last);
        spec
    }

    fn name(&mut self) -> Vec<u8> {
        match self.random.below(8) {
            0 => name(self.random),
            1 if self.random.once_in(4) => self.object(),
            _ => self.names[self.random.below(self.names.len())].clone(),
        }
    }

    fn pattern(&mut self) -> Vec<u8> {
        if self.random.once_in(3) {
            return pattern(self.random);
        }
        self.patterns[self.random.below(self.patterns.len())].clone()
    }

    /// An object id, in one case or the other.
    fn object(&mut self) -> Vec<u8> {
        let digits = &self.objects[self.random.below(2)];
        match self.random.below(3) {
            0 => digits.clone(),
            1 => digits.to_ascii_uppercase(),
            _ => digits
                .iter()
                .map(|d| if self.random.once_in(2) { d.to_ascii_uppercase() } else { *d })
                .collect(),
        }
    }

    /// A name that some side of some spec is likely to match.
    fn item(&mut self, specs: &[Vec<u8>]) -> Vec<u8> {
        if specs.is_empty() || self.random.once_in(20) {
            return self.name();
        }
        let spec = &specs[self.random.below(specs.len())];
        let side = side(spec, self.random.once_in(2));
        let mut item = match side.iter().position(|byte| *byte == b'*') {
            Some(star) => self.filled(&side[..star], &side[star + 1..]),
            None => self.framed(side),
        };
        if self.random.once_in(15) {
            item = damaged(item, self.random);
        }
        // One byte above the limit now and then, which refuses the whole list.
        let limit = if self.random.once_in(30) { SPEC_LIMIT + 1 } else { SPEC_LIMIT };
        item.truncate(limit);
        item
    }

    /// A pattern with something in place of its star, or with start and end run
    /// together.
    fn filled(&mut self, start: &[u8], end: &[u8]) -> Vec<u8> {
        let fixed = start.len() + end.len();
        match self.random.below(60) {
            0 => {
                let length = SPEC_LIMIT - self.random.below(3);
                [start, &vec![b'c'; length.saturating_sub(fixed)], end].concat()
            }
            1 => [start, &vec![b'c'; 100 + self.random.below(100)], end].concat(),
            2..=7 if !end.is_empty() => [start, &end[1..]].concat(),
            8..=10 => start.to_vec(),
            _ => [start, self.random.pick(CAPTURES), end].concat(),
        }
    }

    /// A name itself, or in one of the frames that complete it.
    fn framed(&mut self, name: &[u8]) -> Vec<u8> {
        let name = if name.is_empty() || name == b"@" { b"HEAD" } else { name };
        let in_lower_case = name.to_ascii_lowercase();
        let name = if name.len() == 40 && self.random.once_in(2) { &in_lower_case[..] } else { name };
        let frames: &[(&[u8], &[u8])] = &[
            (b"", b""),
            (b"", b""),
            (b"", b""),
            (b"refs/", b""),
            (b"refs/tags/", b""),
            (b"refs/heads/", b""),
            (b"refs/remotes/", b""),
            (b"refs/remotes/", b"/HEAD"),
        ];
        let (start, end) = self.random.pick(frames);
        [start, name, end].concat()
    }
}

/// A side of a spec: its destination, or else its source.
pub fn side(spec: &[u8], destination: bool) -> &[u8] {
    let rest = spec.strip_prefix(b"+").or(spec.strip_prefix(b"^")).unwrap_or(spec);
    match rest.iter().rposition(|byte| *byte == b':') {
        Some(colon) if destination => &rest[colon + 1..],
        Some(colon) => &rest[..colon],
        None => rest,
    }
}

fn name(random: &mut Random) -> Vec<u8> {
    [random.pick(STARTS), random.pick(WORDS)].concat()
}

fn pattern(random: &mut Random) -> Vec<u8> {
    let (start, word) = (random.pick(STARTS), random.pick(WORDS));
    match random.below(7) {
        0 | 1 => [start, b"*"].concat(),
        2 => [start, word, b"*"].concat(),
        3 => [start, b"*/", word].concat(),
        4 => [start, word, b"*", word].concat(),
        5 => [b"*", word].concat(),
        _ => {
            let mut name = [start, word].concat();
            name.insert(random.below(name.len() + 1), b'*');
            name
        }
    }
}
