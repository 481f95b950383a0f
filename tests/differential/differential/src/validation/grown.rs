//! Row lists made by hand: random rows over few sources and destinations.

use super::{Case, Second};
use cases::{Random, damaged};
use paper::Row;
use vasigmon::list;

/// Specs that both operations accept, their canonical texts all different in each.
const SPECS: &[&[u8]] = &[
    b"a:b",
    b"+a:b",
    b"^a",
    b"HEAD",
    b"*:refs/x/*",
    b"^refs/*",
    b"0123456789ABCDEF0123456789abcdef01234567:c",
    b"refs/a:refs/b",
];

/// Destinations: full ones, partial ones, and those at the edges of both and of the
/// byte order.
const DESTINATIONS: &[&[u8]] = &[
    b"",
    b"HEAD",
    b"HEAD",
    b"HEAD/",
    b"HEA",
    b"head",
    b"refs/",
    b"refs/a",
    b"refs/a",
    b"refs/a/",
    b"refs/heads/a",
    b"refs/heads/aa",
    b"refs/heads/b",
    b"refs/\xff",
    b"refs",
    b"Refs/a",
    b"/refs/a",
    b"a",
    b"aa",
    b"b",
    b"\x00",
    b"\x7f",
    b"\x80",
    b"\xff",
    b"*",
];

/// Sources, of either kind where they can be.
const SOURCES: &[&[u8]] = &[
    b"",
    b"a",
    b"aa",
    b"b",
    b"refs/heads/a",
    b"refs/heads/a",
    b"\x00",
    b"\xff",
    b"0123456789abcdef0123456789abcdef01234567",
    b"0123456789abcdef0123456789abcdef01234567",
    b"0123456789abcdef0123456789abcdef01234568",
    b"0000000000000000000000000000000000000000",
    b"ffffffffffffffffffffffffffffffffffffffff",
];

/// What no object id is in a row list.
const NO_OBJECTS: &[&[u8]] = &[
    b"",
    b"a",
    b"0123456789abcdef0123456789abcdef0123456",
    b"0123456789abcdef0123456789abcdef012345678",
    b"0123456789ABCDEF0123456789abcdef01234567",
    b"0123456789abcdef0123456789abcdef0123456g",
    b"/123456789abcdef0123456789abcdef01234567",
    b":123456789abcdef0123456789abcdef01234567",
    b"`123456789abcdef0123456789abcdef01234567",
];

/// The case with that number: up to twelve rows, accepted for the most part.
pub fn case(seed: u64, number: u64) -> Case {
    let mut random = Random::new(seed ^ 0x7265_616c, number);
    let count = match random.below(40) {
        0 => 0,
        1 => 128 + random.below(129),
        _ => 1 + random.below(SPECS.len()),
    };
    let first = random.below(SPECS.len());
    let specs = list::of((0..count).map(|n| SPECS[(first + n) % SPECS.len()]));
    let mut maker = Maker::new(count, &mut random);
    let rows: Vec<Row> = (0..maker.random.below(13)).map(|_| maker.row()).collect();
    let mut rows = Row::list(&rows);
    if random.once_in(30) {
        rows = damaged(rows, &mut random);
    }
    Case { op: random.next() % 2, specs, second: Second::Rows(rows) }
}

/// Makes the rows of one list.
struct Maker<'a> {
    random: &'a mut Random,
    specs: usize,
    /// Whether rows are wrong now and then.
    wrong: bool,
    sources: Vec<(usize, Vec<u8>)>,
    destinations: Vec<Vec<u8>>,
}

impl Maker<'_> {
    fn new(specs: usize, random: &mut Random) -> Maker<'_> {
        let sources = match random.below(3) {
            0 => 1,
            _ => 1 + random.below(4),
        };
        let sources = (0..sources).map(|_| source(random)).collect();
        let destinations = (0..1 + random.below(6)).map(|_| destination(random)).collect();
        Maker { wrong: random.once_in(12), random, specs, sources, destinations }
    }

    fn row(&mut self) -> Row {
        let item = match self.random.below(10) {
            0 => self.random.pick(&[127, 128, 16_383, 16_384, 2_097_150, 2_097_151]),
            n => n - 1,
        };
        let mut spec = self.random.below(self.specs.max(1));
        let (mut kind, mut source) = self.sources[self.random.below(self.sources.len())].clone();
        let destinations = self.destinations.len();
        let destination =
            (!self.random.once_in(8)).then(|| self.destinations[self.random.below(destinations)].clone());
        if self.wrong && self.random.once_in(6) {
            match self.random.below(3) {
                0 => spec = self.specs + self.random.pick(&[0, 1, 256, 2_000_000]),
                1 => kind = self.random.pick(&[2, 127, 128, 256, 257, 2_097_151]),
                _ => (kind, source) = (1, self.random.pick(NO_OBJECTS).to_vec()),
            }
        }
        Row { item, spec, kind, source, destination }
    }
}

/// A kind and a source that go together.
fn source(random: &mut Random) -> (usize, Vec<u8>) {
    if random.once_in(40) {
        return (0, long(b"refs/", random));
    }
    let source = random.pick(SOURCES);
    let kind = if source.len() == 40 { random.below(2) } else { 0 };
    (kind, source.to_vec())
}

fn destination(random: &mut Random) -> Vec<u8> {
    match random.below(40) {
        0 => long(b"refs/", random),
        1 => long(b"", random),
        _ => random.pick(DESTINATIONS).to_vec(),
    }
}

/// A text around the lengths at which numbers get a group more.
fn long(start: &[u8], random: &mut Random) -> Vec<u8> {
    let length = random.pick(&[126, 127, 128, 129, 300]);
    [start, &vec![b'l'; length - start.len()]].concat()
}

#[cfg(test)]
mod tests {
    use super::*;

    #[test]
    fn both_operations_accept_the_specs_which_differ() {
        for op in [0, 1] {
            let texts: std::collections::BTreeSet<_> =
                SPECS.iter().map(|spec| oracle::ask(op, spec).unwrap().text).collect();
            assert_eq!(texts.len(), SPECS.len());
        }
    }

    #[test]
    fn most_lists_are_accepted_and_some_are_in_conflict() {
        let (mut passed, mut conflicts, mut refused) = (0, 0, 0);
        for number in 0..1000 {
            let case = case(1, number);
            match paper::validated(case.op, &case.specs, &case.rows().unwrap()) {
                Ok(paper::Verdict::Passed { .. }) => passed += 1,
                Ok(paper::Verdict::Conflicts(_)) => conflicts += 1,
                Err(_) => refused += 1,
            }
        }
        assert!(passed > 300 && conflicts > 200 && refused > 50, "{passed} {conflicts} {refused}");
    }
}
