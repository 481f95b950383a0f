use crate::{
    Random, SPEC_LIMIT,
    groups::group_of,
    specs::{damaged, good, grown},
};

/// What stands for `HEAD` as a source. The first, an absent source, does so in a fetch.
const HEADS: [&[u8]; 3] = [b"", b"@", b"HEAD"];

/// What a source may begin with that would read as something else at the front of a spec.
const INNER: [&[u8]; 7] = [b"+", b"++", b"^", b":", b"+:", b":+", b"+^"];

/// A spec as signs and sides: the first sign, what stands before the last colon, and what
/// stands after it.
struct Parts<'a> {
    sign: &'a [u8],
    source: &'a [u8],
    destination: Option<&'a [u8]>,
}

impl Parts<'_> {
    fn of(spec: &[u8]) -> Parts<'_> {
        let (sign, rest) = spec.split_at(usize::from(spec.starts_with(b"+") || spec.starts_with(b"^")));
        match rest.iter().rposition(|byte| *byte == b':') {
            Some(colon) => Parts { sign, source: &rest[..colon], destination: Some(&rest[colon + 1..]) },
            None => Parts { sign, source: rest, destination: None },
        }
    }
}

/// Two specs that have sides in common, most of them accepted for `op`, 0 fetch or 1 push.
pub fn sharing_sides(op: u64, random: &mut Random) -> [Vec<u8>; 2] {
    if random.once_in(12) {
        return heads(op, random);
    }
    let first = first(op, random);
    let second = second(op, &first, random);
    if random.once_in(2) { [first, second] } else { [second, first] }
}

/// Two specs of one sign and destination, each with some spelling of `HEAD` as its source.
fn heads(op: u64, random: &mut Random) -> [Vec<u8>; 2] {
    let sign: &[u8] = random.pick(&[b"".as_slice(), b"+", b"^"]);
    let end: Vec<u8> = match sign {
        b"^" => vec![],
        _ if random.once_in(3) => vec![],
        _ => [b":", Parts::of(&one_of_a_group(op, random)).source].concat(),
    };
    [(); 2].map(|()| [sign, random.pick(&HEADS), &end].concat())
}

/// A spec of its own.
fn first(op: u64, random: &mut Random) -> Vec<u8> {
    if random.once_in(150) {
        return long(op, random);
    }
    match random.below(10) {
        0 => grown(random),
        1 | 2 => good(random),
        3..=5 => begun(op, random),
        _ => one_of_a_group(op, random),
    }
}

fn one_of_a_group(op: u64, random: &mut Random) -> Vec<u8> {
    group_of(op, 1, 0, random).specs.remove(0)
}

/// A forced spec whose source begins with what would be read otherwise at its front.
fn begun(op: u64, random: &mut Random) -> Vec<u8> {
    let spec = one_of_a_group(op, random);
    let Parts { source, destination, .. } = Parts::of(&spec);
    // The name rules leave a fetch the pluses, and a dot behind them.
    let inner: &[u8] = match op {
        0 => random.pick(&[b"+".as_slice(), b"+", b"++", b"+."]),
        _ => random.pick(&INNER),
    };
    match destination {
        Some(destination) if op == 1 || random.once_in(2) => {
            [b"+", inner, source, b":", destination].concat()
        }
        _ => [b"+", inner, source].concat(),
    }
}

/// A spec whose text is about as long as a spec may be, or about twice that.
fn long(op: u64, random: &mut Random) -> Vec<u8> {
    let sign: &[u8] = random.pick(&[b"".as_slice(), b"+", b"++"]);
    let near = |length: usize, random: &mut Random| vec![b'l'; length - 8 + random.below(12)];
    match random.below(4) {
        0 if op == 1 => [sign, &near(SPEC_LIMIT / 2, random)].concat(),
        1 => [sign, random.pick(&HEADS), b":", &near(SPEC_LIMIT, random)].concat(),
        2 => [sign, b"a:", &near(SPEC_LIMIT, random)].concat(),
        _ => [sign, &near(SPEC_LIMIT, random)].concat(),
    }
}

/// A spec made of the sides of another.
fn second(op: u64, first: &[u8], random: &mut Random) -> Vec<u8> {
    let Parts { sign, source, destination } = Parts::of(first);
    let rest = &first[sign.len()..];
    let two_sided: &[u8] = if sign == b"^" { b"" } else { sign };
    let other = destination.filter(|side| !side.is_empty()).unwrap_or(source);
    let another: &[u8] = random.pick(&[b"".as_slice(), b"+", b"++"]);
    match random.below(12) {
        0 => first.to_vec(),
        1 | 2 => [another, rest].concat(),
        3 => [two_sided, source, b":", source].concat(),
        4 => [two_sided, other, b":", source].concat(),
        5 => [sign, source].concat(),
        6 if op == 0 => [two_sided, source, b":"].concat(),
        6 | 7 => [another, b":", other].concat(),
        8 => [b"^", source].concat(),
        9 => damaged(first.to_vec(), random),
        10 => moved(sign, rest, random),
        _ => [two_sided, source, b":", Parts::of(&one_of_a_group(op, random)).source].concat(),
    }
}

/// A spec with a plus, a caret or a colon on the other side of its sign, or with one more.
fn moved(sign: &[u8], rest: &[u8], random: &mut Random) -> Vec<u8> {
    let mark = random.pick(&INNER);
    match rest.split_first() {
        Some((first, after)) if b"+^:".contains(first) && random.once_in(2) => {
            [&[*first], sign, after].concat()
        }
        _ if random.once_in(2) => [sign, mark, rest].concat(),
        _ => [mark, sign, rest].concat(),
    }
}

#[cfg(test)]
mod tests {
    use super::*;

    #[test]
    fn parts_are_put_together_again() {
        for spec in [b"".as_slice(), b"+", b"^a", b"a:", b":b", b"+^a:b:c", b"++"] {
            let Parts { sign, source, destination } = Parts::of(spec);
            let end = destination.map(|side| [b":", side].concat()).unwrap_or_default();
            assert_eq!([sign, source, &end].concat(), spec);
            assert!(sign.len() < 2 && !end[end.len().min(1)..].contains(&b':'));
        }
    }

    /// Whether some side of one spec, other than none, is a side of another.
    fn shares(first: &[u8], second: &[u8]) -> bool {
        let sides = |parts: Parts<'_>| [parts.source.to_vec(), parts.destination.unwrap_or(b"").to_vec()];
        let [first, second] = [first, second].map(|spec| sides(Parts::of(spec)));
        first.iter().any(|side| !side.is_empty() && second.contains(side))
    }

    #[test]
    fn most_pairs_share_sides() {
        for op in [0, 1] {
            let pairs = (0..2000).map(|number| sharing_sides(op, &mut Random::new(3, number)));
            let sharing = pairs.filter(|[first, second]| shares(first, second)).count();
            assert!(sharing > 1400, "{sharing}");
        }
    }
}
