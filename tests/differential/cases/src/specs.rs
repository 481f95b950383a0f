use crate::{Random, SPEC_LIMIT};

/// What names are made of, good and bad.
const PIECES: &[&[u8]] = &[
    b"refs/",
    b"refs",
    b"heads/",
    b"tags/",
    b"remotes/",
    b"HEAD",
    b"@",
    b"@{",
    b"{",
    b".lock",
    b".",
    b"..",
    b"/",
    b"//",
    b"*",
    b"*",
    b":",
    b"+",
    b"^",
    b"~",
    b"?",
    b"[",
    b"]",
    b"\\",
    b" ",
    b"-",
    b"a",
    b"b",
    b"main",
    b"lock",
    b"\x00",
    b"\x1f",
    b"\n",
    b"\x7f",
    b"\x80",
    b"\xff",
    "é".as_bytes(),
];

/// What good names begin with.
const STARTS: &[&[u8]] =
    &[b"", b"", b"refs/", b"refs/heads/", b"refs/tags/", b"tags/", b"remotes/", b"refs/remotes/hub/"];

/// The components of good names.
const WORDS: &[&[u8]] = &[
    b"a", b"main", b"HEAD", b"v1.0", b"x-y", b"@a", b"lock", b"a.lockx", b"]", b"{", b"refs", b"heads",
    b"\x80", b"-",
];

/// A spec that is accepted in most cases: good names on both sides, a star on
/// both or on neither.
pub fn good(random: &mut Random) -> Vec<u8> {
    let star = random.once_in(3);
    let mut spec = random.pick(&[b"".as_slice(), b"", b"+", b"^"]).to_vec();
    if spec != b"^" && random.once_in(8) {
        return [&spec[..], b":", &good_side(random, false)].concat();
    }
    spec.extend(good_side(random, star));
    if !spec.starts_with(b"^") && !random.once_in(4) {
        spec.push(b':');
        spec.extend(good_side(random, star));
    }
    spec
}

/// A good name, an object id, or a pattern.
fn good_side(random: &mut Random, star: bool) -> Vec<u8> {
    if !star && random.once_in(6) {
        return digits(random);
    }
    if !star && random.once_in(6) {
        return random.pick(&[b"HEAD".as_slice(), b"@"]).to_vec();
    }
    let mut name = random.pick(STARTS).to_vec();
    for part in 0..=random.below(3) {
        if part > 0 {
            name.push(b'/');
        }
        name.extend(random.pick(WORDS));
    }
    if star {
        match random.below(3) {
            0 => name.extend(b"/*"),
            1 => name.insert(random.below(name.len() + 1), b'*'),
            _ => name = [random.pick(STARTS), b"*"].concat(),
        }
    }
    name
}

/// Hexadecimal digits, about as many as an object id has, some of them spoiled.
fn digits(random: &mut Random) -> Vec<u8> {
    let count = random.pick(&[38, 39, 40, 40, 40, 41, 42, 64]);
    let kinds: &[u8] = random.pick(&[b"0123456789abcdef".as_slice(), b"0123456789ABCDEFabcdef"]);
    let mut digits: Vec<u8> = (0..count).map(|_| random.pick(kinds)).collect();
    if random.once_in(4) {
        let place = random.below(count);
        digits[place] = random.pick(b"gG/:@`*\x00");
    }
    digits
}

/// A copy of a spec with one byte changed, inserted or removed.
pub fn damaged(mut spec: Vec<u8>, random: &mut Random) -> Vec<u8> {
    let byte = match random.below(3) {
        0 => random.next() as u8,
        _ => random.pick(b"*:+^/.@{~?[\\] \x7fa"),
    };
    let place = random.below(spec.len() + 1);
    if place == spec.len() || random.once_in(3) {
        spec.insert(place, byte);
    } else if random.once_in(2) {
        spec[place] = byte;
    } else {
        spec.remove(place);
    }
    spec
}

/// A spec of any shape.
pub fn grown(random: &mut Random) -> Vec<u8> {
    if random.once_in(250) {
        let number = random.next();
        return around_the_limit(number);
    }
    match random.below(8) {
        0 | 1 => good(random),
        2 | 3 => damaged(good(random), random),
        4 => {
            let once = damaged(good(random), random);
            damaged(once, random)
        }
        5 => two_sides_alike(random),
        6 => pieces(random),
        _ => (0..random.below(12)).map(|_| random.next() as u8).collect(),
    }
}

/// Pieces in a row.
fn pieces(random: &mut Random) -> Vec<u8> {
    (0..random.below(9)).flat_map(|_| random.pick(PIECES)).copied().collect()
}

/// One text on both sides of a colon, or nearly.
fn two_sides_alike(random: &mut Random) -> Vec<u8> {
    let side = match random.below(3) {
        0 => pieces(random),
        _ => {
            let star = random.once_in(2);
            good_side(random, star)
        }
    };
    let sign: &[u8] = random.pick(&[b"".as_slice(), b"+", b"^"]);
    let spec = [sign, &side, b":", &side].concat();
    if random.once_in(2) { damaged(spec, random) } else { spec }
}

/// How many families of long specs there are.
pub const FAMILIES: u64 = 12;

/// A spec of 4,093 to 4,098 bytes. Numbers from 0 to 71 give each family at
/// each length.
pub fn around_the_limit(number: u64) -> Vec<u8> {
    of_length(SPEC_LIMIT - 3 + (number / FAMILIES % 6) as usize, number)
}

/// A spec of that length, at least 32; the number picks its family.
pub fn of_length(length: usize, number: u64) -> Vec<u8> {
    let between = |start: &[u8], fill: u8, end: &[u8]| {
        let fills = vec![fill; length - start.len() - end.len()];
        [start, &fills, end].concat()
    };
    match number % FAMILIES {
        0 => between(b"", b'a', b""),
        1 => between(b"+", b'a', b""),
        2 => between(b"^", b'a', b""),
        3 => between(b"^", b'x', b"*"),
        4 => between(b"refs/heads/", b'a', b":refs/heads/b"),
        5 => between(b"+refs/heads/*:refs/", b'b', b"/*"),
        6 => between(b"*", b'a', b":b/*"),
        7 => between(b"", b':', b"a"),
        8 => between(b":", b'd', b""),
        9 => between(b"refs/", b'\x80', b""),
        10 => between(b"a", b'.', b"a"),
        _ => between(b"@:refs/", b'c', b""),
    }
}
