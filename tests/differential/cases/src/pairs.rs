use crate::{
    Random,
    groups::{group_of, side},
    specs::{damaged, grown},
};

/// A spec for each question of a fetch but that of its length, and some that are accepted.
pub const TELLING_SPECS: [&[u8]; 15] = [
    b"^a:b",
    b"a**:b*",
    b"a..b:c",
    b"a*:b**",
    b"a:@",
    b"a*:b",
    b"^",
    b"^0123456789abcdef0123456789ABCDEF01234567",
    b"*:*",
    b"+*:refs/*",
    b"a:b",
    b"b:refs/heads/b",
    b"^a",
    b"a:",
    b"",
];

/// What one text has and another has not.
const WORDS: &[&[u8]] = &[b"a", b"b", b"ab", b"ba", b"x/", b"/x", b"/"];

/// What a literal may be spelt without, or with.
const FRAMES: &[&[u8]] = &[b"refs/", b"refs/heads/", b"refs/tags/", b"refs/remotes/", b"tags/", b"heads/"];

/// Two fetch specs that have something in common, most of them accepted.
pub fn pair(random: &mut Random) -> [Vec<u8>; 2] {
    let mut specs = group_of(0, 2, 0, random).specs;
    let one = random.below(2);
    match random.below(10) {
        0 => specs[one] = grown(random),
        1 => specs[one] = damaged(specs[one].clone(), random),
        2..=6 => {
            let destination = near(side(&specs[one], true).to_vec(), random);
            let source: &[u8] = match destination.contains(&b'*') {
                true => random.pick(&[b"*".as_slice(), b"refs/*", b"a*", b"*a", b"a*a"]),
                false => random.pick(&[b"a".as_slice(), b"refs/heads/a", b"", b"@"]),
            };
            specs[1 - one] = [source, b":", &destination].concat();
        }
        _ => {}
    }
    specs.try_into().expect("a group of two")
}

/// A destination that may have bytes in common with another: with a star or without.
fn near(destination: Vec<u8>, random: &mut Random) -> Vec<u8> {
    match destination.iter().position(|byte| *byte == b'*') {
        Some(star) => near_pattern(&destination[..star], &destination[star + 1..], random),
        None => near_literal(&destination, random),
    }
}

/// A pattern whose start and end begin and close the other's or are begun and closed by
/// them, or a literal that it matches or misses by overlap.
fn near_pattern(start: &[u8], end: &[u8], random: &mut Random) -> Vec<u8> {
    let word = random.pick(WORDS);
    let shorter = |text: &[u8], random: &mut Random| random.below(text.len() + 1);
    match random.below(8) {
        0 => [start, word, b"*", end].concat(),
        1 => [start, b"*", word, end].concat(),
        2 => [start, word, b"*", &end[shorter(end, random)..]].concat(),
        3 => [&start[..shorter(start, random)], b"*", word, end].concat(),
        4 => [&start[..shorter(start, random)], b"*", &end[shorter(end, random)..]].concat(),
        5 => [start, word, end].concat(),
        6 => [start, end].concat(),
        _ => [start, &end[shorter(end, random)..]].concat(),
    }
}

/// A literal spelt in another way, or a pattern that matches it or misses it by overlap.
fn near_literal(literal: &[u8], random: &mut Random) -> Vec<u8> {
    let frame = random.pick(FRAMES);
    let at = random.below(literal.len() + 1);
    let from = random.below(at + 1);
    match random.below(6) {
        0 => literal.to_vec(),
        1 => [frame, literal].concat(),
        2 => literal.strip_prefix(frame).unwrap_or(literal).to_vec(),
        3 => literal.to_ascii_uppercase(),
        4 => [frame, &literal[..at], b"*", &literal[at..]].concat(),
        _ => [&literal[..at], b"*", &literal[from..]].concat(),
    }
}
