//! Byte strings and small vectors: what gix-refspec does with them.

use crate::{
    Comparison,
    sides::{real, standin},
};
use cases::Random;

/// Texts that are compared with byte strings; they may be equal.
const TEXTS: [&str; 6] = ["", "HEAD", "@", "refs/heads/", "a", "é"];

/// Compares `count` pairs of byte strings.
pub fn compare(comparison: &mut Comparison, seed: u64, count: u64) {
    for number in 0..count {
        let mut random = Random::new(seed, number);
        let (one, two) = pair(&mut random);
        strings(comparison, &one, &two, random.pick(&TEXTS));
    }
}

/// Compares `count` vectors, around the length where they move to the heap, and at the
/// lengths of specs.
pub fn compare_vectors(comparison: &mut Comparison, seed: u64, count: u64) {
    for number in 0..count {
        let mut random = Random::new(seed, number);
        let one = [pair(&mut random).0, vec![b'a'; random.below(300)]].concat();
        let two = vec![b'b'; random.below(300)];
        let capacity = random.pick(&[0, one.len(), one.len() + two.len(), 255, 256, 257]);
        vector(comparison, capacity, &one, &two);
    }
}

/// Two grown texts; the second is often the first, or a part of it.
fn pair(random: &mut Random) -> (Vec<u8>, Vec<u8>) {
    let one = if random.once_in(6) { random.pick(&TEXTS).into() } else { cases::grown(random) };
    let two = match random.below(4) {
        0 => one.clone(),
        1 => one[random.below(one.len() + 1)..].to_vec(),
        2 => cases::damaged(one.clone(), random),
        _ => cases::grown(random),
    };
    (one, two)
}

fn strings(comparison: &mut Comparison, one: &[u8], two: &[u8], text: &str) {
    let mut ours = standin::bytes(one, two, text);
    if comparison.fault == Some("bytes") {
        ours.first_and_last.iter_mut().for_each(|(first, last)| *last = *first);
    }
    let case = || format!("{} and {} and {text}", one.escape_ascii(), two.escape_ascii());
    comparison.count(case, &ours, &real::bytes(one, two, text));
}

fn vector(comparison: &mut Comparison, capacity: usize, one: &[u8], two: &[u8]) {
    let mut ours = standin::vector(capacity, one, two);
    if comparison.fault == Some("vectors") && one.len() + two.len() > 256 {
        ours.0.truncate(256);
    }
    let case = || format!("{capacity}, {} and {}", one.escape_ascii(), two.escape_ascii());
    comparison.count(case, &ours, &real::vector(capacity, one, two));
}
