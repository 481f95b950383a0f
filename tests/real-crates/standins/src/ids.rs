//! Object ids: which texts are one, and the shortest kind.

use crate::{
    Comparison,
    sides::{real, standin},
};
use cases::Random;

/// The digits of either case.
const DIGITS: &[u8] = b"0123456789abcdefABCDEF";

/// Compares texts of every length up to 70, each byte at each place, and `count` random
/// texts of forty bytes or about as many.
pub fn compare(comparison: &mut Comparison, seed: u64, count: u64) {
    comparison.count(|| "the shortest kind".to_string(), &standin::shortest(), &real::shortest());
    for length in 0..=70 {
        DIGITS.iter().for_each(|digit| id(comparison, &vec![*digit; length]));
    }
    for place in 0..40 {
        (0..=255).for_each(|byte| id(comparison, &with_byte(place, byte)));
    }
    (0..count).for_each(|number| id(comparison, &grown(&mut Random::new(seed, number))));
}

fn id(comparison: &mut Comparison, text: &[u8]) {
    let mut ours = standin::id(text);
    if comparison.fault == Some("ids") && text.ends_with(b"F") {
        ours = None;
    }
    comparison.count_taken(text, ours, real::id(text));
}

/// Forty digits, but for one byte.
fn with_byte(place: usize, byte: u8) -> Vec<u8> {
    let mut digits: Vec<u8> = DIGITS.iter().cycle().copied().take(40).collect();
    digits[place] = byte;
    digits
}

/// Mostly forty digits, one in four with another byte among them.
fn grown(random: &mut Random) -> Vec<u8> {
    let length = if random.once_in(8) { 38 + random.below(5) } else { 40 };
    let mut digits: Vec<u8> = (0..length).map(|_| random.pick(DIGITS)).collect();
    if random.once_in(4) {
        digits[random.below(length)] = random.next() as u8;
    }
    digits
}
