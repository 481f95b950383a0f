//! The texts that the runs are made of: all short ones over some bytes, random
//! ones grown from telling pieces, damaged copies of good ones, and long ones,
//! among them those around the limit of 4,096 bytes; pairs of specs, that may meet or that
//! share sides; and groups of specs and items.
//! All are fixed by a seed and a number.

mod groups;
mod keys;
mod pairs;
mod random;
mod specs;

pub use groups::{Group, group, group_of};
pub use keys::sharing_sides;
pub use pairs::{TELLING_SPECS, pair};
pub use random::Random;
pub use specs::{FAMILIES, around_the_limit, damaged, good, grown, of_length};

/// The longest spec that is accepted.
pub const SPEC_LIMIT: usize = 4096;

/// How many texts of up to `longest` bytes there are over `bytes`.
pub fn short_texts(bytes: &[u8], longest: u32) -> u64 {
    (0..=longest).map(|length| (bytes.len() as u64).pow(length)).sum()
}

/// The text with that number among all texts over `bytes`, shorter ones first.
pub fn short_text(bytes: &[u8], mut number: u64) -> Vec<u8> {
    let base = bytes.len() as u64;
    let mut length = 0;
    while number >= base.pow(length) {
        number -= base.pow(length);
        length += 1;
    }
    let digit = |place| bytes[(number / base.pow(place) % base) as usize];
    (0..length).rev().map(digit).collect()
}

#[cfg(test)]
mod tests {
    use super::*;

    #[test]
    fn short_texts_come_once_each() {
        let texts: Vec<_> = (0..short_texts(b"ab", 2)).map(|n| short_text(b"ab", n)).collect();
        assert_eq!(texts, [b"".as_slice(), b"a", b"b", b"aa", b"ab", b"ba", b"bb"]);
    }

    #[test]
    fn a_seed_and_a_number_fix_a_text() {
        for number in 0..100 {
            assert_eq!(grown(&mut Random::new(7, number)), grown(&mut Random::new(7, number)));
        }
        assert_ne!(Random::new(7, 0).next(), Random::new(8, 0).next());
        assert_ne!(Random::new(7, 0).next(), Random::new(7, 1).next());
    }
}
