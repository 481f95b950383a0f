//! Names: which are well formed.

use crate::{
    Comparison,
    sides::{real, standin},
};
use cases::{Random, short_text, short_texts};

/// The bytes that decide, for all names of up to four bytes.
const TELLING: &[u8] = b"a./@{*:~^?[\\] \x00\x1f\x7f\x80\xff+-HZ";

/// Fewer bytes, for all names of up to six: those that decide together.
const TOGETHER: &[u8] = b"a./@{*-Z";

/// What decides only as a whole, for all names of up to five pieces.
const PIECES: &[&[u8]] =
    &[b"/", b".", b"@", b"{", b"lock", b".lock", b".loc", b".LOCK", b"a", b"refs", b"HEAD", b"-", b"\x80"];

/// Compares all short names and `count` grown ones.
pub fn compare(comparison: &mut Comparison, seed: u64, count: u64) {
    for (bytes, longest) in [(TELLING, 4), (TOGETHER, 6)] {
        (0..short_texts(bytes, longest)).for_each(|number| name(comparison, &short_text(bytes, number)));
    }
    let all: Vec<u8> = (0..=255).collect();
    (0..short_texts(&all, 2)).for_each(|number| name(comparison, &short_text(&all, number)));
    let pieces: Vec<u8> = (0..PIECES.len() as u8).collect();
    for number in 0..short_texts(&pieces, 5) {
        let chosen = short_text(&pieces, number);
        let text: Vec<u8> = chosen.iter().flat_map(|piece| PIECES[usize::from(*piece)]).copied().collect();
        name(comparison, &text);
    }
    (0..count).for_each(|number| name(comparison, &grown(&mut Random::new(seed, number))));
}

fn name(comparison: &mut Comparison, text: &[u8]) {
    let mut ours = standin::name(text);
    if comparison.fault == Some("names") && text == b"@" {
        ours = Some(text.to_vec());
    }
    comparison.count_taken(text, ours, real::name(text));
}

/// A spec of any shape, or one of its sides, damaged or not.
fn grown(random: &mut Random) -> Vec<u8> {
    let spec = cases::grown(random);
    match random.below(4) {
        0 => spec,
        1 => spec.split(|b| *b == b':').next().unwrap_or_default().to_vec(),
        2 => spec.rsplit(|b| *b == b':').next().unwrap_or_default().to_vec(),
        _ => {
            let side = spec.rsplit(|b| *b == b':').next().unwrap_or_default().to_vec();
            cases::damaged(side, random)
        }
    }
}
