//! The same rules for a call that writes to two buffers: validation.

use super::{Again, Lent, alike, untouched};
use vasigmon::raw::Validation;

/// A call that writes to two buffers, with all its other arguments.
pub type TwoCall<'a> = &'a dyn Fn(&mut [u8], &mut [u8]) -> Validation;

/// Calls with two buffers of noise: what is answered, and the buffers after it.
fn lend_two(what: &str, call: TwoCall, noise: [&[u8]; 2]) -> Result<(Validation, [Lent; 2]), String> {
    let [mut out, mut fixes] = noise.map(Lent::new);
    let answer = call(out.bytes_mut(), fixes.bytes_mut());
    out.within(what)?;
    fixes.within(what)?;
    Ok((answer, [out, fixes]))
}

/// Complains unless a call is refused with this answer, its buffers untouched.
pub fn two_refused(what: &str, call: TwoCall, noise: [&[u8]; 2], expected: Validation) -> Result<(), String> {
    let (answer, buffers) = lend_two(what, call, noise)?;
    alike(what, answer, expected)?;
    both_untouched(what, &buffers, noise)
}

fn both_untouched(what: &str, buffers: &[Lent; 2], noise: [&[u8]; 2]) -> Result<(), String> {
    untouched(what, buffers[0].bytes(), noise[0])?;
    untouched(what, buffers[1].bytes(), noise[1])
}

/// What a call writes: to the first buffer, and to the second unless that is left alone.
#[derive(Clone, Debug, PartialEq, Eq)]
pub struct Two {
    pub out: Vec<u8>,
    pub fixes: Option<Vec<u8>>,
}

/// The bytes that a call writes, found with buffers that are surely long enough. The
/// same call with shorter and exact buffers must keep the rules of 17.
pub fn two_written(what: &str, call: TwoCall, noise: [&[u8]; 2], again: Again) -> Result<Two, String> {
    let (answer, buffers) = lend_two(what, call, noise)?;
    let needs = [answer.length as usize, answer.fixes_length as usize];
    let room = noise.map(<[u8]>::len);
    if needs[0] > room[0] || needs[1] > room[1] {
        return Err(format!("{what} answers {answer:?} to buffers of {room:?} bytes"));
    }
    let Validation { conflicts, length, fixes_length, .. } = answer;
    alike(what, answer, Validation { conflicts, length, fixes_length, ..Default::default() })?;
    if conflicts > 1 || (conflicts == 1 && fixes_length > 0) {
        return Err(format!("{what} answers {answer:?}"));
    }
    let bytes = [&buffers[0].bytes()[..needs[0]], &buffers[1].bytes()[..needs[1]]];
    keeps(what, &buffers, bytes, noise)?;

    let lengths = needs.map(|need| [0, need / 2, need.saturating_sub(1), need, need + 1]);
    let pairs = lengths[0].iter().flat_map(|first| lengths[1].iter().map(move |second| [*first, *second]));
    let picked: Vec<[usize; 2]> = match again {
        Again::All => pairs.collect(),
        Again::One(number) => pairs.skip((number % 25) as usize).take(1).collect(),
    };
    for mut lengths in picked {
        // What a short buffer is told may be longer than the noise at hand.
        let noise_of = |lengths: [usize; 2]| [0, 1].map(|n| &noise[n][..lengths[n].min(noise[n].len())]);
        for short in [0, 1] {
            if lengths[short] < needs[short] {
                lengths[short] = two_short(what, call, noise_of(lengths), short, needs[short])?;
            }
        }
        let noise = noise_of(lengths);
        let (second, buffers) = lend_two(what, call, noise)?;
        alike(what, second, answer)?;
        keeps(what, &buffers, bytes, noise)?;
    }
    Ok(Two { out: bytes[0].to_vec(), fixes: (conflicts == 0).then(|| bytes[1].to_vec()) })
}

/// Complains unless both buffers begin with these bytes and keep their noise beyond.
fn keeps(what: &str, buffers: &[Lent; 2], bytes: [&[u8]; 2], noise: [&[u8]; 2]) -> Result<(), String> {
    for ((buffer, bytes), noise) in buffers.iter().zip(bytes).zip(noise) {
        let (front, beyond) = buffer.bytes().split_at(bytes.len());
        if front != bytes {
            return Err(format!("{what} writes other bytes to a buffer of {} bytes", noise.len()));
        }
        untouched(what, beyond, &noise[bytes.len()..])?;
    }
    Ok(())
}

/// Complains unless this buffer, the first that is short, is told 17 and a length
/// between what is needed and twice that. Answers that length.
fn two_short(
    what: &str,
    call: TwoCall,
    noise: [&[u8]; 2],
    short: usize,
    need: usize,
) -> Result<usize, String> {
    let (answer, buffers) = lend_two(what, call, noise)?;
    let (length, buffer) = (answer.length, short as u64 + 1);
    alike(what, answer, Validation { refusal: 17, length, buffer, ..Default::default() })?;
    let told = length as usize;
    if told < need || told > 2 * need {
        return Err(format!("{what} needs {need} bytes and asks for {told}"));
    }
    both_untouched(what, &buffers, noise)?;
    Ok(told)
}

#[cfg(test)]
mod tests {
    use super::*;

    const NOISE: &[u8] = b"0123456789";

    /// A call that answers `abc` and the fixes `d`, or the conflicts `abc`, as the
    /// interface says.
    fn abc(conflicts: bool, out: &mut [u8], fixes: &mut [u8]) -> Validation {
        let short = |buffer, length| Validation { refusal: 17, length, buffer, ..Default::default() };
        if out.len() < 3 {
            return short(1, 6);
        }
        if !conflicts && fixes.is_empty() {
            return short(2, 1);
        }
        out[..3].copy_from_slice(b"abc");
        if conflicts {
            return Validation { conflicts: 1, length: 3, ..Default::default() };
        }
        fixes[0] = b'd';
        Validation { length: 3, fixes_length: 1, ..Default::default() }
    }

    /// Whether a call is complained about, with all buffers and with one pair after
    /// another.
    fn two_noticed(call: TwoCall) -> bool {
        let run = |again| two_written("abc", call, [NOISE, &NOISE[5..]], again).is_err();
        let all = run(Again::All);
        assert_eq!((0..25).any(|number| run(Again::One(number))), all);
        all
    }

    #[test]
    fn a_call_that_keeps_the_rules_of_two_buffers_passes() {
        for conflicts in [false, true] {
            let call = |out: &mut [u8], fixes: &mut [u8]| abc(conflicts, out, fixes);
            assert!(!two_noticed(&call));
            let fixes = (!conflicts).then(|| b"d".to_vec());
            let two = Two { out: b"abc".to_vec(), fixes };
            assert_eq!(two_written("abc", &call, [NOISE, NOISE], Again::All), Ok(two));
        }
    }

    #[test]
    fn broken_rules_of_two_buffers_are_noticed() {
        type Wrong = fn(bool, &mut [u8], &mut [u8]) -> Validation;
        let wrong: [(&str, Wrong); 8] = [
            ("a byte beyond", |conflicts, out, fixes| {
                let answer = abc(conflicts, out, fixes);
                out.iter_mut().skip(3).for_each(|byte| *byte = b'x');
                answer
            }),
            ("a fix beside conflicts", |conflicts, out, fixes| {
                let answer = abc(conflicts, out, fixes);
                fixes.iter_mut().skip(1 - usize::from(conflicts)).for_each(|byte| *byte = b'x');
                answer
            }),
            ("rows before the fixes are found short", |conflicts, out, fixes| {
                if out.len() >= 3 {
                    out[..3].copy_from_slice(b"abc");
                }
                abc(conflicts, out, fixes)
            }),
            ("fixes before the rows are found short", |conflicts, out, fixes| {
                if let Some(byte) = fixes.first_mut() {
                    *byte = b'd';
                }
                abc(conflicts, out, fixes)
            }),
            ("the second short one told first", |conflicts, out, fixes| {
                if fixes.is_empty() {
                    return Validation { refusal: 17, length: 1, buffer: 2, ..Default::default() };
                }
                abc(conflicts, out, fixes)
            }),
            ("no buffer told", |conflicts, out, fixes| Validation {
                buffer: 0,
                ..abc(conflicts, out, fixes)
            }),
            ("a length of one buffer for the other", |conflicts, out, fixes| {
                let answer = abc(conflicts, out, fixes);
                if answer.refusal == 17 { Validation { length: 7 - answer.length, ..answer } } else { answer }
            }),
            ("conflicts told beside 17", |conflicts, out, fixes| {
                let answer = abc(conflicts, out, fixes);
                Validation { conflicts: u64::from(conflicts || answer.refusal == 17), ..answer }
            }),
        ];
        for (what, wrong) in wrong {
            let noticed = [false, true].map(|conflicts| {
                two_noticed(&|out: &mut [u8], fixes: &mut [u8]| wrong(conflicts, out, fixes))
            });
            assert!(noticed.contains(&true), "{what}");
        }
    }
}
