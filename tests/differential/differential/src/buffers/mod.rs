//! The rules of lent buffers, held to any call that writes. A broken rule is a
//! complaint.

mod two;

pub use two::{Two, TwoCall, two_refused, two_written};

use vasigmon::raw::{Collision, Written};

/// What a call on one buffer answers.
pub trait Answer: Copy + PartialEq + std::fmt::Debug {
    /// The answer of a call that wrote so many bytes.
    fn wrote(length: u64) -> Self;

    /// The answer to a buffer that is too short, with the length that it tells.
    fn short(length: u64) -> Self;

    fn length(self) -> u64;
}

impl Answer for Written {
    fn wrote(length: u64) -> Written {
        Written { length, ..Default::default() }
    }

    fn short(length: u64) -> Written {
        Written { refusal: 17, length, ..Default::default() }
    }

    fn length(self) -> u64 {
        self.length
    }
}

/// Only two specs that collide have something to write.
impl Answer for Collision {
    fn wrote(length: u64) -> Collision {
        Collision { collides: 1, length, ..Default::default() }
    }

    fn short(length: u64) -> Collision {
        Collision { refusal: 17, length, ..Default::default() }
    }

    fn length(self) -> u64 {
        self.length
    }
}

/// A call that writes, with all its arguments but the buffer.
pub type Call<'a, A = Written> = &'a dyn Fn(&mut [u8]) -> A;

/// With how many further buffers a call that writes is made again.
#[derive(Clone, Copy)]
pub enum Again {
    /// One of each length that matters.
    All,
    /// One, which a number picks.
    One(u64),
}

/// What stands before and after all that is lent: a byte that is read there tells,
/// and one that is written there is seen. Nothing does where a memory checker looks on,
/// which sees both.
const AROUND: &[u8] = if cfg!(feature = "alone") { b"" } else { b"*:^+:*" };

/// Bytes to be lent, between others.
pub struct Lent(Vec<u8>);

impl Lent {
    pub fn new(bytes: &[u8]) -> Lent {
        Lent([AROUND, bytes, AROUND].concat())
    }

    pub fn bytes(&self) -> &[u8] {
        &self.0[AROUND.len()..self.0.len() - AROUND.len()]
    }

    fn bytes_mut(&mut self) -> &mut [u8] {
        let end = self.0.len() - AROUND.len();
        &mut self.0[AROUND.len()..end]
    }

    /// Complains if the bytes around have changed.
    fn within(&self, what: &str) -> Result<(), String> {
        untouched(what, &self.0[..AROUND.len()], AROUND)?;
        untouched(what, &self.0[self.0.len() - AROUND.len()..], AROUND)
    }
}

/// Complains if two values are not equal.
pub fn alike<T: PartialEq + std::fmt::Debug>(what: &str, found: T, expected: T) -> Result<(), String> {
    if found == expected { Ok(()) } else { Err(format!("{what} answers {found:?}, not {expected:?}")) }
}

/// Calls with a buffer of noise: what is answered, and the buffer after it.
fn lend<A: Answer>(what: &str, call: Call<A>, noise: &[u8]) -> Result<(A, Lent), String> {
    let mut buffer = Lent::new(noise);
    let answer = call(buffer.bytes_mut());
    buffer.within(what)?;
    Ok((answer, buffer))
}

/// Complains unless a call has this answer and leaves its buffer untouched.
pub fn refused<A: Answer>(what: &str, call: Call<A>, noise: &[u8], expected: A) -> Result<(), String> {
    let (answer, buffer) = lend(what, call, noise)?;
    alike(what, answer, expected)?;
    untouched(what, buffer.bytes(), noise)
}

/// Complains if bytes that must keep their content have changed.
fn untouched(what: &str, bytes: &[u8], noise: &[u8]) -> Result<(), String> {
    if bytes == noise { Ok(()) } else { Err(format!("{what} changes bytes that are not the answer's")) }
}

/// The bytes that a call writes, found with a buffer that is surely long enough.
/// The same call with shorter and exact buffers must keep the rules of 17.
pub fn written<A: Answer>(what: &str, call: Call<A>, noise: &[u8], again: Again) -> Result<Vec<u8>, String> {
    let (answer, buffer) = lend(what, call, noise)?;
    let need = answer.length() as usize;
    if need > noise.len() {
        return Err(format!("{what} answers {answer:?} to a buffer of {} bytes", noise.len()));
    }
    alike(what, answer, A::wrote(answer.length()))?;
    untouched(what, &buffer.bytes()[need..], &noise[need..])?;
    let bytes = &buffer.bytes()[..need];

    let lengths = [0, need / 2, need.saturating_sub(1), need, need + 1];
    let mut long_enough = Vec::new();
    let picked = match again {
        Again::All => &lengths[..],
        Again::One(number) => &lengths[(number % 5) as usize..][..1],
    };
    for length in picked {
        let told = if *length < need { short(what, call, &noise[..*length], need)? } else { *length };
        if !long_enough.contains(&told) {
            long_enough.push(told);
        }
    }
    for length in long_enough {
        // What a short buffer is told may be longer than the noise at hand.
        let noise = &noise[..length.min(noise.len())];
        let (second, buffer) = lend(what, call, noise)?;
        alike(what, second, answer)?;
        if buffer.bytes()[..need] != *bytes {
            return Err(format!("{what} writes other bytes to a buffer of {length} bytes"));
        }
        untouched(what, &buffer.bytes()[need..], &noise[need..])?;
    }
    Ok(bytes.to_vec())
}

/// Complains unless a short buffer is told 17 and a length between what is
/// needed and twice that. Answers that length.
fn short<A: Answer>(what: &str, call: Call<A>, noise: &[u8], need: usize) -> Result<usize, String> {
    let (answer, buffer) = lend(what, call, noise)?;
    alike(what, answer, A::short(answer.length()))?;
    let told = answer.length() as usize;
    if told < need || told > 2 * need {
        return Err(format!("{what} needs {need} bytes and asks for {told}"));
    }
    untouched(what, buffer.bytes(), noise)?;
    Ok(told)
}

#[cfg(test)]
mod tests {
    use super::*;

    const NOISE: &[u8] = b"0123456789";

    /// A call that answers `ab` as the interface says.
    fn ab(out: &mut [u8]) -> Written {
        if out.len() < 2 {
            return Written { refusal: 17, record: 0, length: 3 };
        }
        out[..2].copy_from_slice(b"ab");
        Written { refusal: 0, record: 0, length: 2 }
    }

    /// Whether a call is complained about, with all buffers and with one after another.
    fn noticed(call: Call) -> bool {
        let one_by_one = (0..5).any(|number| written("ab", call, NOISE, Again::One(number)).is_err());
        let all = written("ab", call, NOISE, Again::All).is_err();
        assert_eq!(one_by_one, all);
        all
    }

    #[test]
    fn a_call_that_keeps_the_rules_passes() {
        assert!(!noticed(&ab));
        assert_eq!(written("ab", &ab, NOISE, Again::All), Ok(b"ab".to_vec()));
    }

    #[test]
    fn a_byte_beyond_the_answer_is_noticed() {
        assert!(noticed(&|out| {
            let answer = ab(out);
            if let Some(byte) = out.get_mut(2) {
                *byte = b'x';
            }
            answer
        }));
    }

    #[test]
    fn a_byte_written_on_refusal_is_noticed() {
        assert!(noticed(&|out| {
            let answer = ab(out);
            if out.len() == 1 {
                out[0] = b'a';
            }
            answer
        }));
    }

    #[test]
    fn an_invented_length_is_noticed() {
        for length in [0, 1, 5] {
            assert!(noticed(&|out| if out.len() < 2 { Written { length, ..ab(out) } } else { ab(out) }));
        }
    }

    #[test]
    fn a_refused_buffer_that_would_do_is_noticed() {
        assert!(noticed(&|out| {
            if out.len() < 3 { Written { refusal: 17, record: 0, length: 3 } } else { ab(out) }
        }));
    }
}
