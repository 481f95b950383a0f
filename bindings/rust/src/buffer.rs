//! Output buffers, which grow to the length that stands beside refusal 17.

use crate::{Refusal, raw};

/// How long the buffer is that a call is first lent.
pub(crate) const FIRST: usize = 256;

/// What a call answers, and the bytes that it writes: lends a buffer, and where that is too
/// short, one of the length that the call asks for. An answer has a refusal and a length.
pub(crate) fn lent<A>(
    mut call: impl FnMut(&mut [u8]) -> A,
    numbers: impl Fn(&A) -> (u64, u64),
) -> (A, Vec<u8>) {
    let mut out = vec![0; FIRST];
    let mut answer = call(&mut out);
    let (refusal, length) = numbers(&answer);
    if refusal == Refusal::BufferTooShort.number() {
        out.resize(length as usize, 0);
        answer = call(&mut out);
    }
    let (_, length) = numbers(&answer);
    out.truncate(length as usize);
    (answer, out)
}

/// What a call writes that only its buffer can keep from it.
pub(crate) fn written(call: impl FnMut(&mut [u8]) -> raw::Written) -> Vec<u8> {
    let (answer, out) = lent(call, |answer| (answer.refusal, answer.length));
    Refusal::told(answer.refusal).expect("all else that is lent was accepted before");
    out
}

#[cfg(test)]
mod tests {
    use super::*;

    /// A call that writes so many bytes and asks for one more than that, and how often
    /// it is made.
    fn counted(need: usize) -> (Vec<u8>, usize) {
        let mut calls = 0;
        let out = written(|out| {
            calls += 1;
            if out.len() < need {
                let refusal = Refusal::BufferTooShort.number();
                return raw::Written { refusal, record: 0, length: need as u64 + 1 };
            }
            out[..need].fill(b'x');
            raw::Written { refusal: 0, record: 0, length: need as u64 }
        });
        (out, calls)
    }

    #[test]
    fn one_call_where_the_first_buffer_will_do_and_else_two() {
        for (need, calls) in [(0, 1), (FIRST - 1, 1), (FIRST, 1), (FIRST + 1, 2), (100 * FIRST, 2)] {
            assert_eq!(counted(need), (vec![b'x'; need], calls));
        }
    }

    #[test]
    #[should_panic(expected = "NegativeColon")]
    fn any_other_refusal_is_a_mistake_of_ours() {
        written(|_| raw::Written { refusal: 3, record: 0, length: 0 });
    }
}
