//! The rules of lent buffers, for every entry that writes: a buffer that is too short is
//! told a length that will do, and nothing but the answer is written.

use vasigmon::{
    list,
    raw::{self, Collision, Validation, Written},
};

const FETCH: u64 = 0;
const PUSH: u64 = 1;

/// What lent buffers hold before a call.
const NOISE: u8 = b'#';

/// The answer of a call to buffers that grow from nothing by the lengths it asks for, and
/// how many calls that took.
fn grown(call: &dyn Fn(&mut [u8]) -> Written) -> (Vec<u8>, usize) {
    let mut out = vec![];
    for calls in 1..10 {
        let answer = call(&mut out);
        match answer.refusal {
            0 => return (out[..answer.length as usize].to_vec(), calls),
            17 => out.resize(answer.length as usize, NOISE),
            number => panic!("refused with {number}"),
        }
    }
    panic!("a buffer grows for ever");
}

/// Checks all rules of a call whose answer is this.
fn keeps_the_rules(call: &dyn Fn(&mut [u8]) -> Written, expected: &[u8]) {
    let need = expected.len();
    assert_eq!(grown(call), (expected.to_vec(), if need == 0 { 1 } else { 2 }));
    for length in 0..need {
        let mut out = vec![NOISE; length];
        let answer = call(&mut out);
        assert_eq!((answer.refusal, answer.record), (17, 0));
        assert!((need..=2 * need).contains(&(answer.length as usize)), "{} for {need}", answer.length);
        assert_eq!(out, vec![NOISE; length]);
    }
    for length in need..need + 3 {
        let mut out = vec![NOISE; length];
        assert_eq!(call(&mut out), Written { refusal: 0, record: 0, length: need as u64 });
        assert_eq!(out, [expected, &vec![NOISE; length - need]].concat());
    }
}

#[test]
fn of_one_spec() {
    keeps_the_rules(&|out| raw::to_bstring(PUSH, b"+:d", out), b":d");
    keeps_the_rules(&|out| raw::to_bstring(FETCH, b"", out), b"HEAD");
    keeps_the_rules(&|out| raw::expand_prefixes(FETCH, &[b'a'; 40], out), b"");
    let six = ["a", "refs/a", "refs/tags/a", "refs/heads/a", "refs/remotes/a", "refs/remotes/a/HEAD"];
    keeps_the_rules(&|out| raw::expand_prefixes(FETCH, b"a", out), &list::of(six));
}

/// The report on two specs that collide, whose mark is there where a destination is written.
fn collision(first: &[u8], second: &[u8], out: &mut [u8]) -> Written {
    let Collision { refusal, which, collides, length } = raw::collide(first, second, out);
    assert_eq!((which, collides), (0, u64::from(refusal == 0)));
    Written { refusal, record: 0, length }
}

#[test]
fn of_two_specs_that_collide() {
    keeps_the_rules(&|out| collision(b"*:*", b"a*:*", out), b"");
    keeps_the_rules(&|out| collision(b"a:b", b"*:refs/*", out), b"refs/heads/b");
    keeps_the_rules(&|out| collision(b"a*:refs/ab*", b"*b:refs/a*bc", out), b"refs/abbc");
    keeps_the_rules(&|out| collision(&[b"a:", &[b'F'; 40][..]].concat(), b"*:*", out), &{
        [b"refs/heads/".as_slice(), &[b'f'; 40]].concat()
    });
}

#[test]
fn of_two_specs_that_do_not() {
    for (first, second) in [(b"*:a*".as_slice(), b"*:b*".as_slice()), (b"*:*", b"^a"), (b"a", b"a:b")] {
        for length in [0, 1, 100] {
            let mut out = vec![NOISE; length];
            assert_eq!(raw::collide(first, second, &mut out), Collision::default());
            assert_eq!(out, vec![NOISE; length]);
        }
    }
}

#[test]
fn of_a_group() {
    let specs = list::of(["refs/heads/*:refs/remotes/hub/*", "^refs/heads/tmp*"]);
    let items = list::of(["refs/heads/a", "refs/heads/tmp1"]);
    let back = list::of(["refs/remotes/hub/tmp1", "refs/remotes/hub/a"]);
    keeps_the_rules(&|out| raw::group_prefixes(FETCH, &specs, out), &list::of(["refs/heads/"]));
    let row = b"\x01\x00\x00\x0crefs/heads/a\x13refs/remotes/hub/a";
    keeps_the_rules(&|out| raw::match_lhs(FETCH, &specs, &items, out), row);
    let row = b"\x02\x00\x00\x0crefs/heads/a\x13refs/remotes/hub/a";
    keeps_the_rules(&|out| raw::match_rhs(FETCH, &specs, &back, out), row);
    keeps_the_rules(&|out| raw::match_lhs(FETCH, &[], &[], out), b"");
    keeps_the_rules(&|out| raw::match_rhs(FETCH, &[], &[], out), b"");
    keeps_the_rules(&|out| raw::group_prefixes(FETCH, &[], out), b"");
}

/// What `validated` answers to buffers of these lengths, and what they hold then.
fn lent(rows: &[u8], lengths: [usize; 2]) -> (Validation, [Vec<u8>; 2]) {
    let [mut out, mut fixes] = lengths.map(|length| vec![NOISE; length]);
    (raw::validated(FETCH, b"\x01a", rows, &mut out, &mut fixes), [out, fixes])
}

#[test]
fn of_rows_that_pass() {
    let kept = b"\x01\x00\x00\x01a\x00";
    let rows = [kept.as_slice(), b"\x01\x00\x00\x01a\x02b"].concat();
    for (lengths, short, need) in [([5, 0], 1, 6), ([0, 9], 1, 6), ([6, 2], 2, 3), ([9, 0], 2, 3)] {
        let (answer, held) = lent(&rows, lengths);
        let length = answer.length;
        assert_eq!(answer, Validation { refusal: 17, buffer: short, length, ..Validation::default() });
        assert!((need..=2 * need).contains(&length));
        assert_eq!(held, lengths.map(|length| vec![NOISE; length]));
    }
    let (answer, held) = lent(&rows, [7, 4]);
    assert_eq!(answer, Validation { length: 6, fixes_length: 3, ..Validation::default() });
    assert_eq!(held, [[kept.as_slice(), b"#"].concat(), b"\x01b\x00#".to_vec()]);
}

#[test]
fn of_rows_in_conflict() {
    let rows = b"\x01\x00\x00\x01a\x02x\x02\x00\x00\x01b\x02x";
    let found = b"\x01x\x02\x00\x00\x01a\x00\x00\x01b#";
    for fixes in [0, 2] {
        let (answer, held) = lent(rows, [12, fixes]);
        assert_eq!(answer, Validation { conflicts: 1, length: 11, ..Validation::default() });
        assert_eq!(held, [found.to_vec(), vec![NOISE; fixes]]);
    }
    let (answer, held) = lent(rows, [10, 2]);
    assert_eq!((answer.refusal, answer.buffer), (17, 1));
    assert!((11..=22).contains(&answer.length));
    assert_eq!(held, [10, 2].map(|length| vec![NOISE; length]));
}
