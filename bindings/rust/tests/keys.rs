//! Canonical texts as keys: two specs of one operation have one key exactly if they ask for the
//! same, and a key is read back as what it is the key of.

use vasigmon::{
    Instruction,
    Operation::{self, Fetch, Push},
    Refusal, parse,
};

/// Fetch specs and their keys.
const FETCHES: &[(&str, &str)] = &[
    ("", "HEAD"),
    ("+", "HEAD"),
    (":", "HEAD"),
    ("+:", "HEAD"),
    ("@", "HEAD"),
    ("HEAD", "HEAD"),
    ("a", "a"),
    ("+a", "a"),
    ("a:", "a"),
    ("A", "A"),
    ("++", "+"),
    ("++a", "+a"),
    ("++a:", "+a"),
    ("+++a", "++a"),
    ("++.a", "+.a"),
    ("++@", "+@"),
    ("++HEAD", "+HEAD"),
    ("a:b", "a:b"),
    ("a:+b", "a:+b"),
    ("+a:b", "+a:b"),
    ("++a:b", "++a:b"),
    ("++:b", "++:b"),
    (":b", "HEAD:b"),
    ("@:b", "HEAD:b"),
    ("HEAD:b", "HEAD:b"),
    ("+@:b", "+HEAD:b"),
    ("a*:b*", "a*:b*"),
    ("^a", "^a"),
    ("^+a", "^+a"),
    ("^@", "^HEAD"),
    ("^HEAD", "^HEAD"),
];

/// Push specs and their keys.
const PUSHES: &[(&str, &str)] = &[
    (":", ":"),
    ("+", "+:"),
    ("+:", "+:"),
    ("a", "a:a"),
    ("a:a", "a:a"),
    ("+a", "+a:a"),
    ("+a:a", "+a:a"),
    ("++", "++:+"),
    ("++a", "++a:+a"),
    ("++a:+a", "++a:+a"),
    ("++a:a", "++a:a"),
    ("++.a", "++.a:+.a"),
    ("@", "HEAD:HEAD"),
    ("HEAD", "HEAD:HEAD"),
    ("@:HEAD", "HEAD:HEAD"),
    ("+@", "+HEAD:HEAD"),
    ("a:b", "a:b"),
    ("b:a", "b:a"),
    ("::b", "::b"),
    ("+::b", "+::b"),
    (":/fix:b", ":/fix:b"),
    ("a:b:b", "a:b:b"),
    ("+^a:b", "+^a:b"),
    ("++:b", "++:b"),
    (":b", ":b"),
    ("+:b", ":b"),
    ("a*", "a*:a*"),
    ("a*:a*", "a*:a*"),
    ("^a", "^a"),
    ("^+a", "^+a"),
    ("^@", "^HEAD"),
    ("^HEAD", "^HEAD"),
];

const TRAPS: [(Operation, &[(&str, &str)]); 2] = [(Fetch, FETCHES), (Push, PUSHES)];

/// What an accepted text asks for.
fn instruction(op: Operation, text: &[u8]) -> Instruction<'_> {
    parse(op, text).unwrap().instruction()
}

/// The key of an accepted text.
fn key(op: Operation, text: &[u8]) -> Vec<u8> {
    parse(op, text).unwrap().to_bstring()
}

#[test]
fn are_as_written() {
    for (op, traps) in TRAPS {
        for (text, expected) in traps {
            assert_eq!(key(op, text.as_bytes()), expected.as_bytes(), "{op:?} {text}");
        }
    }
}

#[test]
fn are_equal_exactly_if_instructions_are() {
    for (op, traps) in TRAPS {
        for (one, _) in traps {
            for (other, _) in traps {
                let keys = key(op, one.as_bytes()) == key(op, other.as_bytes());
                let instructions = instruction(op, one.as_bytes()) == instruction(op, other.as_bytes());
                assert_eq!(keys, instructions, "{op:?} {one} and {other}");
            }
        }
    }
}

#[test]
fn are_read_back_but_for_a_fetched_source_with_a_plus() {
    let mut signed = vec![];
    for (op, traps) in TRAPS {
        for (text, _) in traps {
            let asked = instruction(op, text.as_bytes());
            let key = key(op, text.as_bytes());
            let again = parse(op, &key);
            if matches!(asked, Instruction::FetchOnly { source } if source.starts_with(b"+")) {
                assert_ne!(again.map(|spec| spec.instruction()), Ok(asked), "{op:?} {text}");
                signed.push(*text);
            } else {
                assert_eq!(again.map(|spec| spec.instruction()), Ok(asked), "{op:?} {text}");
                assert_eq!(again.unwrap().to_bstring(), key, "{op:?} {text}");
            }
        }
    }
    assert_eq!(signed, ["++", "++a", "++a:", "+++a", "++.a", "++@", "++HEAD"]);
    assert_eq!(instruction(Fetch, b"+a"), instruction(Fetch, b"a"));
    assert_eq!(instruction(Fetch, b"+"), instruction(Fetch, b"HEAD"));
    assert_eq!(parse(Fetch, b"+.a"), Err(Refusal::SourceName));
}

#[test]
fn are_of_one_operation() {
    assert_eq!(key(Fetch, b"a:b"), key(Push, b"a:b"));
    assert_ne!(instruction(Fetch, b"a:b"), instruction(Push, b"a:b"));
}

#[test]
fn may_be_longer_than_a_spec() {
    let letters = [b'a'; 4096];
    let to = |count: usize| [b":", &letters[..count]].concat();
    for (op, text, length) in [
        (Push, letters[..2047].to_vec(), 4095),
        (Push, letters[..2048].to_vec(), 4097),
        (Push, letters.to_vec(), 8193),
        (Fetch, letters.to_vec(), 4096),
        (Fetch, to(4091), 4096),
        (Fetch, to(4092), 4097),
    ] {
        let key = key(op, &text);
        assert_eq!(key.len(), length);
        let asked = if length > 4096 { Err(Refusal::SpecTooLong) } else { Ok(instruction(op, &text)) };
        assert_eq!(parse(op, &key).map(|spec| spec.instruction()), asked);
    }
}
