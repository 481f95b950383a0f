//! Records what gix-refspec answers, so that the answers can be replayed where
//! neither Rust nor the crate is at hand. ../README.md has the format.

mod groups;
mod pairs;

use cases::{Random, SPEC_LIMIT, around_the_limit, good, grown, short_text, short_texts};
use oracle::{Answer, Side};
use std::{collections::BTreeSet, fs, process::ExitCode};

const USAGE: &str = "usage: recorder [--groups | --pairs] [--check] FILE";

/// All texts of up to two of these bytes are recorded.
const TELLING: &[u8] = b"a*:+^/.@{~]H";

/// How many good specs, and how many specs of any shape, are tried.
const GROWN: u64 = 900;

const SEED: u64 = 1;

/// The replay reads each record into one buffer of this length.
const RECORD_LIMIT: usize = 65_536;

/// Of the specs around the limit of 4,096 bytes, these are recorded, below it.
const LONG: [u64; 5] = [24, 4, 17, 31, 8];

fn main() -> ExitCode {
    let words: Vec<String> = std::env::args().skip(1).collect();
    let mut words: Vec<&str> = words.iter().map(String::as_str).collect();
    let mut asked = |word| words.first() == Some(&word) && words.remove(0) == word;
    let (groups, pairs, check) = (asked("--groups"), asked("--pairs"), asked("--check"));
    let ([file], false) = (&words[..], groups && pairs || words.iter().any(|word| word.starts_with('-')))
    else {
        eprintln!("{USAGE}");
        return ExitCode::from(2);
    };
    let records = match (groups, pairs) {
        (true, _) => groups::records(),
        (_, true) => pairs::records(),
        _ => records(),
    };
    let bytes = list(&records);
    if check {
        let same = fs::read(file).is_ok_and(|found| found == bytes);
        println!("recorder: {file} {} what the crate answers", if same { "is" } else { "is not" });
        return if same { ExitCode::SUCCESS } else { ExitCode::FAILURE };
    }
    fs::write(file, &bytes).expect("the file can be written");
    println!("recorder: {} records, {} bytes", records.len(), bytes.len());
    ExitCode::SUCCESS
}

/// Records one after another, each after its length in four bytes, the lowest first.
fn list(records: &[Vec<u8>]) -> Vec<u8> {
    let mut out = Vec::new();
    for record in records {
        assert!(record.len() <= RECORD_LIMIT, "a record fits the replay's buffer");
        out.extend((record.len() as u32).to_le_bytes());
        out.extend(record);
    }
    out
}

/// The records of all specs, for fetch and for push.
fn records() -> Vec<Vec<u8>> {
    let specs = specs();
    let both = |spec: &Vec<u8>| [0, 1].map(|op| record(op, spec, oracle::ask(op.into(), spec)));
    specs.iter().flat_map(both).collect()
}

/// The specs, each once, in order of their length.
fn specs() -> Vec<Vec<u8>> {
    let short = (0..short_texts(TELLING, 2)).map(|n| short_text(TELLING, n));
    let good = (0..GROWN).map(|n| good(&mut Random::new(SEED, n)));
    let grown = (0..GROWN).map(|n| grown(&mut Random::new(SEED, GROWN + n)));
    let long = LONG.map(around_the_limit).into_iter().filter(|spec| spec.len() < SPEC_LIMIT);
    // The key of a push of 2,048 letters is above the limit of a spec.
    let named = NAMED.iter().chain(KEYS).map(|spec| spec.to_vec()).chain([vec![b'l'; SPEC_LIMIT / 2]]);
    let all = short.chain(named).chain(good).chain(grown.filter(|spec| spec.len() < 1000)).chain(long);
    let set: BTreeSet<_> = all.map(|spec| (spec.len(), spec)).collect();
    set.into_iter().map(|(_, spec)| spec).collect()
}

/// Specs that the papers speak of.
const NAMED: &[&[u8]] = &[
    b"^a:b",
    b"a:",
    b"a*:b",
    b"a*",
    b"a**:b*",
    b"+:d",
    b"++a",
    b":/fix:refs/heads/b",
    b"a:@",
    b"refs/*:b/*",
    b"refs/*/b:b/*",
    b"refs/a]*:b*",
    b"refs/a]/*:b*",
    b"+refs/heads/*:refs/remotes/hub/*",
    b"^refs/heads/tmp*",
    b"refs/heads/*:refs/remotes/origin/*",
    b"HEAD:refs/heads/main",
    b"main",
    b"main:main",
    b":refs/heads/old",
    b"refs/tags/*:refs/tags/*",
    b"^aaaaaaaaaaaaaaaaaaaaaaaaaaaaaaaaaaaaaaa",
    b"^aaaaaaaaaaaaaaaaaaaaaaaaaaaaaaaaaaaaaaaa",
    b"0123456789abcdefABCDEF0123456789abcdef01:b",
    b"b:0123456789abcdefABCDEF0123456789abcdef01",
];

/// Specs whose keys are easily taken for each other.
const KEYS: &[&[u8]] = &[
    b"a:a", b"+a:a", b"a:b", b"b:a", b"+a:b", b"@:b", b"HEAD:b", b":b", b"+:b", b"::b", b"+::b", b":/fix:b",
    b"a:b:c", b"++a:b", b"+++a:b", b"++:b", b"+^a:b", b"++a:", b"+a:", b"++.a", b"+.a", b"^+a", b"++a:+a",
    b"a*:a*", b"+a*",
];

/// One record.
fn record(op: u8, spec: &[u8], answer: Result<Answer, u64>) -> Vec<u8> {
    let mut out = vec![op];
    text(&mut out, spec);
    let Ok(answer) = answer else {
        out.push(0);
        return out;
    };
    out.extend([1, answer.kind as u8, answer.force as u8]);
    text(&mut out, &answer.text);
    match answer.prefix {
        Side { kind: 0, .. } => out.push(0),
        Side { kind: 1, start, length } => {
            out.push(1);
            text(&mut out, &spec[start as usize..][..length as usize]);
        }
        _ => {
            out.push(1);
            text(&mut out, b"HEAD");
        }
    }
    out.push(answer.prefixes.len() as u8);
    answer.prefixes.iter().for_each(|prefix| text(&mut out, prefix));
    out
}

/// Appends a text: its length in two bytes, the lower first, then its bytes.
fn text(out: &mut Vec<u8>, bytes: &[u8]) {
    let length = u16::try_from(bytes.len()).expect("a recorded text is below 65,536 bytes");
    out.extend(length.to_le_bytes());
    out.extend(bytes);
}

#[cfg(test)]
mod tests {
    use super::*;

    #[test]
    fn a_record_of_each_kind() {
        assert_eq!(record(1, b"a:", oracle::ask(1, b"a:")), b"\x01\x02\x00a:\x00");
        let fetched = record(0, b"+:d", oracle::ask(0, b"+:d"));
        assert_eq!(fetched, b"\x00\x03\x00+:d\x01\x02\x01\x07\x00+HEAD:d\x01\x04\x00HEAD\x01\x04\x00HEAD");
    }

    #[test]
    fn texts_that_are_taken_for_each_other_are_there() {
        let specs = specs();
        for spec in
            [b"++a".as_slice(), b"++", b"++.a", b"+", b":", b"+:", b"a", b"a:a", b"@", b"HEAD", b"++:b"]
        {
            assert!(specs.iter().any(|recorded| recorded == spec), "{}", spec.escape_ascii());
        }
        let half = [b'l'; SPEC_LIMIT / 2];
        assert!(specs.iter().any(|recorded| *recorded == half));
        assert!(oracle::ask(1, &half).unwrap().text.len() > SPEC_LIMIT);
    }

    #[test]
    fn the_file_is_small_and_has_some_thousands_of_records() {
        assert!(list(&records()).len() < 600_000);
        assert!(records().len() > 3_000);
        assert!(specs().iter().all(|spec| spec.len() < SPEC_LIMIT));
    }
}
