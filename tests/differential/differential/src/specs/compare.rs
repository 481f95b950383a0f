//! One comparison: the crate's answers against ours, for one operation and one spec.

use super::ours;
use crate::{Fault, smaller::copies};
use cases::{SPEC_LIMIT, short_text};
use oracle::Answer;

/// How many shorter texts are tried in place of a differing one.
const MOST_TRIED: u64 = 200_000;

/// Compares answers.
pub struct Comparison {
    pub fault: Fault,
    /// What buffers hold before they are lent.
    pub noise: Vec<u8>,
}

impl Comparison {
    /// What both sides answer, or how they differ.
    pub fn run(&self, op: u64, spec: &[u8]) -> Result<Result<Answer, u64>, String> {
        let expected = self.expected(op, spec);
        let found = self.found(op, spec)?;
        if found == expected { Ok(found) } else { Err(describe(&expected, &found)) }
    }

    /// The crate's answer. The two limits that the crate does not have are ours:
    /// the operation is 0 or 1, and a spec has at most 4,096 bytes.
    fn expected(&self, op: u64, spec: &[u8]) -> Result<Answer, u64> {
        if op > 1 {
            return Err(18);
        }
        if spec.len() > SPEC_LIMIT {
            return Err(1);
        }
        let mut answer = oracle::ask(op, spec)?;
        if self.fault == Fault::Oracle && answer.kind == 2 {
            answer.force = 1 - answer.force;
        }
        Ok(answer)
    }

    /// Our answer.
    fn found(&self, op: u64, spec: &[u8]) -> Result<Result<Answer, u64>, String> {
        let mut found = ours::ask(op, spec, &self.noise)?;
        if let (Fault::Ours, Ok(answer)) = (self.fault, &mut found) {
            answer.prefixes.pop();
        }
        Ok(found)
    }

    /// A smallest spec that still shows a difference: first bytes are left out or
    /// made an `a` while it does, then all shorter texts over what is left are
    /// tried, as far as time allows.
    pub fn smallest(&self, op: u64, spec: Vec<u8>) -> Vec<u8> {
        let differs = |copy: &Vec<u8>| self.run(op, copy).is_err();
        let mut spec = spec;
        loop {
            let smaller = copies(&spec).find(differs);
            match smaller {
                Some(copy) => spec = copy,
                None => break,
            }
        }
        let mut bytes = [&spec[..], b"a"].concat();
        bytes.sort();
        bytes.dedup();
        let mut shorter =
            (0..MOST_TRIED).map(|n| short_text(&bytes, n)).take_while(|text| text.len() < spec.len());
        shorter.find(differs).unwrap_or(spec)
    }
}

/// The answers of both sides, or the fields of an accepted spec that differ.
fn describe(expected: &Result<Answer, u64>, found: &Result<Answer, u64>) -> String {
    let (Ok(expected), Ok(found)) = (expected, found) else {
        return format!("the crate: {}; ours: {}", verdict(expected), verdict(found));
    };
    let fields = |answer: &Answer| {
        [
            ("mode", format!("{:?}", answer.mode)),
            ("source", format!("{:?}", answer.source)),
            ("destination", format!("{:?}", answer.destination)),
            ("kind", format!("{:?}", answer.kind)),
            ("force", format!("{:?}", answer.force)),
            ("instruction's source", format!("{:?}", answer.instruction_source)),
            ("instruction's destination", format!("{:?}", answer.instruction_destination)),
            ("prefix", format!("{:?}", answer.prefix)),
            ("prefixes", answer.prefixes.iter().map(|p| p.escape_ascii().to_string() + " ").collect()),
            ("text", answer.text.escape_ascii().to_string()),
        ]
    };
    let pairs = fields(expected).into_iter().zip(fields(found));
    let differing = pairs.filter(|(one, other)| one != other);
    differing.map(|((name, one), (_, other))| format!("{name}: the crate {one}, ours {other}; ")).collect()
}

fn verdict(answer: &Result<Answer, u64>) -> String {
    match answer {
        Ok(_) => "accepted".to_owned(),
        Err(number) => format!("refused with {number}"),
    }
}

#[cfg(test)]
mod tests {
    use super::*;

    #[test]
    fn faults_are_seen_and_shrink() {
        for (fault, spec, smallest) in [
            (Fault::Oracle, b"+refs/heads/*:refs/b/*".as_slice(), b":a".as_slice()),
            (Fault::Ours, b"+refs/heads/*:refs/b/*", b""),
        ] {
            let comparison = Comparison { fault, noise: vec![b'#'; 1024] };
            assert!(comparison.run(0, spec).is_err());
            assert_eq!(comparison.smallest(0, spec.to_vec()), smallest);
        }
    }
}
