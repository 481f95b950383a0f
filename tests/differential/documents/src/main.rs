//! Reads ../examples.txt from standard input: specs of the documents and, indented
//! below each, what it becomes. Prints the file again with what each spec becomes
//! made anew by the archive, so that a comparison with the file is the test.

use std::{
    io::{Read, stdin},
    process::ExitCode,
};
use vasigmon::{Instruction, Operation, Refusal};

fn main() -> ExitCode {
    let mut examples = String::new();
    stdin().read_to_string(&mut examples).expect("the examples can be read");
    match anew(&examples) {
        Ok(lines) => {
            print!("{lines}");
            ExitCode::SUCCESS
        }
        Err(line) => {
            eprintln!("documents: neither a comment nor an example: {line}");
            ExitCode::from(2)
        }
    }
}

/// The examples with the indented lines made anew, or a line that is no example.
fn anew(examples: &str) -> Result<String, &str> {
    let mut out = String::new();
    for line in examples.lines() {
        if line.starts_with("    ") {
            continue;
        }
        out += &format!("{line}\n");
        if !line.is_empty() && !line.starts_with('#') {
            let (op, spec) = example(line).ok_or(line)?;
            for answer in becomes(op, &spec) {
                out += &format!("    {answer}\n");
            }
        }
    }
    Ok(out)
}

/// An operation and a spec, parted by a space.
fn example(line: &str) -> Option<(Operation, Vec<u8>)> {
    let (op, spec) = line.split_once(' ')?;
    let op = match op {
        "fetch" => Operation::Fetch,
        "push" => Operation::Push,
        _ => return None,
    };
    Some((op, bytes(spec)?))
}

/// What a spec becomes: its instruction in words, its canonical text and its
/// prefix; or its refusal.
fn becomes(op: Operation, spec: &[u8]) -> Vec<String> {
    accepted(op, spec).unwrap_or_else(|refusal| vec![format!("refused {}: {refusal}", refusal.number())])
}

fn accepted(op: Operation, spec: &[u8]) -> Result<Vec<String>, Refusal> {
    let spec = vasigmon::parse(op, spec)?;
    Ok(vec![
        words(spec.instruction()),
        format!("text {}", shown(&spec.to_bstring())),
        spec.prefix().map_or("no prefix".into(), |prefix| format!("prefix {}", shown(prefix))),
    ])
}

/// An instruction in words.
fn words(instruction: Instruction) -> String {
    let forced = |force| if force { ", forced" } else { "" };
    match instruction {
        Instruction::FetchOnly { source } => format!("fetch {}, update nothing", shown(source)),
        Instruction::FetchExclude { source } => format!("do not fetch {}", shown(source)),
        Instruction::FetchAndUpdate { source, destination, force } => {
            format!("fetch {}, update {}{}", shown(source), shown(destination), forced(force))
        }
        Instruction::PushAllMatching { force } => format!("push all matching branches{}", forced(force)),
        Instruction::PushDelete { destination } => format!("delete {}", shown(destination)),
        Instruction::PushMatching { source, destination, force } => {
            format!("push {}, update {}{}", shown(source), shown(destination), forced(force))
        }
        Instruction::PushExclude { source } => format!("do not push {}", shown(source)),
    }
}

/// Runs of more equal bytes than this are shown by their number.
const LONGEST_RUN: usize = 20;

/// A text as the examples write it: `%1F` is the byte with that hexadecimal
/// number, and `a(x39)` is 39 letters a.
fn shown(text: &[u8]) -> String {
    let mut out = String::new();
    for run in text.chunk_by(|one, next| one == next) {
        let byte = match run[0] {
            b'%' | b'(' | b')' | 0..=32 | 127.. => format!("%{:02X}", run[0]),
            byte => char::from(byte).to_string(),
        };
        match run.len() {
            0..=LONGEST_RUN => out += &byte.repeat(run.len()),
            many => out += &format!("{byte}(x{many})"),
        }
    }
    out
}

/// The text that is written so, if it can be read.
fn bytes(written: &str) -> Option<Vec<u8>> {
    let mut out = Vec::new();
    let mut rest = written;
    while let Some(first) = rest.chars().next() {
        if let Some(run) = rest.strip_prefix("(x") {
            let (many, after) = run.split_once(')')?;
            let last = out.pop()?;
            out.resize(out.len() + many.parse::<usize>().ok()?, last);
            rest = after;
        } else if first == '%' {
            out.push(u8::from_str_radix(rest.get(1..3)?, 16).ok()?);
            rest = &rest[3..];
        } else if first.is_ascii_graphic() {
            out.push(first as u8);
            rest = &rest[1..];
        } else {
            return None;
        }
    }
    Some(out)
}

#[cfg(test)]
mod tests {
    use super::*;

    #[test]
    fn what_an_example_becomes_is_made_anew() {
        let made = "# a comment\n\nfetch +a:b\n    fetch a, update b, forced\n    text +a:b\n    no prefix\n";
        assert_eq!(anew(made), Ok(made.to_owned()));
        assert_eq!(anew("# a comment\n\nfetch +a:b\n    a wrong answer\n"), Ok(made.to_owned()));
    }

    #[test]
    fn a_line_of_another_kind_is_refused() {
        for line in ["pull a", "fetch", "fetch a b", "fetch %4", "fetch (x3)", "fetch a(x3"] {
            assert_eq!(anew(line), Err(line));
        }
    }

    #[test]
    fn texts_are_written_and_read_back() {
        let long = [b"^".as_slice(), &[b'a'; 39], b"%\x1f()"].concat();
        assert_eq!(shown(&long), "^a(x39)%25%1F%28%29");
        assert_eq!(bytes(&shown(&long)), Some(long));
    }
}
