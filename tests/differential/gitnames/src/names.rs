//! Names: `git check-ref-format` against the reading of specs that turn on one name.

use cases::{Random, short_text, short_texts};
use std::{
    collections::BTreeSet,
    ffi::OsStr,
    os::unix::ffi::OsStrExt,
    process::{Command, Stdio},
};

/// The bytes that decide, for all names of up to three bytes.
const TELLING: &[u8] = b"a./@{*:~^?[\\] \x1f\x7f\x80+HZ";

/// Fewer bytes, for all names of up to five: those that decide together.
const TOGETHER: &[u8] = b"a./@{*";

/// The names that are judged, each once, shorter ones first.
pub fn names(seed: u64, count: u64) -> Vec<Vec<u8>> {
    let mut names = BTreeSet::new();
    let mut add = |name: Vec<u8>| {
        if can_be_asked(&name) {
            names.insert((name.len(), name));
        }
    };
    (0..short_texts(TELLING, 3)).for_each(|n| add(short_text(TELLING, n)));
    (0..short_texts(TOGETHER, 5)).for_each(|n| add(short_text(TOGETHER, n)));
    (1..=255).for_each(|byte| add(vec![b'a', byte, b'a']));
    MANUAL.iter().for_each(|name| add(name.to_vec()));
    (0..count).for_each(|n| add(grown(&mut Random::new(seed, n))));
    names.into_iter().map(|(_, name)| name).collect()
}

/// Names of the manual's rules and examples, with the neighbours of each rule's edge.
const MANUAL: &[&[u8]] = &[
    b"foo/bar*/baz",
    b"foo/bar*baz/",
    b"foo/bar*/baz*",
    b"refs/heads/main",
    b"ref1..ref2",
    b"a.lock",
    b"a.lock/b",
    b"a.lockb",
    b"a/b.lock",
    b"lock",
    b"a.LOCK",
    b"*.lock",
    b"a.*lock",
    b"a.loc*",
    b"a.lo*ck",
    b"*lock",
    b".*",
    b"*.",
    b"a./b",
    b"a/.b",
    b"@",
    b"@/a",
    b"a/@",
    b"@*",
    b"*@",
    b"@*{",
    b"@@",
    b"@{-1}",
    b"a@{b",
    b"v1.3.3:refs.c",
    b"a\\b",
];

/// A random name: components and pieces that break a rule or nearly do.
fn grown(random: &mut Random) -> Vec<u8> {
    const PIECES: &[&[u8]] = &[
        b"refs/", b"heads/", b"a", b"main", b"/", b"/", b".", b".lock", b".loc", b"lock", b"@", b"{", b"*",
        b"-", b"]", b"\x80", b"\xff", b"~", b"^", b":", b"?", b"[", b"\\", b" ", b"\t", b"\x7f", b"HEAD",
    ];
    // Most names have no piece after the sixteenth: they would nearly all be refused.
    let pieces = if random.once_in(3) { PIECES } else { &PIECES[..17] };
    (0..1 + random.below(7)).flat_map(|_| random.pick(pieces)).copied().collect()
}

/// Whether a name can be put to both: Git takes a leading dash for an option, no
/// word of a command holds a zero byte, and an empty side of a spec is absent.
fn can_be_asked(name: &[u8]) -> bool {
    !name.is_empty() && !name.starts_with(b"-") && !name.contains(&0)
}

/// Whether a name passes, or how the two judge it.
pub fn difference(name: &[u8]) -> Result<bool, String> {
    let git = git_passes(name);
    for (spec, refusals) in specs(name) {
        let refusal = vasigmon::raw::parse(0, &spec).refusal;
        let alike = if git { refusal == 0 } else { refusals.contains(&refusal) };
        if !alike {
            let verdict = if git { "passes" } else { "does not pass" };
            let name = name.escape_ascii();
            return Err(format!(
                "name {name}: Git says it {verdict}, fetch {} gives {refusal}",
                spec.escape_ascii()
            ));
        }
    }
    Ok(git)
}

/// The fetch specs whose reading turns on the name alone, each with the
/// refusals for a name that does not pass. As destination a name is judged
/// whatever it is, but a colon in it would part it. As source after a sign it is
/// judged too, colons and further signs included, but `@` would become `HEAD`.
/// The other side is a name, or a pattern where the name has stars, that passes.
fn specs(name: &[u8]) -> Vec<(Vec<u8>, [u64; 2])> {
    let other: &[u8] = if name.contains(&b'*') { b"refs/*" } else { b"refs/a" };
    let mut specs = Vec::new();
    if !name.contains(&b':') {
        specs.push(([other, b":", name].concat(), [7, 8]));
    }
    if name != b"@" {
        specs.push(([b"+", name, b":", other].concat(), [5, 6]));
    }
    specs
}

/// Whether `git check-ref-format` passes a name, as a pattern if it has a star.
fn git_passes(name: &[u8]) -> bool {
    let mut git = Command::new("git");
    git.args(["check-ref-format", "--allow-onelevel"]);
    if name.contains(&b'*') {
        git.arg("--refspec-pattern");
    }
    git.arg(OsStr::from_bytes(name)).stdin(Stdio::null()).stdout(Stdio::null()).stderr(Stdio::null());
    let status = git.status().expect("git can be run");
    match status.code() {
        Some(0) => true,
        Some(1) => false,
        other => panic!("git check-ref-format ends with {other:?} on {}", name.escape_ascii()),
    }
}

#[cfg(test)]
mod tests {
    use super::*;

    /// The manual calls `foo/bar*baz/` allowed, and says beside that no name ends
    /// with a slash. Git's program refuses it, and so do we.
    #[test]
    fn the_manuals_examples_of_patterns() {
        assert_eq!(difference(b"foo/bar*/baz"), Ok(true));
        assert_eq!(difference(b"foo/bar*baz/"), Ok(false));
        assert_eq!(difference(b"foo/bar*/baz*"), Ok(false));
    }

    #[test]
    fn a_name_is_asked_where_it_stands_whole() {
        assert_eq!(specs(b"a"), [(b"refs/a:a".to_vec(), [7, 8]), (b"+a:refs/a".to_vec(), [5, 6])]);
        assert_eq!(specs(b"a:b"), [(b"+a:b:refs/a".to_vec(), [5, 6])]);
        assert_eq!(specs(b"@"), [(b"refs/a:@".to_vec(), [7, 8])]);
        assert_eq!(specs(b"*"), [(b"refs/*:*".to_vec(), [7, 8]), (b"+*:refs/*".to_vec(), [5, 6])]);
    }
}
