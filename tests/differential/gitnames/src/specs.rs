//! Whole specs: Git's own reading of them against ours.

use cases::{Random, SPEC_LIMIT, grown, short_text, short_texts};
use std::{
    collections::BTreeSet,
    ffi::OsStr,
    os::unix::ffi::OsStrExt,
    process::{Command, Stdio},
};

/// All texts of up to three of these bytes are put to Git.
const TELLING: &[u8] = b"a*:+^/.@{~]H";

/// The specs that are judged, each once for fetch (0) and for push (1). No
/// variable of a process's environment holds a zero byte, and Git has no limit.
pub fn specs(seed: u64, count: u64) -> Vec<(u64, Vec<u8>)> {
    let short = (0..short_texts(TELLING, 3)).map(|n| short_text(TELLING, n));
    let digits = (39..=42).map(|n| [b"^".as_slice(), &vec![b'a'; n]].concat());
    let grown = (0..count / 3).map(|n| grown(&mut Random::new(seed, n)));
    let all = short.chain(digits).chain(grown);
    let set: BTreeSet<_> = all.filter(|spec| !spec.contains(&0) && spec.len() <= SPEC_LIMIT).collect();
    set.into_iter().flat_map(|spec| [(0, spec.clone()), (1, spec)]).collect()
}

/// Whether a spec is accepted by us, or how Git differs, where it is not known to.
pub fn difference((op, spec): &(u64, Vec<u8>)) -> Result<bool, String> {
    let git = git_accepts(*op, spec);
    let refusal = vasigmon::raw::parse(*op, spec).refusal;
    let expected = if known_to_differ(*op, spec) { !git } else { git };
    if (refusal == 0) == expected {
        return Ok(refusal == 0);
    }
    let verdict = if git { "accepts" } else { "refuses" };
    Err(format!("operation {op}, spec {}: Git {verdict} it, we give {refusal}", spec.escape_ascii()))
}

/// Where gix-refspec, and so we, read a spec otherwise than Git 2.39 does: a push
/// `+` is all matching branches, forced, where Git refuses it; and no negative
/// source is forty or more hexadecimal digits, where Git refuses just forty.
fn known_to_differ(op: u64, spec: &[u8]) -> bool {
    let digits = spec.strip_prefix(b"^").unwrap_or(b"");
    (op == 1 && spec == b"+") || (digits.len() > 40 && digits.iter().all(u8::is_ascii_hexdigit))
}

/// Whether Git takes a spec from its configuration. `ls-remote --get-url` reads a
/// remote's specs and reaches for nothing.
fn git_accepts(op: u64, spec: &[u8]) -> bool {
    let git = Command::new("git")
        .args(["ls-remote", "--get-url", "x"])
        .current_dir("/")
        .env("GIT_CONFIG_NOSYSTEM", "1")
        .env("GIT_CONFIG_GLOBAL", "/dev/null")
        .env("GIT_CONFIG_COUNT", "2")
        .env("GIT_CONFIG_KEY_0", "remote.x.url")
        .env("GIT_CONFIG_VALUE_0", ".")
        .env("GIT_CONFIG_KEY_1", if op == 0 { "remote.x.fetch" } else { "remote.x.push" })
        .env("GIT_CONFIG_VALUE_1", OsStr::from_bytes(spec))
        .stdin(Stdio::null())
        .output()
        .expect("git can be run");
    let refused = git.stderr.starts_with(b"fatal: invalid refspec");
    assert!(git.status.success() || refused, "git ls-remote fails on {}", spec.escape_ascii());
    !refused
}

#[cfg(test)]
mod tests {
    use super::*;

    /// The smallest spec of each way in which Git differs.
    #[test]
    fn known_differences() {
        assert!(!git_accepts(1, b"+"));
        assert_eq!(vasigmon::raw::parse(1, b"+").refusal, 0);
        let digits = [b"^".as_slice(), &[b'a'; 41]].concat();
        assert!(git_accepts(0, &digits));
        assert_eq!(vasigmon::raw::parse(0, &digits).refusal, 11);
        assert!(!git_accepts(0, &digits[..41]));
    }
}
