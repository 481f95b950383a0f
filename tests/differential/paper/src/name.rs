//! Names, patterns and object ids.

/// "A name passes if it is not empty; is not `@` alone; has no byte below 32, byte
/// 127, space, or any of `~ ^ : ? * [ \`; has no `..`, `@{` or `//`; does not begin
/// or end with `/` or end with `.`; and no part between slashes begins with `.` or
/// ends with `.lock`."
pub fn passes(name: &[u8]) -> bool {
    let has = |pair: &[u8; 2]| name.windows(2).any(|two| two == pair);
    let forbidden = |byte: &u8| *byte < 32 || *byte == 127 || b" ~^:?*[\\".contains(byte);
    let part_fails = |part: &[u8]| part.starts_with(b".") || part.ends_with(b".lock");
    !(name.is_empty()
        || name == b"@"
        || name.iter().any(forbidden)
        || has(b"..")
        || has(b"@{")
        || has(b"//")
        || name.starts_with(b"/")
        || name.ends_with(b"/")
        || name.ends_with(b".")
        || name.split(|byte| *byte == b'/').any(part_fails))
}

/// How many stars a text has.
pub fn stars(text: &[u8]) -> usize {
    text.iter().filter(|byte| **byte == b'*').count()
}

/// "A pattern, a text with one `*`, passes if it does with the star read as the
/// letter a."
pub fn side_passes(side: &[u8]) -> bool {
    match halves(side) {
        Some((start, end)) => passes(&[start, b"a", end].concat()),
        None => passes(side),
    }
}

/// What stands before and after the star of a pattern.
pub fn halves(text: &[u8]) -> Option<(&[u8], &[u8])> {
    let star = text.iter().position(|byte| *byte == b'*')?;
    Some((&text[..star], &text[star + 1..]))
}

/// "A pattern matches if start and end both match and do not overlap; the bytes
/// between are the capture, perhaps empty."
pub fn capture<'a>(pattern: (&[u8], &[u8]), name: &'a [u8]) -> Option<&'a [u8]> {
    name.strip_prefix(pattern.0)?.strip_suffix(pattern.1)
}

/// A pattern with a capture in place of its star.
pub fn filled(pattern: (&[u8], &[u8]), capture: &[u8]) -> Vec<u8> {
    [pattern.0, capture, pattern.1].concat()
}

/// "An object id is forty hexadecimal digits of either case, shown in lower case":
/// its digits as shown.
pub fn object(text: &[u8]) -> Option<Vec<u8>> {
    (text.len() == 40 && text.iter().all(u8::is_ascii_hexdigit)).then(|| text.to_ascii_lowercase())
}

#[cfg(test)]
mod tests {
    use super::*;

    #[test]
    fn names() {
        for good in [b"a".as_slice(), b"HEAD", b"a/b", b"@a", b"a@", b"a.lockx", b"]", b"-", b"\x80", b"a.b"]
        {
            assert!(side_passes(good), "{}", good.escape_ascii());
        }
        for bad in [
            b"".as_slice(),
            b"@",
            b"a b",
            b"a..b",
            b"a@{",
            b"a//b",
            b"/a",
            b"a/",
            b"a.",
            b".a",
            b"a/.b",
            b"a.lock",
            b"a.lock/b",
            b"a\x7f",
            b"a\x1f",
            b"a[",
            b"a\\",
        ] {
            assert!(!side_passes(bad), "{}", bad.escape_ascii());
        }
        assert!(side_passes(b"*") && side_passes(b"a/*") && side_passes(b"@*") && !side_passes(b"*/"));
    }

    #[test]
    fn start_and_end_share_no_bytes() {
        let pattern = (b"a".as_slice(), b"a".as_slice());
        assert_eq!(capture(pattern, b"a"), None);
        assert_eq!(capture(pattern, b"aa"), Some(b"".as_slice()));
        assert_eq!(capture(pattern, b"aba"), Some(b"b".as_slice()));
        assert_eq!(capture(pattern, b"ab"), None);
    }
}
