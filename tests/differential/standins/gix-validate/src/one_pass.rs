//! The manual's rules again, decided by one look at each byte.

/// Whether a name keeps all of the manual's rules.
pub fn well_formed(name: &[u8]) -> bool {
    // What must not follow a slash must not begin a name.
    let mut before = b'/';
    for (at, byte) in name.iter().enumerate() {
        match byte {
            0..=b' ' | 0o177 | b'~' | b'^' | b':' | b'?' | b'*' | b'[' | b'\\' => return false,
            b'.' if before == b'/' || before == b'.' => return false,
            b'{' if before == b'@' => return false,
            b'/' if before == b'/' || name[..at].ends_with(b".lock") => return false,
            _ => {}
        }
        before = *byte;
    }
    before != b'/' && before != b'.' && !name.ends_with(b".lock") && name != b"@"
}

#[cfg(test)]
mod tests {
    use crate::reference::by_the_rules;

    /// Whatever the rules look at, alone and together.
    const PIECES: [&[u8]; 13] =
        [b"", b"/", b".", b"@", b"{", b"lock", b".lock", b"a", b"*", b"\\", b" ", b"\x1f", b"\x7f"];

    fn agree(name: &[u8]) {
        assert_eq!(super::well_formed(name), by_the_rules(name), "{}", name.escape_ascii());
    }

    #[test]
    fn as_by_the_rules() {
        for number in 0..PIECES.len().pow(4) {
            let piece = |place| PIECES[number / PIECES.len().pow(place) % PIECES.len()];
            agree(&[piece(0), piece(1), piece(2), piece(3)].concat());
        }
        (0..=255).for_each(|byte| agree(&[b'a', byte, b'a']));
    }
}
