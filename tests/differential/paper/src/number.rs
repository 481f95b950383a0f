//! "A number is written in groups of seven bits, lowest first, the top bit set
//! while more follow, in its shortest form; at most three groups, 2,097,151."

/// The number at the front of some bytes and what follows it, if it is well formed.
pub fn read(bytes: &[u8]) -> Option<(usize, &[u8])> {
    let groups = 1 + bytes.iter().take_while(|byte| **byte >= 128).count();
    if groups > 3 || groups > bytes.len() {
        return None;
    }
    let (number, rest) = bytes.split_at(groups);
    if groups > 1 && number[groups - 1] == 0 {
        return None;
    }
    let value = number.iter().rev().fold(0, |value, byte| 128 * value + usize::from(byte % 128));
    Some((value, rest))
}

/// Appends a number.
pub fn write(out: &mut Vec<u8>, number: usize) {
    assert!(number <= 2_097_151, "no number of the paper's lists is larger");
    match number {
        0..128 => out.push(number as u8),
        _ => {
            out.push(128 + (number % 128) as u8);
            write(out, number / 128);
        }
    }
}

/// The text at the front of some bytes, a length and its bytes, and what follows it.
pub fn read_text(bytes: &[u8]) -> Option<(&[u8], &[u8])> {
    let (length, rest) = read(bytes)?;
    rest.split_at_checked(length)
}

/// Appends a text: a length, then the bytes.
pub fn write_text(out: &mut Vec<u8>, text: &[u8]) {
    write(out, text.len());
    out.extend(text);
}

#[cfg(test)]
mod tests {
    use super::*;

    #[test]
    fn what_is_written_is_read_back() {
        for number in (0..40_000).chain([2_097_150, 2_097_151]) {
            let mut bytes = Vec::new();
            write(&mut bytes, number);
            bytes.push(7);
            assert_eq!(read(&bytes), Some((number, [7].as_slice())));
        }
    }

    #[test]
    fn what_no_number_is() {
        for bytes in [b"".as_slice(), b"\x80", b"\x80\x00", b"\x81\x80\x00", b"\x80\x80\x80\x01", b"\xff\xff"]
        {
            assert_eq!(read(bytes), None);
        }
        assert_eq!(read_text(b"\x02a"), None);
        assert_eq!(read_text(b"\x01ab"), Some((b"a".as_slice(), b"b".as_slice())));
    }
}
