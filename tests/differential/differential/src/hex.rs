//! Bytes on a command line: hexadecimal digits, with `x` and a count after a byte
//! that repeats, and a comma after the count.

/// The shortest run that is written as a count.
const RUN: usize = 8;

pub fn to_hex(bytes: &[u8]) -> String {
    let mut text = String::new();
    for run in bytes.chunk_by(|one, other| one == other) {
        if run.len() >= RUN {
            text += &format!("{:02x}x{},", run[0], run.len());
        } else {
            run.iter().for_each(|byte| text += &format!("{byte:02x}"));
        }
    }
    text
}

pub fn from_hex(text: &str) -> Option<Vec<u8>> {
    let mut bytes = Vec::new();
    let mut rest = text;
    while !rest.is_empty() {
        if let Some(counted) = rest.strip_prefix('x') {
            let (count, after) = counted.split_once(',')?;
            let count: usize = count.parse().ok()?;
            let byte = bytes.pop()?;
            bytes.resize(bytes.len() + count, byte);
            rest = after;
        } else {
            let pair = rest.get(..2)?;
            if pair.starts_with('+') {
                return None;
            }
            bytes.push(u8::from_str_radix(pair, 16).ok()?);
            rest = &rest[2..];
        }
    }
    Some(bytes)
}

#[cfg(test)]
mod tests {
    use super::*;

    #[test]
    fn there_and_back() {
        let long = [b"ab".as_slice(), &[b'a'; 4096], b"\x00", &[0xff; 8], b"z"].concat();
        assert_eq!(to_hex(&long), "616261x4096,00ffx8,7a");
        for bytes in [b"".as_slice(), b"\x00\x7f\xff", &long] {
            assert_eq!(from_hex(&to_hex(bytes)).as_deref(), Some(bytes));
        }
        for text in ["6", "x3,", "61x3", "zz", "é", "+1"] {
            assert_eq!(from_hex(text), None, "{text}");
        }
    }
}
