use crate::{PairRefusal, buffer::lent, raw};

/// Whether two fetch specs can ever collide: a destination to which some name under the first
/// and some name under the second can be written, if there is one.
///
/// No listing is asked for: the names may be any bytes of any length, and an object id counts
/// as a name does. So where there is no such destination, [`Group::validated`] never finds, in
/// what [`Group::match_lhs`] lists, two sources of these two specs in conflict, whatever names
/// a remote will have. The other way round a collision need not become a conflict. The two
/// names may be one name, so that a spec with a destination collides with itself.
///
/// The destination of two patterns is the longer start followed by the longer end. One without
/// a star is told as [`Group::match_lhs`] writes it. A destination may have no bytes. A spec that is
/// negative or has no destination collides with nothing.
///
/// [`raw::collide`] does the same with a buffer of your own.
///
/// ```
/// use vasigmon::collide;
///
/// let north = b"refs/heads/*:refs/carriers/north/*";
/// assert_eq!(collide(north, b"refs/heads/*:refs/carriers/south/*")?, None);
///
/// let pins = b"refs/tags/*:refs/carriers/*pin";
/// assert_eq!(collide(north, pins)?, Some(b"refs/carriers/north/pin".to_vec()));
///
/// // A short name is completed: both of these write refs/heads/main.
/// assert_eq!(collide(b"main:main", b"refs/heads/*:refs/heads/*")?, Some(b"refs/heads/main".to_vec()));
/// # Ok::<(), vasigmon::PairRefusal>(())
/// ```
///
/// [`Group::validated`]: crate::Group::validated
/// [`Group::match_lhs`]: crate::Group::match_lhs
pub fn collide(first: &[u8], second: &[u8]) -> Result<Option<Vec<u8>>, PairRefusal> {
    let call = |out: &mut [u8]| raw::collide(first, second, out);
    let (answer, out) = lent(call, |answer| (answer.refusal, answer.length));
    PairRefusal::told(answer.refusal, answer.which)?;
    Ok(match answer.collides {
        0 => None,
        1 => Some(out),
        number => unreachable!("no report has the number {number}"),
    })
}

#[cfg(test)]
mod tests {
    use super::*;

    const DIGITS: &[u8] = b"0123456789ABCDEF0123456789abcdef01234567";

    /// The destination on which two specs collide, in either order.
    fn on(first: &[u8], second: &[u8]) -> Option<Vec<u8>> {
        let destination = collide(first, second).unwrap();
        assert_eq!(collide(second, first).unwrap(), destination);
        destination
    }

    #[test]
    fn the_longer_start_and_the_longer_end() {
        assert_eq!(on(b"*:refs/a*c", b"*:refs/ab*bc"), Some(b"refs/abbc".to_vec()));
        assert_eq!(on(b"*:refs/ab*c", b"*:refs/a*bc"), Some(b"refs/abbc".to_vec()));
        assert_eq!(on(b"*:refs/a*", b"*:refs/b*"), None);
        assert_eq!(on(b"*:*a", b"*:*b"), None);
    }

    #[test]
    fn a_yes_may_have_no_bytes() {
        assert_eq!(on(b"*:*", b"a*:*"), Some(vec![]));
    }

    #[test]
    fn literals_as_they_are_written() {
        let object = [b"a:", DIGITS].concat();
        let lower = [b"refs/heads/".as_slice(), &DIGITS.to_ascii_lowercase()].concat();
        assert_eq!(on(&object, b"*:refs/heads/*"), Some(lower));
        assert_eq!(on(b"a:tags/x", b"b:refs/tags/x"), Some(b"refs/tags/x".to_vec()));
        assert_eq!(on(b"a:tags/x", b"b:tags/y"), None);
        assert_eq!(on(b"a:refs/aba", b"*:refs/ab*ba"), None, "start and end would overlap");
        assert_eq!(on(b"a:refs/abba", b"*:refs/ab*ba"), Some(b"refs/abba".to_vec()));
    }

    #[test]
    fn an_object_id_is_a_source_too() {
        assert_eq!(on(&[DIGITS, b":x"].concat(), b"b:x"), Some(b"refs/heads/x".to_vec()));
    }

    #[test]
    fn specs_that_write_nowhere() {
        for spec in [b"^a*".as_slice(), b"^refs/a", b"a", b"", DIGITS] {
            assert_eq!(on(spec, b"*:*"), None);
            assert_eq!(on(spec, spec), None);
        }
    }

    #[test]
    fn destinations_longer_than_the_first_buffer() {
        let letters = [b'l'; 4000];
        let (start, end) = ([b"*:", &letters[..], b"*"].concat(), [b"*:*", &letters[..]].concat());
        assert_eq!(on(&start, &end), Some([letters, letters].concat()));
    }
}
