//! The side by where its bytes stood, which the stand-ins' errors keep.

use super::{sign, source, with_a_letter};
use crate::place;
use gix_error::Error;
use gix_validate::reference::name;

/// The words of an error, or none where the crate passes the error of a name on.
pub fn words(error: &Error) -> Option<&str> {
    if error.source.is_some() { None } else { Some(&error.message) }
}

/// Whether an error about one of both sides is about the source.
pub fn of_the_source(_: u64, spec: &[u8], error: &Error) -> bool {
    match &error.source {
        Some(name) => is_source(spec, name.downcast_ref().expect("names alone have errors of their own")),
        None => starts_source(spec, error.input_address.expect("this error is about a side")),
    }
}

/// Whether a refused name is the source, not the destination. A name without a
/// star was judged where it stands. A pattern was judged as a copy, with its
/// star read as the letter a; the source comes first.
fn is_source(spec: &[u8], name: &name::Error) -> bool {
    if place(spec, name.address).is_some() {
        return starts_source(spec, name.address);
    }
    let source = source(spec);
    source.contains(&b'*') && with_a_letter(source) == name.name
}

/// Whether the text at an address is the spec's source: it follows the sign.
fn starts_source(spec: &[u8], address: usize) -> bool {
    place(spec, address) == Some(sign(spec))
}

#[cfg(test)]
mod tests {
    use super::super::{order, refusal};
    use crate::operation;
    use bstr::BStr;
    use cases::{short_text, short_texts};

    const BYTES: &[u8] = b"a*:+^@./";

    /// The order of the questions tells the side as the address does.
    fn agree(op: u64, spec: &[u8]) -> bool {
        let Err(error) = gix_refspec::parse(BStr::new(spec), operation(op)) else { return false };
        let number = refusal(op, spec, &error);
        if !matches!(number, 5..=8) {
            return false;
        }
        assert_eq!(order::of_the_source(op, spec), number < 7, "{op} {}", spec.escape_ascii());
        true
    }

    #[test]
    fn as_by_the_order_of_the_questions() {
        let texts = (0..short_texts(BYTES, 6)).map(|number| short_text(BYTES, number));
        let about_a_side = texts.filter(|spec| agree(0, spec) | agree(1, spec)).count();
        assert!(about_a_side > 100_000, "{about_a_side}");
    }
}
