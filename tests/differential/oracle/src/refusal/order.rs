//! The side by the order of the questions. The crate asks both of the source, whether it
//! has one star at most and whether it keeps the name rules, before it asks them of the
//! destination. So an error that answers one of them is about the source exactly if the
//! source fails either.

use super::{last_colon, sign, source, with_a_letter};
use bstr::BStr;
use gix_validate::reference::name_partial;

/// Whether an error about one of both sides is about the source.
pub fn of_the_source(op: u64, spec: &[u8]) -> bool {
    let source = source(spec);
    // An absent source is not asked about, and a supplied `HEAD` passes.
    if source.is_empty() || source == b"@" {
        return false;
    }
    match source.iter().filter(|b| **b == b'*').count() {
        0 => !(op == 1 && has_destination(spec)) && refused(source),
        1 => refused(&with_a_letter(source)),
        _ => true,
    }
}

/// Whether a spec has a destination: without a star, the source of a push may then be any
/// text.
fn has_destination(spec: &[u8]) -> bool {
    last_colon(&spec[sign(spec)..]).is_some() && !spec.ends_with(b":")
}

fn refused(name: &[u8]) -> bool {
    name_partial(BStr::new(name)).is_err()
}
