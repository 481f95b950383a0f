//! The side of an error of the real gix-error, which does not keep where the bytes stood
//! that it is about.

use super::order;
use gix_error::{Error, Message};
use gix_validate::reference::name;

/// The words of an error, or none where the crate passes the error of a name on.
pub fn words(error: &Error) -> Option<&str> {
    if error.downcast_any_ref::<name::Error>().is_some() {
        return None;
    }
    let message: &Message = error.downcast_any_ref().expect("the error of a name, or one with words");
    Some(&message.message)
}

/// Whether an error about one of both sides is about the source.
pub fn of_the_source(op: u64, spec: &[u8], _: &Error) -> bool {
    order::of_the_source(op, spec)
}
