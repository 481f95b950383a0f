//! Documents 01 and 02, read a second time: what they say of specs, lists, groups and
//! rows, as plainly as it goes and with no eye on speed. It is written from the papers'
//! sentences, which it cites, and is no translation of our code or of gix-refspec.

mod calls;
mod collision;
mod group;
mod key;
mod list;
mod name;
mod number;
mod spec;
mod validation;

pub use calls::{group_prefixes, match_lhs, match_rhs, source, validated};
pub use collision::{RefusedSpec, collide};
pub use group::{Group, Part, Row};
pub use key::{Instruction, Kind};
pub use list::{Items, list, read_row};
pub use spec::{Mode, Spec, read_spec};
pub use validation::{Conflict, ConflictSource, Fix, Verdict};

/// Why a call is refused.
#[derive(Clone, Copy, Debug, PartialEq, Eq)]
pub struct Refused {
    /// The number of the first question whose answer is no.
    pub number: u64,
    /// The record it was asked of. "A list refusal carries its record's number,
    /// except 12, 17, 18 and the view's 16."
    pub record: Option<u64>,
}

impl Refused {
    fn whole(number: u64) -> Refused {
        Refused { number, record: None }
    }

    fn at(number: u64, record: usize) -> Refused {
        Refused { number, record: Some(record as u64) }
    }
}
