//! Git's refspecs, read, mapped and validated by code that is proved.
//!
//! A safe wrapper over the archive `libvasigmon.a`, which `tools/archive` writes.
//! The build takes it from the repository's `crates/vasigmon/out`, or from the folder that
//! `VASIGMON_LIB_DIR` names.
//!
//! - [`parse`] reads a spec, a byte string that names a source and a destination of
//!   references. The [`Spec`] that it answers says what is asked for.
//! - [`collide`] tells whether two fetch specs can ever write to one destination, whatever
//!   names there will be.
//! - A [`Group`] is a list of specs. It maps the names of [`Items`] to where they go
//!   ([`Group::match_lhs`]) and back to where they come from ([`Group::match_rhs`]), and
//!   tells whether such a mapping can be used ([`Group::validated`]).
//! - [`list`] walks the rows, conflicts and fixes of the answers.
//! - [`raw`] has the C entries themselves, on slices, for a caller with buffers of its own.
//! - [`stack`] states how much stack each call needs. Threads of the default size have it.
//!
//! What can be refused is refused when specs are read, when a group or items are made, or
//! when rows are validated: with a [`Refusal`], of a list with the number of the record
//! too ([`ListRefusal`]), of two specs with which of them ([`PairRefusal`]). All other
//! calls answer.
//!
//! # Which branches does a fetch update?
//!
//! ```
//! use vasigmon::{Group, Items, Operation, Validated, list, list::Source, parse};
//!
//! // One spec: all branches of the remote, kept under refs/remotes/hub/.
//! let spec = parse(Operation::Fetch, b"+refs/heads/*:refs/remotes/hub/*")?;
//! assert_eq!(spec.source(), Some(b"refs/heads/*".as_slice()));
//! assert_eq!(spec.prefix(), Some(b"refs/heads/".as_slice()));
//!
//! // With a second one that leaves the temporary branches out.
//! let group = Group::new(Operation::Fetch, ["+refs/heads/*:refs/remotes/hub/*", "^refs/heads/tmp*"])?;
//! let items = Items::new(["HEAD", "refs/heads/main", "refs/heads/tmp1"])?;
//! let listing = group.match_lhs(&items);
//!
//! let rows: Vec<_> = list::rows(&listing).collect();
//! assert_eq!(rows.len(), 1);
//! assert_eq!((rows[0].item, rows[0].spec), (Some(1), 0));
//! assert_eq!(rows[0].source, Source::Name(b"refs/heads/main"));
//! assert_eq!(rows[0].destination, Some(b"refs/remotes/hub/main".as_slice()));
//!
//! // No destination has two sources, and none is partial.
//! assert_eq!(group.validated(&listing)?, Validated::Passed { rows: listing, fixes: vec![] });
//!
//! // What is refused says why.
//! let refused = Items::new(["a".repeat(4097)]).unwrap_err();
//! assert_eq!(refused.to_string(), "record 0: the item's name is above 4,096 bytes");
//! # Ok::<(), Box<dyn std::error::Error>>(())
//! ```

mod buffer;
mod collision;
mod group;
pub mod list;
#[allow(unsafe_code)]
pub mod raw;
mod refusal;
mod spec;
pub mod stack;
mod validation;

pub use collision::collide;
pub use group::{Group, Items};
pub use refusal::{ListRefusal, PairRefusal, Refusal};
pub use spec::{Instruction, Mode, Spec, parse};
pub use validation::Validated;

/// What a spec is read for.
#[derive(Clone, Copy, Debug, PartialEq, Eq, Hash)]
pub enum Operation {
    /// The source is on the remote, the destination here.
    Fetch = 0,
    /// The source is here, the destination on the remote.
    Push = 1,
}
