//! How many bytes of stack a thread must have to make a call, in addition to what the
//! caller itself keeps there.
//!
//! The main thread, and a thread of the default size of [`std::thread`], 2 MB, have enough
//! for every call. On a smaller stack than is stated here a call may end the program, as
//! any stack overflow does. A function of [`raw`](crate::raw) needs as much as the method
//! that calls it.
//!
//! ```
//! use std::thread::Builder;
//! use vasigmon::{Group, Operation, Validated, stack};
//!
//! let group = Group::new(Operation::Fetch, ["refs/heads/*:refs/remotes/hub/*"])?;
//! let thread = Builder::new().stack_size(stack::ROWS_1024).spawn(move || group.validated(b""));
//! let passed = Validated::Passed { rows: vec![], fixes: vec![] };
//! assert_eq!(thread?.join().unwrap()?, passed);
//! # Ok::<(), Box<dyn std::error::Error>>(())
//! ```

/// 16 KB: [`parse`](crate::parse), all that a [`Spec`](crate::Spec) answers,
/// [`collide`](crate::collide), the making of a [`Group`](crate::Group) and of
/// [`Items`](crate::Items), and [`Group::source`](crate::Group::source).
pub const SPEC: usize = 16 * 1024;

/// 160 KB: [`Group::prefixes`](crate::Group::prefixes), [`Group::match_lhs`](crate::Group::match_lhs)
/// and [`Group::match_rhs`](crate::Group::match_rhs).
pub const LISTS: usize = 160 * 1024;

/// 64 KB: [`Group::validated`](crate::Group::validated) with at most 1,024 rows.
pub const ROWS_1024: usize = 64 * 1024;

/// 256 KB: [`Group::validated`](crate::Group::validated) with at most 16,384 rows.
pub const ROWS_16384: usize = 256 * 1024;

/// 1,300 KB: [`Group::validated`](crate::Group::validated) with any rows.
pub const ROWS: usize = 1300 * 1024;
