//! The C entries, called on slices. The one module that holds `unsafe`.
//!
//! Answers are as include/vasigmon.h describes them: numbers and places, not
//! slices. Use these functions to lend a buffer of your own or to keep places;
//! the types at the crate's top resolve both.
//!
//! ```
//! use vasigmon::{Operation, Refusal, raw};
//!
//! let push = Operation::Push as u64;
//! let mut out = vec![0; 4];
//! let mut answer = raw::to_bstring(push, b"main", &mut out);
//! if answer.refusal == Refusal::BufferTooShort.number() {
//!     out.resize(answer.length as usize, 0);
//!     answer = raw::to_bstring(push, b"main", &mut out);
//! }
//! assert_eq!(&out[..answer.length as usize], b"main:main");
//! ```

/// A side of a spec, or a prefix.
#[repr(C)]
#[derive(Clone, Copy, Debug, Default, PartialEq, Eq)]
pub struct Side {
    /// 0 absent, 1 a place in the spec, 2 the supplied `HEAD`.
    pub kind: u64,
    /// Where the place starts in the spec.
    pub start: u64,
    /// How many bytes it has.
    pub length: u64,
}

/// The answer of [`parse`].
#[repr(C)]
#[derive(Clone, Copy, Debug, Default, PartialEq, Eq)]
pub struct Spec {
    /// 0, or why the spec is refused.
    pub refusal: u64,
    /// 0 normal, 1 force, 2 negative.
    pub mode: u64,
    /// The source.
    pub source: Side,
    /// The destination.
    pub destination: Side,
}

/// The answer of [`instruction`].
#[repr(C)]
#[derive(Clone, Copy, Debug, Default, PartialEq, Eq)]
pub struct Instruction {
    /// 0, or why the spec is refused.
    pub refusal: u64,
    /// 0 fetch only, 1 fetch exclude, 2 fetch and update, 3 push all matching
    /// branches, 4 push delete, 5 push matching, 6 push exclude.
    pub kind: u64,
    /// 1 if a non-fast-forward is allowed.
    pub force: u64,
    /// The source.
    pub source: Side,
    /// The destination.
    pub destination: Side,
}

/// The answer of [`prefix`].
#[repr(C)]
#[derive(Clone, Copy, Debug, Default, PartialEq, Eq)]
pub struct Prefix {
    /// 0, or why the spec is refused.
    pub refusal: u64,
    /// The prefix.
    pub prefix: Side,
}

/// The answer of a call that writes into a lent buffer.
#[repr(C)]
#[derive(Clone, Copy, Debug, Default, PartialEq, Eq)]
pub struct Written {
    /// 0, or why the call is refused; nothing is written then.
    pub refusal: u64,
    /// The number of the refused record of a list; 0 in a call on one spec, and
    /// where the refusal has none.
    pub record: u64,
    /// The bytes written; beside refusal 17, the length of a buffer that will do.
    pub length: u64,
}

/// The answer of [`collide`].
#[repr(C)]
#[derive(Clone, Copy, Debug, Default, PartialEq, Eq)]
pub struct Collision {
    /// 0, or why the call is refused; nothing is written then.
    pub refusal: u64,
    /// The refused spec, 1 the first or 2 the second; 0 where the refusal is of neither.
    pub which: u64,
    /// 1 where some destination is reached from both specs, which `out` then begins
    /// with; 0 where none is, and in every refusal, 17 too: nothing is written then.
    pub collides: u64,
    /// The bytes written; beside refusal 17, the length of a buffer that will do.
    pub length: u64,
}

/// The answer of [`validated`].
#[repr(C)]
#[derive(Clone, Copy, Debug, Default, PartialEq, Eq)]
pub struct Validation {
    /// 0, or why the call is refused; nothing is written then.
    pub refusal: u64,
    /// The number of the refused record of a list; 0 where the refusal has none.
    pub record: u64,
    /// 1 where `out` holds conflicts, 0 where it holds kept rows and `fixes` holds
    /// fixes.
    pub conflicts: u64,
    /// The bytes written to `out`; beside refusal 17, the length of a buffer that will
    /// do in place of the short one.
    pub length: u64,
    /// The bytes written to `fixes`.
    pub fixes_length: u64,
    /// Beside refusal 17 the short buffer, 1 `out` or 2 `fixes`.
    pub buffer: u64,
}

/// The answer of [`source`]: a part of one of the two lists.
#[repr(C)]
#[derive(Clone, Copy, Debug, Default, PartialEq, Eq)]
pub struct Part {
    /// 0, or why the call is refused.
    pub refusal: u64,
    /// The number of the refused record of a list; 0 where the refusal has none.
    pub record: u64,
    /// 0 for a part of the item list, 1 for a part of the spec list.
    pub list: u64,
    /// Where the part starts in that list.
    pub start: u64,
    /// How many bytes it has.
    pub length: u64,
}

mod entries {
    use super::{Collision, Instruction, Part, Prefix, Spec, Validation, Written};

    unsafe extern "C" {
        pub fn vasigmon_parse(op: u64, spec: *const u8, spec_len: usize) -> Spec;
        pub fn vasigmon_instruction(op: u64, spec: *const u8, spec_len: usize) -> Instruction;
        pub fn vasigmon_prefix(op: u64, spec: *const u8, spec_len: usize) -> Prefix;
        pub fn vasigmon_expand_prefixes(
            op: u64,
            spec: *const u8,
            spec_len: usize,
            out: *mut u8,
            out_len: usize,
        ) -> Written;
        pub fn vasigmon_to_bstring(
            op: u64,
            spec: *const u8,
            spec_len: usize,
            out: *mut u8,
            out_len: usize,
        ) -> Written;
        pub fn vasigmon_collide(
            first: *const u8,
            first_len: usize,
            second: *const u8,
            second_len: usize,
            out: *mut u8,
            out_len: usize,
        ) -> Collision;
        pub fn vasigmon_group_prefixes(
            op: u64,
            specs: *const u8,
            specs_len: usize,
            out: *mut u8,
            out_len: usize,
        ) -> Written;
        pub fn vasigmon_match_lhs(
            op: u64,
            specs: *const u8,
            specs_len: usize,
            items: *const u8,
            items_len: usize,
            out: *mut u8,
            out_len: usize,
        ) -> Written;
        pub fn vasigmon_match_rhs(
            op: u64,
            specs: *const u8,
            specs_len: usize,
            items: *const u8,
            items_len: usize,
            out: *mut u8,
            out_len: usize,
        ) -> Written;
        pub fn vasigmon_source(
            op: u64,
            specs: *const u8,
            specs_len: usize,
            items: *const u8,
            items_len: usize,
            item_field: u64,
            spec: u64,
        ) -> Part;
        pub fn vasigmon_validated(
            op: u64,
            specs: *const u8,
            specs_len: usize,
            rows: *const u8,
            rows_len: usize,
            out: *mut u8,
            out_len: usize,
            fixes: *mut u8,
            fixes_len: usize,
        ) -> Validation;
    }
}

// Why each call below is safe: a slice's pointer is never null, also where the
// slice is empty, and it is valid for the length that is passed beside it. The
// entries are proved to stay within both, keep no pointer, and take any bytes
// and any operation. A `&mut` buffer overlaps nothing else that is lent.

/// Reads a spec.
pub fn parse(op: u64, spec: &[u8]) -> Spec {
    unsafe { entries::vasigmon_parse(op, spec.as_ptr(), spec.len()) }
}

/// Answers what a spec asks for.
pub fn instruction(op: u64, spec: &[u8]) -> Instruction {
    unsafe { entries::vasigmon_instruction(op, spec.as_ptr(), spec.len()) }
}

/// Answers the prefix of a spec.
pub fn prefix(op: u64, spec: &[u8]) -> Prefix {
    unsafe { entries::vasigmon_prefix(op, spec.as_ptr(), spec.len()) }
}

/// Writes a spec's prefixes to `out`, as a list of lengths and bytes.
pub fn expand_prefixes(op: u64, spec: &[u8], out: &mut [u8]) -> Written {
    unsafe { entries::vasigmon_expand_prefixes(op, spec.as_ptr(), spec.len(), out.as_mut_ptr(), out.len()) }
}

/// Writes the canonical text of a spec to `out`.
pub fn to_bstring(op: u64, spec: &[u8], out: &mut [u8]) -> Written {
    unsafe { entries::vasigmon_to_bstring(op, spec.as_ptr(), spec.len(), out.as_mut_ptr(), out.len()) }
}

/// Answers whether two fetch specs can ever collide, and writes a destination on which
/// they do to `out`.
pub fn collide(first: &[u8], second: &[u8], out: &mut [u8]) -> Collision {
    unsafe {
        entries::vasigmon_collide(
            first.as_ptr(),
            first.len(),
            second.as_ptr(),
            second.len(),
            out.as_mut_ptr(),
            out.len(),
        )
    }
}

/// Writes the prefixes of all specs of a list to `out`, each once, as a list of
/// lengths and bytes.
pub fn group_prefixes(op: u64, specs: &[u8], out: &mut [u8]) -> Written {
    unsafe { entries::vasigmon_group_prefixes(op, specs.as_ptr(), specs.len(), out.as_mut_ptr(), out.len()) }
}

/// Writes the forward listing to `out`, as rows.
pub fn match_lhs(op: u64, specs: &[u8], items: &[u8], out: &mut [u8]) -> Written {
    unsafe {
        entries::vasigmon_match_lhs(
            op,
            specs.as_ptr(),
            specs.len(),
            items.as_ptr(),
            items.len(),
            out.as_mut_ptr(),
            out.len(),
        )
    }
}

/// Writes the reverse listing to `out`, as rows.
pub fn match_rhs(op: u64, specs: &[u8], items: &[u8], out: &mut [u8]) -> Written {
    unsafe {
        entries::vasigmon_match_rhs(
            op,
            specs.as_ptr(),
            specs.len(),
            items.as_ptr(),
            items.len(),
            out.as_mut_ptr(),
            out.len(),
        )
    }
}

/// Writes the conflicts of a list of rows to `out`; or, where there are none, the rows
/// that are kept, and what went out to `fixes`.
pub fn validated(op: u64, specs: &[u8], rows: &[u8], out: &mut [u8], fixes: &mut [u8]) -> Validation {
    unsafe {
        entries::vasigmon_validated(
            op,
            specs.as_ptr(),
            specs.len(),
            rows.as_ptr(),
            rows.len(),
            out.as_mut_ptr(),
            out.len(),
            fixes.as_mut_ptr(),
            fixes.len(),
        )
    }
}

/// Answers where the source of a forward row stands. `item_field` is the row's:
/// 0 for an object id, else the item's number plus 1.
pub fn source(op: u64, specs: &[u8], items: &[u8], item_field: u64, spec: u64) -> Part {
    unsafe {
        entries::vasigmon_source(
            op,
            specs.as_ptr(),
            specs.len(),
            items.as_ptr(),
            items.len(),
            item_field,
            spec,
        )
    }
}
