//! Stands in for the crate `bstr`: byte strings, as far as gix-refspec uses them.

use std::{
    borrow::{Borrow, Cow},
    fmt,
    ops::{Deref, DerefMut, Index},
    slice::SliceIndex,
};

/// A byte string that is lent.
#[derive(PartialEq, Eq, PartialOrd, Ord, Hash)]
#[repr(transparent)]
pub struct BStr([u8]);

/// A byte string that is owned.
#[derive(Clone, PartialEq, Eq, PartialOrd, Ord, Hash)]
pub struct BString(Vec<u8>);

impl BStr {
    /// The same bytes as a byte string.
    pub fn new(bytes: &[u8]) -> &BStr {
        // A `BStr` is laid out as the slice that it holds.
        unsafe { &*(std::ptr::from_ref(bytes) as *const BStr) }
    }
}

/// What gix-refspec asks of slices of bytes.
pub trait ByteSlice {
    fn as_bstr(&self) -> &BStr;
    fn find_byte(&self, byte: u8) -> Option<usize>;
    fn rfind_byte(&self, byte: u8) -> Option<usize>;
    fn find_byteset(&self, set: impl AsRef<[u8]>) -> Option<usize>;
}

impl ByteSlice for [u8] {
    fn as_bstr(&self) -> &BStr {
        BStr::new(self)
    }

    fn find_byte(&self, byte: u8) -> Option<usize> {
        self.iter().position(|b| *b == byte)
    }

    fn rfind_byte(&self, byte: u8) -> Option<usize> {
        self.iter().rposition(|b| *b == byte)
    }

    fn find_byteset(&self, set: impl AsRef<[u8]>) -> Option<usize> {
        self.iter().position(|b| set.as_ref().contains(b))
    }
}

/// What gix-refspec asks of vectors of bytes.
pub trait ByteVec {
    fn push_str(&mut self, bytes: impl AsRef<[u8]>);
}

impl ByteVec for Vec<u8> {
    fn push_str(&mut self, bytes: impl AsRef<[u8]>) {
        self.extend_from_slice(bytes.as_ref());
    }
}

impl Deref for BStr {
    type Target = [u8];

    fn deref(&self) -> &[u8] {
        &self.0
    }
}

impl Deref for BString {
    type Target = Vec<u8>;

    fn deref(&self) -> &Vec<u8> {
        &self.0
    }
}

impl DerefMut for BString {
    fn deref_mut(&mut self) -> &mut Vec<u8> {
        &mut self.0
    }
}

impl<I: SliceIndex<[u8], Output = [u8]>> Index<I> for BStr {
    type Output = BStr;

    fn index(&self, range: I) -> &BStr {
        BStr::new(&self.0[range])
    }
}

impl AsRef<[u8]> for BStr {
    fn as_ref(&self) -> &[u8] {
        &self.0
    }
}

impl AsRef<BStr> for BString {
    fn as_ref(&self) -> &BStr {
        BStr::new(&self.0)
    }
}

impl Borrow<BStr> for BString {
    fn borrow(&self) -> &BStr {
        BStr::new(&self.0)
    }
}

impl ToOwned for BStr {
    type Owned = BString;

    fn to_owned(&self) -> BString {
        BString(self.0.to_vec())
    }
}

impl<'a> From<&'a str> for &'a BStr {
    fn from(text: &'a str) -> &'a BStr {
        BStr::new(text.as_bytes())
    }
}

impl From<&str> for BString {
    fn from(text: &str) -> BString {
        BString(text.as_bytes().to_vec())
    }
}

impl From<String> for BString {
    fn from(text: String) -> BString {
        BString(text.into_bytes())
    }
}

impl From<&BStr> for BString {
    fn from(bytes: &BStr) -> BString {
        bytes.to_owned()
    }
}

impl From<Vec<u8>> for BString {
    fn from(bytes: Vec<u8>) -> BString {
        BString(bytes)
    }
}

impl<'a> From<&'a BStr> for Cow<'a, BStr> {
    fn from(bytes: &'a BStr) -> Cow<'a, BStr> {
        Cow::Borrowed(bytes)
    }
}

impl<'a> From<BString> for Cow<'a, BStr> {
    fn from(bytes: BString) -> Cow<'a, BStr> {
        Cow::Owned(bytes)
    }
}

impl PartialEq<str> for BStr {
    fn eq(&self, other: &str) -> bool {
        &self.0 == other.as_bytes()
    }
}

impl PartialEq<&str> for BString {
    fn eq(&self, other: &&str) -> bool {
        self.0 == other.as_bytes()
    }
}

impl PartialEq<BStr> for &[u8] {
    fn eq(&self, other: &BStr) -> bool {
        *self == &other.0
    }
}

impl fmt::Display for BStr {
    fn fmt(&self, f: &mut fmt::Formatter<'_>) -> fmt::Result {
        fmt::Display::fmt(&String::from_utf8_lossy(&self.0), f)
    }
}

impl fmt::Debug for BStr {
    fn fmt(&self, f: &mut fmt::Formatter<'_>) -> fmt::Result {
        write!(f, "\"{}\"", self.0.escape_ascii())
    }
}

impl fmt::Display for BString {
    fn fmt(&self, f: &mut fmt::Formatter<'_>) -> fmt::Result {
        fmt::Display::fmt(BStr::new(&self.0), f)
    }
}

impl fmt::Debug for BString {
    fn fmt(&self, f: &mut fmt::Formatter<'_>) -> fmt::Result {
        fmt::Debug::fmt(BStr::new(&self.0), f)
    }
}
