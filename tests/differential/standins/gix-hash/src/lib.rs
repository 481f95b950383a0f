//! Stands in for the crate `gix-hash`, built with SHA-1 alone: an object id is
//! forty hexadecimal digits of either case, shown in lower case.

use std::{
    fmt,
    hash::{Hash, Hasher},
    ops::Deref,
};

/// The bytes of an object id.
const SIZE: usize = 20;

/// The kinds of hashes.
#[derive(Clone, Copy, Debug, PartialEq, Eq)]
pub enum Kind {
    Sha1,
}

impl Kind {
    /// The kind with the shortest digits.
    pub fn shortest() -> Kind {
        Kind::Sha1
    }

    /// How many hexadecimal digits an object id of this kind has.
    pub fn len_in_hex(self) -> usize {
        2 * SIZE
    }

    /// The object id of zeros.
    pub fn null(self) -> ObjectId {
        ObjectId(oid([0; SIZE]))
    }
}

/// An object id that is lent.
#[allow(non_camel_case_types)]
#[derive(Clone, Copy, Debug, PartialEq, Eq)]
pub struct oid([u8; SIZE]);

impl oid {
    pub fn kind(&self) -> Kind {
        Kind::Sha1
    }
}

/// An object id that is owned.
#[derive(Clone, Copy, Debug, PartialEq, Eq)]
pub struct ObjectId(oid);

/// A text that is no object id.
#[derive(Debug)]
pub struct NotHex;

impl ObjectId {
    /// Reads forty hexadecimal digits of either case.
    pub fn from_hex(digits: &[u8]) -> Result<ObjectId, NotHex> {
        if digits.len() != 2 * SIZE {
            return Err(NotHex);
        }
        let mut bytes = [0; SIZE];
        for (byte, pair) in bytes.iter_mut().zip(digits.chunks(2)) {
            *byte = 16 * nibble(pair[0])? + nibble(pair[1])?;
        }
        Ok(ObjectId(oid(bytes)))
    }
}

/// The value of one hexadecimal digit.
fn nibble(digit: u8) -> Result<u8, NotHex> {
    match digit {
        b'0'..=b'9' => Ok(digit - b'0'),
        b'a'..=b'f' => Ok(digit - b'a' + 10),
        b'A'..=b'F' => Ok(digit - b'A' + 10),
        _ => Err(NotHex),
    }
}

impl Deref for ObjectId {
    type Target = oid;

    fn deref(&self) -> &oid {
        &self.0
    }
}

impl PartialEq<&oid> for ObjectId {
    fn eq(&self, other: &&oid) -> bool {
        self.0 == **other
    }
}

impl PartialEq<ObjectId> for &oid {
    fn eq(&self, other: &ObjectId) -> bool {
        **self == other.0
    }
}

/// The bytes alone, without their number: so the crate finds the same repeats.
impl Hash for ObjectId {
    fn hash<H: Hasher>(&self, state: &mut H) {
        state.write(&self.0.0);
    }
}

impl fmt::Display for ObjectId {
    fn fmt(&self, f: &mut fmt::Formatter<'_>) -> fmt::Result {
        for byte in self.0.0 {
            write!(f, "{byte:02x}")?;
        }
        Ok(())
    }
}
