//! Stands in for the crate `smallvec`: a vector, as far as gix-refspec uses one.

use std::ops::{Deref, DerefMut};

/// A vector of bytes, in its array as long as they fit there.
pub enum SmallVec<A> {
    Held { array: A, length: usize },
    Spilled(Vec<u8>),
}

impl<const N: usize> SmallVec<[u8; N]> {
    pub fn with_capacity(capacity: usize) -> Self {
        if capacity <= N {
            return SmallVec::Held { array: [0; N], length: 0 };
        }
        SmallVec::Spilled(Vec::with_capacity(capacity))
    }

    pub fn extend_from_slice(&mut self, bytes: &[u8]) {
        match self {
            SmallVec::Held { array, length } if bytes.len() <= N - *length => {
                array[*length..][..bytes.len()].copy_from_slice(bytes);
                *length += bytes.len();
            }
            SmallVec::Held { array, length } => {
                *self = SmallVec::Spilled([&array[..*length], bytes].concat());
            }
            SmallVec::Spilled(all) => all.extend_from_slice(bytes),
        }
    }
}

impl<const N: usize> Deref for SmallVec<[u8; N]> {
    type Target = [u8];

    fn deref(&self) -> &[u8] {
        match self {
            SmallVec::Held { array, length } => &array[..*length],
            SmallVec::Spilled(all) => all,
        }
    }
}

impl<const N: usize> DerefMut for SmallVec<[u8; N]> {
    fn deref_mut(&mut self) -> &mut [u8] {
        match self {
            SmallVec::Held { array, length } => &mut array[..*length],
            SmallVec::Spilled(all) => all,
        }
    }
}
