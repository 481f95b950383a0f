//! The same questions to the stand-ins and to the real crates. Both have the same names,
//! so the code that asks stands here once. Answers are of types that both share.

use std::hash::{DefaultHasher, Hash, Hasher};

/// What is seen of an object id: its digits as they are shown, how many a text of its kind
/// has, its hash, and whether it is the one of zeros.
pub type Id = (String, usize, u64, bool);

/// What is seen of a byte string and a second one.
#[derive(Debug, PartialEq, Eq)]
pub struct Seen {
    pub first_and_last: Vec<(Option<usize>, Option<usize>)>,
    pub first_of_set: Option<usize>,
    pub order: std::cmp::Ordering,
    pub equal: bool,
    pub equal_to_text: bool,
    pub owned_equal_to_text: bool,
    pub parts: Vec<Vec<u8>>,
    pub joined: Vec<u8>,
    pub owned: Vec<u8>,
    pub shown: String,
    pub hashes: [u64; 2],
}

/// The hash that gix-refspec takes, of a part of what it takes it of.
fn hash(value: &(impl Hash + ?Sized)) -> u64 {
    let mut hasher = DefaultHasher::new();
    value.hash(&mut hasher);
    hasher.finish()
}

macro_rules! side {
    ($side:ident, $bstr:ident, $gix_hash:ident, $gix_validate:ident, $smallvec:ident) => {
        pub mod $side {
            use super::{Id, Seen, hash};
            use std::borrow::{Borrow, Cow};
            use $bstr::{BStr, BString, ByteSlice, ByteVec};
            use $gix_hash::{Kind, ObjectId};
            use $smallvec::SmallVec;

            /// The name that `name_partial` passes on.
            pub fn name(text: &[u8]) -> Option<Vec<u8>> {
                $gix_validate::reference::name_partial(BStr::new(text)).ok().map(|name| name.to_vec())
            }

            /// The object id that a text is.
            pub fn id(text: &[u8]) -> Option<Id> {
                let id = ObjectId::from_hex(text).ok()?;
                assert!(id == &*id && &*id == id);
                Some((id.to_string(), id.kind().len_in_hex(), hash(&id), id == &*id.kind().null()))
            }

            /// The shortest kind: how many digits it has, and the id of zeros.
            pub fn shortest() -> (usize, String) {
                (Kind::shortest().len_in_hex(), Kind::shortest().null().to_string())
            }

            /// What gix-refspec does with byte strings; `text` is one that is a `str` too.
            pub fn bytes(one: &[u8], two: &[u8], text: &str) -> Seen {
                let (left, right) = (BStr::new(one), BStr::new(two));
                let middle = one.len() / 2;
                let mut joined: BString = text.into();
                joined.push_str(left);
                joined.push_str(text);
                let mut all = Vec::new();
                all.push_str(&left[middle..]);
                let lent: &BStr = all.as_bstr();
                let owned = [
                    lent.to_owned(),
                    BString::from(lent),
                    BString::from(text.to_string()),
                    BString::from(one.to_vec()),
                    Cow::<BStr>::from(left).into_owned(),
                    Cow::<BStr>::from(BString::from(right)).into_owned(),
                ];
                let borrowed: &BStr = owned[0].borrow();
                let as_ref: &BStr = owned[1].as_ref();
                let from_text: &BStr = text.into();
                Seen {
                    first_and_last: (0..=255).map(|b| (one.find_byte(b), one.rfind_byte(b))).collect(),
                    first_of_set: one.find_byteset(two),
                    order: left.cmp(right),
                    equal: left == right && one == *right && owned[5] == BString::from(left),
                    equal_to_text: *left == *text,
                    owned_equal_to_text: owned[2] == text,
                    parts: [&left[..middle], &left[middle..], left, borrowed, as_ref, from_text]
                        .map(|part| part.to_vec())
                        .to_vec(),
                    joined: joined.to_vec(),
                    owned: owned.iter().flat_map(|owned| owned.to_vec()).collect(),
                    shown: format!("{left} {}", owned[0]),
                    hashes: [hash(left), hash(&owned[3])],
                }
            }

            /// A vector made of two pieces, with a byte changed, and where that byte is first seen.
            pub fn vector(capacity: usize, one: &[u8], two: &[u8]) -> (Vec<u8>, Option<usize>) {
                let mut vector = SmallVec::<[u8; 256]>::with_capacity(capacity);
                vector.extend_from_slice(one);
                vector.extend_from_slice(two);
                if !vector.is_empty() {
                    let last = vector.len() - 1;
                    vector[last] = b'*';
                }
                (vector.to_vec(), vector.find_byte(b'*'))
            }
        }
    };
}

side!(standin, standin_bstr, standin_gix_hash, standin_gix_validate, standin_smallvec);
side!(real, real_bstr, real_gix_hash, real_gix_validate, real_smallvec);
