use std::fmt;

/// Makes the enum of a number, a name and words for each refusal.
macro_rules! refusals {
    ($($number:literal $name:ident $words:literal)*) => {
        /// Why a call is refused: the first question that was answered by no.
        ///
        /// ```
        /// use vasigmon::{Operation, Refusal, parse};
        ///
        /// let refusal = parse(Operation::Fetch, b"a*:b").unwrap_err();
        /// assert_eq!(refusal, Refusal::OneStarOfTwo);
        /// assert_eq!(refusal.number(), 9);
        /// assert_eq!(refusal.to_string(), "one side has a star and the other has none");
        /// ```
        #[derive(Clone, Copy, Debug, PartialEq, Eq, Hash)]
        #[non_exhaustive]
        pub enum Refusal {
            $(#[doc = concat!("Number ", $number, ": ", $words, ".")] $name = $number,)*
        }

        impl Refusal {
            /// All refusals, in the order of their numbers.
            pub const ALL: &[Refusal] = &[$(Refusal::$name),*];

            /// The words for this refusal, which are those of the C header.
            pub fn words(self) -> &'static str {
                match self {
                    $(Refusal::$name => $words,)*
                }
            }
        }
    };
}

refusals! {
    1 SpecTooLong "the spec is above 4,096 bytes"
    2 EmptyPush "a push spec is empty"
    3 NegativeColon "a spec with `^` has a colon"
    4 PushIntoNothing "a push has a colon and a source, and no destination"
    5 SourceStars "the source has more than one star"
    6 SourceName "the source does not pass the name rules"
    7 DestinationStars "the destination has more than one star"
    8 DestinationName "the destination does not pass the name rules"
    9 OneStarOfTwo "one side has a star and the other has none"
    10 NegativeEmpty "no source follows `^`"
    11 NegativeObject "the source after `^` is forty or more bytes, all hexadecimal digits"
    12 ListTooLong "a spec list or an item list is above 65,535 bytes, or a row list above 1,048,576"
    13 Malformed "the record is not well formed within its list"
    14 TooManyRecords "the record is beyond 256 specs or 1,024 items"
    15 NameTooLong "the item's name is above 4,096 bytes"
    16 OutsideTheLists "a number is outside the lists, or no object id stands where one must"
    17 BufferTooShort "an output buffer is not long enough for the whole answer"
    18 NoSuchOperation "the operation is neither 0 nor 1"
}

impl Refusal {
    /// The refusal with that number in the C interface, if there is one.
    pub fn from_number(number: u64) -> Option<Refusal> {
        Refusal::ALL.iter().copied().find(|refusal| refusal.number() == number)
    }

    /// The number of this refusal in the C interface.
    pub fn number(self) -> u64 {
        self as u64
    }

    /// The refusal that an answer tells, or nothing for 0.
    pub(crate) fn told(number: u64) -> Result<(), Refusal> {
        match number {
            0 => Ok(()),
            _ => Err(Refusal::from_number(number).expect("an answer tells 0 or the number of a refusal")),
        }
    }
}

impl fmt::Display for Refusal {
    fn fmt(&self, f: &mut fmt::Formatter<'_>) -> fmt::Result {
        f.write_str(self.words())
    }
}

impl std::error::Error for Refusal {}

/// Why a list is refused, and at which record.
///
/// ```
/// use vasigmon::{Group, ListRefusal, Operation, Refusal};
///
/// let refused = Group::new(Operation::Fetch, ["main", "^a:b"]).unwrap_err();
/// assert_eq!(refused, ListRefusal { refusal: Refusal::NegativeColon, record: Some(1) });
/// assert_eq!(refused.to_string(), "record 1: a spec with `^` has a colon");
/// ```
#[derive(Clone, Copy, Debug, PartialEq, Eq, Hash)]
pub struct ListRefusal {
    /// The first question that was answered by no.
    pub refusal: Refusal,
    /// The record that it was asked of, counted from 0; none where the list as a whole
    /// is too long.
    pub record: Option<usize>,
}

impl ListRefusal {
    /// The refusal that an answer tells beside a record, or nothing for 0.
    pub(crate) fn told(number: u64, record: u64) -> Result<(), ListRefusal> {
        Refusal::told(number).map_err(|refusal| ListRefusal {
            refusal,
            record: (refusal != Refusal::ListTooLong).then_some(record as usize),
        })
    }
}

impl fmt::Display for ListRefusal {
    fn fmt(&self, f: &mut fmt::Formatter<'_>) -> fmt::Result {
        match self.record {
            Some(record) => write!(f, "record {record}: {}", self.refusal),
            None => self.refusal.fmt(f),
        }
    }
}

impl std::error::Error for ListRefusal {}

/// Why one of two specs is refused, and which.
///
/// ```
/// use vasigmon::{PairRefusal, Refusal, collide};
///
/// let refused = collide(b"main:refs/heads/main", b"a*:b").unwrap_err();
/// assert_eq!(refused, PairRefusal { refusal: Refusal::OneStarOfTwo, which: 2 });
/// assert_eq!(refused.to_string(), "spec 2: one side has a star and the other has none");
/// ```
#[derive(Clone, Copy, Debug, PartialEq, Eq, Hash)]
pub struct PairRefusal {
    /// The first question that was answered by no.
    pub refusal: Refusal,
    /// The spec that it was asked of: 1 the first, 2 the second.
    pub which: usize,
}

impl PairRefusal {
    /// The refusal that an answer tells beside a spec, or nothing for 0.
    pub(crate) fn told(number: u64, which: u64) -> Result<(), PairRefusal> {
        Refusal::told(number).map_err(|refusal| PairRefusal { refusal, which: which as usize })
    }
}

impl fmt::Display for PairRefusal {
    fn fmt(&self, f: &mut fmt::Formatter<'_>) -> fmt::Result {
        write!(f, "spec {}: {}", self.which, self.refusal)
    }
}

impl std::error::Error for PairRefusal {}
