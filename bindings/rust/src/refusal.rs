//! What a call returns instead of an answer.
#![forbid(unsafe_code)]

use std::error::Error;
use std::fmt;

/// Of the table: the enum, and the ways from and to a number. Each row has its number, its name, and the words of 01.
macro_rules! refusals {
    ($($number:literal $name:ident $words:literal)*) => {
        /// Why a call was refused: the table "What the calls return instead" of document 01.
        ///
        /// Rules 1 to 7 are looked at in this order, and the first that is broken is returned; 8 to 12 are returned as they are met.
        ///
        /// ```
        /// use punelavoh::Refusal;
        ///
        /// assert_eq!(Refusal::from_number(3), Some(Refusal::ReferenceByte));
        /// assert_eq!(Refusal::ReferenceByte.number(), 3);
        /// assert_eq!(Refusal::ReferenceByte.to_string(), "reference byte not A C G T N");
        /// assert_eq!(Refusal::from_number(0), None); // accepted
        /// ```
        #[derive(Clone, Copy, Debug, PartialEq, Eq, Hash)]
        #[non_exhaustive]
        pub enum Refusal {
            $(
                #[doc = concat!(stringify!($number), ": ", $words, ".")]
                $name,
            )*
            /// A number that this crate has no name for: the library that it is linked with is newer.
            Other(u32),
        }

        impl Refusal {
            /// Those that have a name, by rising number.
            pub const NAMED: &'static [Self] = &[$(Self::$name),*];

            /// The number that the exported functions return.
            pub const fn number(self) -> u32 {
                match self {
                    $(Self::$name => $number,)*
                    Self::Other(number) => number,
                }
            }

            /// The refusal of a number that an exported function returned; none of 0.
            pub const fn from_number(number: u32) -> Option<Self> {
                match number {
                    0 => None,
                    $($number => Some(Self::$name),)*
                    _ => Some(Self::Other(number)),
                }
            }
        }

        impl fmt::Display for Refusal {
            fn fmt(&self, f: &mut fmt::Formatter<'_>) -> fmt::Result {
                match self {
                    $(Self::$name => f.write_str($words),)*
                    Self::Other(number) => write!(f, "refused by number {number}"),
                }
            }
        }
    };
}

refusals! {
    1 K "k outside limits"
    2 ReferenceLength "reference length"
    3 ReferenceByte "reference byte not A C G T N"
    4 Reads "read ends fall, last end (0 without reads) is not the base count, qualities differ in length, too many reads or bases"
    5 Maximum "paths asked or a maximum outside limits"
    6 Column "column"
    7 ShortSlice "a lent slice shorter than told"
    8 GraphSize "vertex or edge above its maximum"
    9 TreeNodes "tree node above its maximum"
    10 NoPlace "a count or total has no place in the column"
    11 PathSize "a path's edges or active trees above their maximum"
    12 Pushes "a push beyond the maximum"
    13 Origin "origin naming no sequence, or whose k+1 bytes do not fit it"
}

impl Error for Refusal {}

/// The number of an answer: passed up where it is a refusal's.
pub(crate) fn accepted(number: u32) -> Result<(), Refusal> {
    Refusal::from_number(number).map_or(Ok(()), Err)
}
