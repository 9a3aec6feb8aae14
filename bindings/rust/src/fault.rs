//! Why a call was refused: document 01's faults under the library's names. The table below is this crate's only list of them;
//! tests/faults compares it with the library's.

use crate::answer::Values;
use std::fmt;

/// Makes `Fault` of a table. A fault is its number, its name, the value beside it if it has one, with the place of that value in
/// the returned word, and its sentence.
macro_rules! faults {
    ($(
        $(#[$cause:meta])*
        $number:literal => $name:ident $({ $value:ident: $type:ident = $place:ident })?, $sentence:literal;
    )*) => {
        /// Why a call was refused: document 01's table. A refused call leaves all memory as it was.
        #[derive(Clone, Copy, Debug, PartialEq, Eq, Hash)]
        #[non_exhaustive]
        pub enum Fault {
            $(#[doc = concat!("Fault ", $number, ":")] $(#[$cause])* $name $({ $value: $type })?,)*
            /// A fault that a later library has and this version does not name.
            Unnamed { number: u8 },
        }

        impl Fault {
            /// The fault's number in document 01's table.
            pub fn number(self) -> u8 {
                match self {
                    $(Fault::$name { .. } => $number,)*
                    Fault::Unnamed { number } => number,
                }
            }

            /// The fault of a number, and of the values returned with it.
            pub(crate) fn of(number: u8, values: Values) -> Fault {
                match number {
                    $($number => Fault::$name $({ $value: values.$place as $type })?,)*
                    _ => Fault::Unnamed { number },
                }
            }
        }

        impl fmt::Display for Fault {
            fn fmt(&self, f: &mut fmt::Formatter<'_>) -> fmt::Result {
                match *self {
                    $(Fault::$name $({ $value })? => write!(f, $sentence),)*
                    Fault::Unnamed { number } => write!(f, "fault {number}"),
                }
            }
        }
    };
}

faults! {
    /// the length is no pool's, or the first word is not the capacity.
    1 => BadPool, "not a pool";
    /// staff or doors end before they start, or quarters cover nothing: their `from` is not below their `until`.
    2 => Reversed, "a span ends before it starts, or quarters cover nothing";
    /// the grant number is 0.
    3 => ZeroNumber, "the grant number is 0";
    /// the kind is above 1.
    4 => UnknownKind, "the kind is above 1";
    /// the number is already live.
    5 => AlreadyLive, "the number is already live";
    /// no cell is free, or the file has more grants than the pool has cells.
    6 => Full, "no cell is free";
    /// the number is not live.
    7 => NotLive, "the number is not live";
    /// the list is too short.
    8 => ListTooShort { needed: usize = a }, "the list is too short: {needed} needed";
    /// the pool's links are broken: one leads outside the cells, too deep, to more cells than there are, or to a cell with another parent.
    9 => BrokenLinks, "the pool's links are broken";
    /// the file is not 1 to 68 whole blocks, or the block is not in it.
    10 => BadLength, "not 1 to 68 whole blocks, or no such block";
    /// a block's mark, number, counts, door order or fill is wrong. A file of the older form, with closed quarters, has another mark.
    11 => BadLayout { block: u32 = b }, "block {block}: wrong mark, number, counts, door order or fill";
    /// a block's check is wrong.
    12 => BadChecksum { block: u32 = b }, "block {block}: wrong check";
    /// a record is none, or out of order, or its rank is too low for its doors, or it does not touch the file's doors.
    13 => BadRecord { block: u32 = b }, "block {block}: wrong record";
    /// the lent bytes are too few.
    14 => BufferTooShort { needed: usize = b }, "too few bytes: {needed} needed";
    /// a grant over more than 1,000 doors has a rank below 200.
    16 => RankTooLow, "the rank is below 200, for more than 1000 doors";
    /// a record of openings is not whole entries, or has more than 4,096.
    24 => BadOpeningsLength, "a record is not whole entries, or has more than 4096";
    /// in a record of openings an entry's quarter is below that of the entry before it.
    25 => UnorderedQuarters, "a quarter in a record is below the one before it";
}

impl std::error::Error for Fault {}
