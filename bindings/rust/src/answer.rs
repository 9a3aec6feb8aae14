//! What the calls answer, and how an answer is read from the word that C returns.

use crate::fault::Fault;
use crate::grant::Grant;

/// What decides at a point.
#[derive(Clone, Copy, Debug, PartialEq, Eq, Hash)]
pub enum Decision {
    Opens(Grant),
    Barred(Grant),
    None,
}

/// How many grants are live, and how many cells are free.
#[derive(Clone, Copy, Debug, PartialEq, Eq, Hash)]
pub struct Count {
    pub live: usize,
    pub free: usize,
}

/// A pool held against a file.
#[derive(Clone, Copy, Debug, PartialEq, Eq, Hash)]
pub enum Match {
    Equal,
    /// The lowest grant number at which the two differ.
    Differs(u16),
}

/// The two values of a returned word.
pub(crate) struct Values {
    pub a: u32,
    pub b: u32,
}

/// Reads a returned word: the fault in bits 0 to 7, a in bits 8 to 31, b in bits 32 to 63.
pub(crate) fn unpack(word: u64) -> Result<Values, Fault> {
    let values = Values { a: (word >> 8) as u32 & 0xFF_FFFF, b: (word >> 32) as u32 };
    match word as u8 {
        0 => Ok(values),
        number => Err(Fault::of(number, values)),
    }
}
