//! Memory that is lent to a call, and what it holds before.

use crate::interface::call::Call;
use std::rc::Rc;

/// What a call is lent besides the pool.
#[derive(Clone, Debug, PartialEq, Eq)]
pub enum Lent {
    Nothing,
    Words(Vec<u16>),
    Bytes(Vec<u8>),
}

impl Lent {
    /// The memory lent to a call, as it stands before it: no two neighbours alike, or the records that it compares, one behind the
    /// other.
    pub fn before(call: &Call) -> Lent {
        match call {
            Call::List(.., lent) => Lent::Words(pattern(*lent)),
            Call::Decide(_) => Lent::Words(pattern(10)),
            Call::Write(_, lent) => Lent::Bytes(pattern(*lent).into_iter().map(|word| word as u8).collect()),
            Call::CompareOpenings(door, panel) if Rc::ptr_eq(door, panel) => Lent::Bytes(door.to_vec()),
            Call::CompareOpenings(door, panel) => Lent::Bytes([&door[..], panel].concat()),
            _ => Lent::Nothing,
        }
    }

    /// The first element that another memory of the same kind has different: its place, here and there.
    pub fn first_difference(&self, other: &Lent) -> Option<(usize, u16, u16)> {
        let elements = |lent: &Lent| match lent {
            Lent::Nothing => Vec::new(),
            Lent::Words(words) => words.clone(),
            Lent::Bytes(bytes) => bytes.iter().map(|byte| u16::from(*byte)).collect(),
        };
        let (here, there) = (elements(self), elements(other));
        let place = here.iter().zip(&there).position(|(a, b)| a != b)?;
        Some((place, here[place], there[place]))
    }

    /// The bytes to digest: words with their low byte first.
    pub fn bytes(&self) -> Vec<u8> {
        match self {
            Lent::Nothing => Vec::new(),
            Lent::Words(words) => words.iter().flat_map(|word| word.to_le_bytes()).collect(),
            Lent::Bytes(bytes) => bytes.clone(),
        }
    }
}

/// The C and Python programs lend the same.
fn pattern(length: usize) -> Vec<u16> {
    (0..length).map(|i| (i * 40503 + 42405) as u16).collect()
}
