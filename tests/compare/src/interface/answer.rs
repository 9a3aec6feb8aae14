//! What a call answers, and the word of the C interface that says it.

use crate::interface::grant::Grant;

/// Document 01's number of a fault, and the value returned with it: count or length needed, or block; 0 where there is none.
#[derive(Clone, Copy, Debug, PartialEq, Eq)]
pub struct Fault {
    pub number: u8,
    pub value: u32,
}

/// A fault without a value.
pub fn fault(number: u8) -> Fault {
    Fault { number, value: 0 }
}

#[derive(Clone, Copy, Debug, PartialEq, Eq)]
pub enum Answer {
    Done,
    Listed(usize),
    Decided(Option<Grant>),
    Counted { live: usize, free: usize },
    Written(usize),
    Matched(Option<u16>),
    Part { length: usize, start: usize },
    Compared { agree: usize, left_in_door: usize, left_in_panel: usize },
    Refused(Fault),
}

impl Answer {
    /// The word of the C interface: the fault in bits 0 to 7, a in bits 8 to 31, b in bits 32 to 63.
    pub fn word(&self) -> u64 {
        let (number, a, b) = match *self {
            Answer::Done => (0, 0, 0),
            Answer::Listed(count) => (0, count, 0),
            Answer::Decided(None) => (0, 0, 0),
            Answer::Decided(Some(grant)) => (0, if grant.kind == 1 { 1 } else { 2 }, 0),
            Answer::Counted { live, free } => (0, live, free),
            Answer::Written(length) => (0, 0, length),
            Answer::Matched(number) => (0, number.unwrap_or(0) as usize, 0),
            Answer::Part { length, start } => (0, length, start),
            Answer::Compared { agree, left_in_door, left_in_panel } => (0, agree, left_in_door << 16 | left_in_panel),
            Answer::Refused(Fault { number: 8, value }) => (8, value as usize, 0),
            Answer::Refused(Fault { number, value }) => (number, 0, value as usize),
        };
        number as u64 | (a as u64) << 8 | (b as u64) << 32
    }
}
