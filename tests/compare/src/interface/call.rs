//! The calls, and how each is written on one line: in a failure's history and in the trace that the C and Python programs replay.

use crate::interface::choice::Choice;
use crate::interface::grant::{Bounds, Grant, Span};
use std::fmt;
use std::rc::Rc;

#[derive(Clone)]
pub enum Call {
    Start,
    Grant(Grant),
    Revoke(u16),
    /// A box, a choice, and the length of the lent list. In C the choice is one of two functions.
    List(Bounds, Choice, usize),
    Decide([u16; 3]),
    Count,
    /// Doors, and how many bytes are lent.
    Write(Span, usize),
    Load(Rc<[u8]>),
    Match(Rc<[u8]>),
    Block(Rc<[u8]>, u64),
    BlockPart(Rc<[u8]>, u64),
    /// The door record and the panel record; where both are one memory, it is lent twice.
    CompareOpenings(Rc<[u8]>, Rc<[u8]>),
}

impl Call {
    pub fn name(&self) -> &'static str {
        match self {
            Call::Start => "start",
            Call::Grant(_) => "grant",
            Call::Revoke(_) => "revoke",
            Call::List(_, Choice::Touching, _) => "list",
            Call::List(_, Choice::Holding, _) => "list_holding",
            Call::Decide(_) => "decide",
            Call::Count => "count",
            Call::Write(..) => "write",
            Call::Load(_) => "load",
            Call::Match(_) => "match",
            Call::Block(..) => "block",
            Call::BlockPart(..) => "part",
            Call::CompareOpenings(..) => "openings",
        }
    }
}

impl fmt::Display for Call {
    fn fmt(&self, f: &mut fmt::Formatter<'_>) -> fmt::Result {
        write!(f, "{}", self.name())?;
        match self {
            Call::Start | Call::Count => Ok(()),
            Call::Grant(grant) => {
                write!(f, " {} {} {}", grant.number, grant.rank, grant.kind)?;
                write_bounds(f, &grant.bounds)
            }
            Call::Revoke(number) => write!(f, " {number}"),
            Call::List(bounds, _, lent) => {
                write_bounds(f, bounds)?;
                write!(f, " {lent}")
            }
            Call::Decide([staff, door, quarter]) => write!(f, " {staff} {door} {quarter}"),
            Call::Write(doors, lent) => write!(f, " {} {} {lent}", doors.0, doors.1),
            Call::Load(file) | Call::Match(file) => write!(f, " {}", hex_of_bytes(file)),
            Call::Block(file, block) | Call::BlockPart(file, block) => write!(f, " {block} {}", hex_of_bytes(file)),
            Call::CompareOpenings(door, panel) if Rc::ptr_eq(door, panel) => write!(f, " {} same", hex_of_bytes(door)),
            Call::CompareOpenings(door, panel) => write!(f, " {} {}", hex_of_bytes(door), hex_of_bytes(panel)),
        }
    }
}

fn write_bounds(f: &mut fmt::Formatter<'_>, bounds: &Bounds) -> fmt::Result {
    bounds.iter().try_for_each(|span| write!(f, " {} {}", span.0, span.1))
}

/// Two digits a byte; nothing at all is a stroke, so that each field has a character.
fn hex_of_bytes(bytes: &[u8]) -> String {
    match bytes {
        [] => "-".to_string(),
        _ => bytes.iter().map(|byte| format!("{byte:02x}")).collect(),
    }
}

/// Four digits a word.
pub fn hex_of_words(words: &[u16]) -> String {
    match words {
        [] => "-".to_string(),
        _ => words.iter().map(|word| format!("{word:04x}")).collect(),
    }
}
