//! An index that owns its pool.

use crate::answer::{Count, Decision, Match};
use crate::choice::Choice;
use crate::fault::Fault;
use crate::grant::{Bounds, Grant, Span};
use crate::pool;
use std::fmt;

/// A capacity that no index has: it is not 1 to 2048.
#[derive(Clone, Copy, Debug, PartialEq, Eq, Hash)]
pub struct BadCapacity {
    pub capacity: u16,
}

impl fmt::Display for BadCapacity {
    fn fmt(&self, f: &mut fmt::Formatter<'_>) -> fmt::Result {
        write!(f, "an index has 1 to 2,048 cells, not {}", self.capacity)
    }
}

impl std::error::Error for BadCapacity {}

/// As the library has it, memory of that capacity is not a pool.
impl From<BadCapacity> for Fault {
    fn from(_: BadCapacity) -> Fault {
        Fault::BadPool
    }
}

/// An index of up to `capacity` grants. Threads may share it for reading; a call that changes it has it alone, as its `&mut` says.
///
/// `==` compares the words: with the same live grants, and the same capacity, two indexes may hold other words. What they
/// [`write`](Index::write) for doors 0 to 65535 is equal exactly if their grants are.
#[derive(Clone, Debug, PartialEq, Eq)]
pub struct Index {
    words: Vec<u16>,
}

impl Index {
    /// An empty index, of a capacity of 1 to 2048.
    pub fn new(capacity: u16) -> Result<Index, BadCapacity> {
        let mut index = Index { words: vec![0; pool::words(capacity)] };
        index.start().map_err(|_| BadCapacity { capacity })?;
        Ok(index)
    }

    /// Drops every grant.
    pub fn start(&mut self) -> Result<(), Fault> {
        pool::start(&mut self.words)
    }

    /// Adds a grant. Refuses 3, 2, 16, 5 and 6, in this order.
    pub fn grant(&mut self, grant: &Grant) -> Result<(), Fault> {
        pool::grant(&mut self.words, grant.number, grant.rank, grant.kind.number(), grant.bounds)
    }

    /// Drops the grant of a number. Refuses 3 and 7, in this order.
    pub fn revoke(&mut self, number: u16) -> Result<(), Fault> {
        pool::revoke(&mut self.words, number)
    }

    /// The numbers of the live grants that touch a box, or of those that hold it, ascending. Refuses 2.
    pub fn list(&self, bounds: Bounds, choice: Choice) -> Result<Vec<u16>, Fault> {
        let mut numbers = vec![0; self.count()?.live];
        let found = pool::list(&self.words, bounds, choice, &mut numbers)?;
        numbers.truncate(found);
        Ok(numbers)
    }

    /// What decides at a point; nothing does at quarter 65535.
    pub fn decide(&self, staff: u16, door: u16, quarter: u16) -> Result<Decision, Fault> {
        pool::decide(&self.words, staff, door, quarter)
    }

    /// How many grants are live and how many cells are free.
    pub fn count(&self) -> Result<Count, Fault> {
        pool::count(&self.words)
    }

    /// The grants file of a span of doors. Refuses 2.
    pub fn write(&self, doors: Span) -> Result<Vec<u8>, Fault> {
        let needed = match pool::write(&self.words, doors, &mut []) {
            Err(Fault::BufferTooShort { needed }) => needed,
            Err(fault) => return Err(fault),
            Ok(length) => length,
        };
        let mut file = vec![0; needed];
        pool::write(&self.words, doors, &mut file)?;
        Ok(file)
    }

    /// Becomes what a file says, whatever it held. Refuses the file's faults and 6, in this order.
    pub fn load(&mut self, file: &[u8]) -> Result<(), Fault> {
        pool::load(&mut self.words, file)
    }

    /// Holds the grants that touch the file's doors against the file. Refuses the file's faults.
    pub fn match_file(&self, file: &[u8]) -> Result<Match, Fault> {
        pool::match_file(&self.words, file)
    }

    /// The pool's words, to be kept or sent as they are. They go by the order of the calls, not by the live grants alone.
    pub fn words(&self) -> &[u16] {
        &self.words
    }
}
