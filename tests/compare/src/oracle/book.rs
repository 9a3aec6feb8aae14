//! The plain book of documents 01 and 02: the live grants in a plain list, every question a scan of it.

use crate::interface::answer::{fault, Fault};
use crate::interface::choice::Choice;
use crate::interface::grant::{Bounds, Grant, Span, DOORS};
use crate::oracle::arguments::rank_too_low;
use crate::oracle::overlap::{box_holds, spans_overlap};
use crate::oracle::relation::{count_needed, relation, takes};
use crate::oracle::wrong::Wrong;

#[derive(Clone)]
pub struct Book {
    pub capacity: usize,
    /// Ascending by number.
    pub live: Vec<Grant>,
    wrong: Wrong,
}

impl Book {
    pub fn new(capacity: usize, wrong: Wrong) -> Book {
        Book { capacity, live: Vec::new(), wrong }
    }

    pub fn find(&self, number: u16) -> Option<&Grant> {
        self.live.iter().find(|grant| grant.number == number)
    }

    fn is_full(&self) -> bool {
        let early = usize::from(self.wrong == Wrong::FullOneGrantEarly);
        self.live.len() + early >= self.capacity
    }

    pub fn grant(&mut self, grant: Grant) -> Result<(), Fault> {
        if self.wrong == Wrong::LiveAfterFull && self.is_full() {
            return Err(fault(6));
        }
        if self.find(grant.number).is_some() {
            return Err(fault(5));
        }
        if self.is_full() {
            return Err(fault(6));
        }
        let place = self.live.partition_point(|other| other.number < grant.number);
        self.live.insert(place, grant);
        Ok(())
    }

    pub fn revoke(&mut self, number: u16) -> Result<Grant, Fault> {
        let place = self.live.iter().position(|grant| grant.number == number).ok_or(fault(7))?;
        if self.wrong == Wrong::RevokeForgetsTheNext && place + 1 < self.live.len() {
            self.live.remove(place + 1);
        }
        Ok(self.live.remove(place))
    }

    /// The grants that list takes under a choice.
    pub fn taken(&self, bounds: &Bounds, choice: Choice) -> Vec<Grant> {
        let is_taken = |grant: &&Grant| takes(choice, relation(&grant.bounds, bounds, self.wrong), self.wrong);
        self.live.iter().filter(is_taken).copied().collect()
    }

    /// The grants that hold a point.
    fn at(&self, point: [u16; 3]) -> Vec<Grant> {
        self.live.iter().filter(|grant| box_holds(&grant.bounds, point, self.wrong)).copied().collect()
    }

    /// The numbers that list writes into `lent` elements.
    pub fn list(&self, bounds: &Bounds, choice: Choice, lent: usize) -> Result<Vec<u16>, Fault> {
        let mut grants = self.taken(bounds, choice);
        if self.wrong == Wrong::ListLeavesWideCellsOut {
            grants.retain(|grant| !rank_too_low(grant.rank, grant.bounds[DOORS], self.wrong));
        }
        let mut numbers: Vec<u16> = grants.iter().map(|grant| grant.number).collect();
        if self.wrong == Wrong::ListDescending {
            numbers.reverse();
        }
        let lent = if self.wrong == Wrong::LengthsCutTo16Bits { lent & 0xFFFF } else { lent };
        let touching = self.taken(bounds, Choice::Touching).len();
        match count_needed(choice, numbers.len(), touching, lent, self.wrong) {
            Some(needed) => Err(Fault { number: 8, value: needed as u32 }),
            None => Ok(numbers),
        }
    }

    /// The grants at a point that have the highest rank there, ascending by number.
    pub fn of_highest_rank(&self, point: [u16; 3]) -> Vec<Grant> {
        let mut grants = self.at(point);
        let highest = grants.iter().map(|grant| grant.rank).max();
        grants.retain(|grant| Some(grant.rank) == highest);
        grants
    }

    /// The highest rank decides; at equal rank the highest number.
    pub fn decide(&self, point: [u16; 3]) -> Option<Grant> {
        let grants = self.of_highest_rank(point);
        match self.wrong {
            Wrong::LowerNumberAtEqualRank => grants.first().copied(),
            _ => grants.last().copied(),
        }
    }

    /// The grants that touch doors, whole.
    pub fn touching(&self, doors: Span) -> Vec<Grant> {
        self.live.iter().filter(|grant| spans_overlap(grant.bounds[DOORS], doors, self.wrong)).copied().collect()
    }
}
