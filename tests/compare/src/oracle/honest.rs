//! What the calls answer and leave on a pool that start or load and later accepted calls made: the plain book's answers, the words
//! of `words`, the files of `file`.

use crate::interface::answer::{Answer, Fault};
use crate::interface::call::Call;
use crate::interface::choice::Choice;
use crate::interface::grant::{Grant, Span, DOORS};
use crate::interface::lent::Lent;
use crate::oracle::arguments::rank_too_low;
use crate::oracle::book::Book;
use crate::oracle::file::file_of;
use crate::oracle::judge::Contents;
use crate::oracle::walks::numbers_met;
use crate::oracle::words::{fresh, insert, remove};
use crate::oracle::wrong::Wrong;

pub struct Honest {
    pub book: Book,
    pub words: Vec<u16>,
    wrong: Wrong,
}

impl Honest {
    pub fn start(capacity: usize, wrong: Wrong) -> Honest {
        Honest { book: Book::new(capacity, wrong), words: fresh(capacity), wrong }
    }

    /// A pool whose cells hold these grants, ascending by number.
    pub fn of(words: &[u16], live: Vec<Grant>, wrong: Wrong) -> Honest {
        let mut book = Book::new(usize::from(words[0]), wrong);
        book.live = live;
        Honest { book, words: words.to_vec(), wrong }
    }

    /// Start, and then grants in file order.
    pub fn load(capacity: usize, grants: &[Grant], wrong: Wrong) -> Honest {
        let mut loaded = Honest::start(capacity, wrong);
        let by_insert = if wrong == Wrong::LoadStoresNoParent { Wrong::GrantStoresNoParent } else { wrong };
        for grant in grants {
            if loaded.book.grant(*grant).is_ok() {
                insert(&mut loaded.words, grant, by_insert);
            }
        }
        loaded
    }

    /// A call whose arguments have no fault, with the contents of match's file.
    pub fn step(&mut self, call: &Call, lent: &mut Lent, file: Option<&Contents>) -> Result<Answer, Fault> {
        Ok(match call {
            Call::Grant(grant) => {
                self.book.grant(*grant)?;
                insert(&mut self.words, grant, self.wrong);
                Answer::Done
            }
            Call::Revoke(number) => {
                let grant = self.book.revoke(*number)?;
                remove(&mut self.words, &grant, self.wrong);
                Answer::Done
            }
            Call::List(bounds, choice, length) => {
                let numbers = self.book.list(bounds, *choice, *length)?;
                if self.wrong == Wrong::HoldingSortedOutInTheList {
                    lend_numbers(lent, &self.book.list(bounds, Choice::Touching, *length).unwrap_or_default(), self.wrong);
                }
                lend_numbers(lent, &numbers, self.wrong);
                Answer::Listed(numbers.len())
            }
            Call::Decide(point) => {
                let decided = self.decided(*point);
                lend_grant(lent, decided.as_ref());
                Answer::Decided(decided)
            }
            Call::Write(doors, length) => {
                let file = file_of(*doors, &self.in_file(*doors), self.wrong);
                lend_file(lent, &file, *length)?;
                Answer::Written(file.len())
            }
            Call::Match(_) => Answer::Matched(file.and_then(|file| self.first_difference(file))),
            Call::Count => Answer::Counted { live: self.book.live.len(), free: self.book.capacity - self.book.live.len() },
            _ => unreachable!("start, load and block read don't walk"),
        })
    }

    fn decided(&self, point: [u16; 3]) -> Option<Grant> {
        match self.wrong {
            Wrong::FirstMetAmongEquals => self.as_met(self.book.of_highest_rank(point)).first().copied(),
            _ => self.book.decide(point),
        }
    }

    /// The grants of the file for some doors, in its order.
    fn in_file(&self, doors: Span) -> Vec<Grant> {
        let grants = self.taken(self.book.touching(doors), Wrong::WriteLeavesWideCellsOut);
        match self.wrong {
            Wrong::FileInTreeOrder => self.as_met(grants),
            _ => grants,
        }
    }

    /// Grants in the order in which a search meets their cells.
    fn as_met(&self, mut grants: Vec<Grant>) -> Vec<Grant> {
        let numbers = numbers_met(&self.words);
        grants.sort_by_cached_key(|grant| numbers.iter().position(|number| *number == grant.number));
        grants
    }

    /// The lowest number at which the grants that touch the file's doors and the file's differ: absent from one, or unequal.
    fn first_difference(&self, file: &Contents) -> Option<u16> {
        let own = match self.wrong {
            Wrong::MatchSeesOtherDoors => self.book.live.clone(),
            _ => self.taken(self.book.touching(file.doors), Wrong::MatchLeavesWideCellsOut),
        };
        let numbers = own.iter().chain(&file.grants).map(|grant| grant.number);
        numbers.filter(|&number| self.seen(&own, number) != self.seen(&file.grants, number)).min()
    }

    /// The grants, without those that break the rule of 16 where a wrong version leaves them out.
    fn taken(&self, mut grants: Vec<Grant>, version: Wrong) -> Vec<Grant> {
        grants.retain(|grant| self.wrong != version || !rank_too_low(grant.rank, grant.bounds[DOORS], self.wrong));
        grants
    }

    fn seen(&self, grants: &[Grant], number: u16) -> Option<Grant> {
        let place = grants.binary_search_by_key(&number, |grant| grant.number).ok()?;
        let mut grant = grants[place];
        if self.wrong == Wrong::MatchIgnoresRank {
            grant.rank = 0;
        }
        Some(grant)
    }
}

fn lend_numbers(lent: &mut Lent, numbers: &[u16], wrong: Wrong) {
    if let Lent::Words(list) = lent {
        list[..numbers.len()].copy_from_slice(numbers);
        if wrong == Wrong::ListTailCleared {
            list[numbers.len()..].fill(0);
        }
    }
}

/// Number, rank, kind, the six values in cell order, 0; nothing where no grant decides.
fn lend_grant(lent: &mut Lent, grant: Option<&Grant>) {
    if let (Lent::Words(out), Some(grant)) = (lent, grant) {
        out[..3].copy_from_slice(&[grant.number, u16::from(grant.rank), u16::from(grant.kind)]);
        out[3..9].copy_from_slice(&grant.ends());
        out[9] = 0;
    }
}

fn lend_file(lent: &mut Lent, file: &[u8], length: usize) -> Result<(), Fault> {
    if file.len() > length {
        return Err(Fault { number: 14, value: file.len() as u32 });
    }
    if let Lent::Bytes(bytes) = lent {
        bytes[..file.len()].copy_from_slice(file);
    }
    Ok(())
}
