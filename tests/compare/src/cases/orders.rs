//! Histories that leave one set of grants (document 02, card 7): in other orders, with other grants and with refused calls in between, from
//! a file, on indexes of other sizes.

use crate::cases::random::Random;
use crate::cases::sets::{another, changed, free_number, of_number, FIELDS};
use crate::cases::styles::{make_senior, spoil, Style};
use crate::interface::answer::{Answer, Fault};
use crate::interface::call::Call;
use crate::interface::grant::{Grant, Span, DOORS, EVERYTHING};
use crate::oracle::arguments::argument_fault;
use crate::oracle::book::Book;
use crate::oracle::layout::MOST_CELLS;
use crate::oracle::overlap::spans_overlap;
use crate::oracle::wrong::Wrong;
use std::collections::BTreeSet;
use std::fmt;

#[derive(Clone)]
pub enum Step {
    /// A call, and the answer that it must have.
    Make(Call, Answer),
    /// A load of the file for some doors, as the first index of the set writes it.
    Load(Span),
}

/// Calls on a fresh index.
#[derive(Clone)]
pub struct History {
    pub order: Order,
    pub capacity: usize,
    /// Each word of the index's memory before start.
    pub before: u16,
    pub steps: Vec<Step>,
    /// What it has besides grants of the set, in words.
    pub between: BTreeSet<String>,
}

#[derive(Clone, Copy, Debug, PartialEq, Eq)]
pub enum Order {
    Ascending,
    Descending,
    Shuffled,
    WithRevokes,
    FromTheFile,
    FromAPart,
}

/// Histories that leave a set. Some are on indexes of the least capacity there can be, where they are full at the end; others have a cell
/// more, some more, and as many as there can be.
pub fn histories(random: &mut Random, style: Style, set: &[Grant]) -> [History; 8] {
    let least = set.len().max(1);
    let more = (least + 2 + random.below(60)).min(MOST_CELLS);
    let plans = [
        (Order::Ascending, least),
        (Order::Descending, least),
        (Order::WithRevokes, least),
        (Order::Shuffled, least + 1),
        (Order::WithRevokes, least + 1),
        (Order::FromTheFile, more),
        (Order::WithRevokes, MOST_CELLS),
        (Order::FromAPart, least),
    ];
    plans.map(|plan| history(random, style, set, plan))
}

/// A history of one order that leaves a set on an index of some capacity.
pub fn history(random: &mut Random, style: Style, set: &[Grant], (order, capacity): (Order, usize)) -> History {
    let before = random.word();
    let book = Book::new(capacity, Wrong::Nothing);
    let mut planner = Planner { random, style, set, book, steps: Vec::new(), between: BTreeSet::new() };
    planner.make(Call::Start);
    planner.leave_the_set(order);
    History { order, capacity, before, steps: planner.steps, between: planner.between }
}

impl History {
    /// The numbers that its calls have.
    pub fn numbers(&self) -> BTreeSet<u16> {
        self.steps.iter().filter_map(Step::number).collect()
    }

    /// The history without the calls of other numbers, and without those that were refused on a full index, which it no longer is.
    pub fn only(&self, numbers: &[u16]) -> History {
        let is_full = |step: &Step| matches!(step, Step::Make(_, Answer::Refused(Fault { number: 6, .. })));
        let is_kept = |step: &&Step| step.number().is_none_or(|number| numbers.contains(&number)) && !is_full(step);
        History { steps: self.steps.iter().filter(is_kept).cloned().collect(), ..self.clone() }
    }
}

impl Step {
    /// The number of a grant or a revoke.
    fn number(&self) -> Option<u16> {
        match self {
            Step::Make(Call::Grant(grant), _) => Some(grant.number),
            Step::Make(Call::Revoke(number), _) => Some(*number),
            _ => None,
        }
    }
}

impl fmt::Display for History {
    fn fmt(&self, f: &mut fmt::Formatter<'_>) -> fmt::Result {
        writeln!(f, "{:?}, {} cells in memory of words {:04x}", self.order, self.capacity, self.before)?;
        self.steps.iter().try_for_each(|step| match step {
            Step::Make(call, Answer::Refused(fault)) => writeln!(f, "{call} (refused: {})", fault.number),
            Step::Make(call, _) => writeln!(f, "{call}"),
            Step::Load(doors) => writeln!(f, "load of the first index's file for doors {} {}", doors.0, doors.1),
        })
    }
}

/// Writes a history, with a book beside it that says what each call must answer.
struct Planner<'a> {
    random: &'a mut Random,
    style: Style,
    set: &'a [Grant],
    book: Book,
    steps: Vec<Step>,
    between: BTreeSet<String>,
}

impl Planner<'_> {
    fn leave_the_set(&mut self, order: Order) {
        match order {
            Order::Ascending => self.set.iter().for_each(|grant| self.put(*grant)),
            Order::Descending => self.set.iter().rev().for_each(|grant| self.put(*grant)),
            Order::Shuffled => self.random.shuffled(self.set).into_iter().for_each(|grant| self.put(grant)),
            Order::WithRevokes => self.put_with_revokes(),
            Order::FromTheFile => self.put_from_file(EVERYTHING[DOORS]),
            Order::FromAPart => {
                let doors = self.random.any(self.set).map_or((0, 0), |grant| grant.bounds[DOORS]);
                self.put_from_file((doors.0, doors.0));
            }
        }
    }

    /// Adds a call, with the answer that the book gives.
    fn make(&mut self, call: Call) {
        let done = match (argument_fault(&call, Wrong::Nothing), &call) {
            (Some(fault), _) => Err(fault),
            (None, Call::Grant(grant)) => self.book.grant(*grant),
            (None, Call::Revoke(number)) => self.revoke(*number),
            _ => Ok(()),
        };
        let answer = done.map_or_else(Answer::Refused, |()| Answer::Done);
        if let Answer::Refused(fault) = answer {
            self.between.insert(format!("{} {}", call.name(), fault.number));
        }
        self.steps.push(Step::Make(call, answer));
    }

    /// Takes a grant out of the book, and says what it was.
    fn revoke(&mut self, number: u16) -> Result<(), Fault> {
        let revoked = self.book.revoke(number)?;
        let what = match of_number(self.set, number) {
            None => "another number",
            Some(own) if *own == revoked => "a grant of the set",
            Some(own) if own.bounds != revoked.bounds => "a number of the set with another box",
            Some(own) if own.rank != revoked.rank => "a number of the set with another rank",
            Some(_) => "a number of the set with another kind",
        };
        self.between.insert(format!("revoke of {what}"));
        Ok(())
    }

    /// Grants a grant of the set unless it is live. Another of its number is revoked before. On a full index one of a number outside the set
    /// is: there is one, since the index has room for the whole set.
    fn put(&mut self, grant: Grant) {
        match self.book.find(grant.number) {
            Some(live) if *live == grant => return,
            Some(_) => self.make(Call::Revoke(grant.number)),
            None if self.book.live.len() < self.book.capacity => {}
            None => {
                let other = self.book.live.iter().find(|live| of_number(self.set, live.number).is_none());
                other.map(|other| other.number).into_iter().for_each(|number| self.make(Call::Revoke(number)));
            }
        }
        self.make(Call::Grant(grant));
    }

    /// Grants the set in any order with other calls in between, at last revokes what isn't of the set, and grants what is missing.
    fn put_with_revokes(&mut self) {
        for grant in self.random.shuffled(self.set) {
            self.put(grant);
            while self.random.one_in(2) {
                self.make_other_call();
            }
        }
        for _ in 0..4 {
            self.make_other_call();
        }
        let own = |grant: &Grant| of_number(self.set, grant.number) == Some(grant);
        let others: Vec<u16> = self.book.live.iter().filter(|grant| !own(grant)).map(|grant| grant.number).collect();
        self.random.shuffled(&others).into_iter().for_each(|number| self.make(Call::Revoke(number)));
        self.random.shuffled(self.set).into_iter().for_each(|grant| self.put(grant));
    }

    /// Calls that a load undoes, the load of the set's grants that touch some doors, and then the rest.
    fn put_from_file(&mut self, doors: Span) {
        for _ in 0..4 {
            self.make_other_call();
        }
        self.book.live =
            self.set.iter().filter(|grant| spans_overlap(grant.bounds[DOORS], doors, Wrong::Nothing)).copied().collect();
        let loaded = match (self.book.live.len(), self.set.len()) {
            (0, _) => "no grant",
            (n, all) if n == all => "all grants",
            _ => "a part of the grants",
        };
        self.between.insert(format!("load of {loaded}"));
        self.steps.push(Step::Load(doors));
        self.put_with_revokes();
    }

    /// A call that is refused, or that is undone later.
    fn make_other_call(&mut self) {
        match self.random.below(5) {
            0 => {
                let grant = another(self.random, self.style, self.set);
                self.make(Call::Grant(grant));
            }
            1 => self.grant_otherwise(),
            2 => self.revoke_any(),
            _ => self.be_refused(),
        }
    }

    /// A number of the set granted with another box, rank or kind; a live one is revoked for it.
    fn grant_otherwise(&mut self) {
        let Some(own) = self.random.any(self.set) else {
            return;
        };
        let Some(other) = self.otherwise(&own) else {
            return;
        };
        if self.book.find(own.number).is_some() {
            self.make(Call::Revoke(own.number));
        }
        self.make(Call::Grant(other));
    }

    /// A grant with another value in one field, or with any box.
    fn otherwise(&mut self, own: &Grant) -> Option<Grant> {
        if self.random.one_in(3) {
            let mut other = Grant { bounds: self.style.bounds(self.random), ..*own };
            make_senior(&mut other);
            return Some(other);
        }
        let field = self.random.pick(&FIELDS);
        changed(self.random, own, field)
    }

    /// A live grant revoked; one of the set is granted again, at once or later.
    fn revoke_any(&mut self) {
        let Some(live) = self.random.any(&self.book.live) else {
            return;
        };
        self.make(Call::Revoke(live.number));
        if let (Some(own), true) = (of_number(self.set, live.number), self.random.one_in(2)) {
            self.make(Call::Grant(*own));
        }
    }

    /// A number granted a second time, one revoked that isn't live, or faults in the arguments.
    fn be_refused(&mut self) {
        let mut grant = another(self.random, self.style, self.set);
        match self.random.below(4) {
            0 => {
                let live = self.random.any(&self.book.live);
                live.into_iter().for_each(|live| self.make(Call::Grant(Grant { number: live.number, ..grant })));
            }
            1 => {
                let number = free_number(self.random, self.style, &self.book.live);
                self.make(Call::Revoke(number));
            }
            2 => self.make(Call::Revoke(0)),
            _ => {
                spoil(self.random, &mut grant);
                self.make(Call::Grant(grant));
            }
        }
    }
}
