//! The comparison: indexes that hold the same grants give the same answers and write the same bytes, whatever their sizes and histories; of
//! other grants, the files for all doors differ.

use crate::cases::orders::{histories, history, History, Order};
use crate::cases::questions::questions;
use crate::cases::random::Random;
use crate::cases::sets::{other_sets, set_of_size, OtherSet};
use crate::cases::styles::Style;
use crate::interface::answer::Answer;
use crate::interface::call::Call;
use crate::interface::grant::{Grant, DOORS, EVERYTHING};
use crate::interface::index::{Index, Observed};
use crate::interface::lent::Lent;
use crate::report::orders::built::{build, file_of, rest_stands, unlike, write_for, Built, Maker, Unlike};
use crate::report::orders::reached::{by_answers, by_words, told_apart, CellOrder};
use std::collections::BTreeMap;

/// Sizes of sets that every round has, and those of which it has one: blocks of a file are just full or just begun.
const SMALL: [usize; 4] = [0, 1, 2, 3];
const LARGER: [usize; 6] = [31, 32, 62, 63, 100, 30];
/// The size of the set in a long round.
const LARGEST: usize = 2000;

/// What a run has tried.
pub struct Orders<'a> {
    maker: Maker<'a>,
    /// Indexes that are as the first of their set, and indexes of other sets that are not.
    pub alike: usize,
    pub apart: usize,
    /// What was reached that a run must reach, in words; how often.
    pub reached: BTreeMap<String, usize>,
}

/// Two histories whose indexes are not as they must be, or one that is not as planned, and the call that shows it.
pub struct Found {
    pub histories: Vec<History>,
    /// They leave the same grants.
    pub is_of_one_set: bool,
    pub call: Call,
    pub what: String,
}

impl Found {
    fn in_one(history: &History, (call, what): Unlike) -> Found {
        Found { histories: vec![history.clone()], is_of_one_set: true, call, what }
    }
}

/// A question, and what was seen when the first index of a set was asked it.
pub struct Asked {
    pub call: Call,
    pub seen: Observed,
}

/// The first index of a set.
struct First {
    history: History,
    index: Box<dyn Index>,
    asked: Vec<Asked>,
    order: CellOrder,
}

impl First {
    fn found(&self, history: &History, is_of_one_set: bool, (call, what): Unlike) -> Found {
        Found { histories: vec![self.history.clone(), history.clone()], is_of_one_set, call, what }
    }

    /// The memory that was lent must stand behind what was answered. The others of the set leave it as the first does.
    fn keep_the_rest(&self) -> Result<(), Found> {
        let changed = self.asked.iter().find(|asked| !rest_stands(&asked.call, &asked.seen));
        let unlike = changed.map(|asked| (asked.call.clone(), "lent memory behind the answer changed".to_string()));
        unlike.map_or(Ok(()), |unlike| Err(Found::in_one(&self.history, unlike)))
    }
}

impl<'a> Orders<'a> {
    pub fn new(maker: Maker<'a>) -> Orders<'a> {
        Orders { maker, alike: 0, apart: 0, reached: BTreeMap::new() }
    }

    pub fn round(&mut self, random: &mut Random, i: usize) -> Result<(), Found> {
        sizes(random, i).into_iter().try_for_each(|size| self.set(random, size))
    }

    pub fn long_round(&mut self, random: &mut Random) -> Result<(), Found> {
        self.set(random, LARGEST)
    }

    /// A set of some size by several histories, and sets that differ from it.
    pub fn set(&mut self, random: &mut Random, size: usize) -> Result<(), Found> {
        let style = match random.one_in(4) {
            true => Style::deep(random),
            false => Style::any(random, size.max(1)),
        };
        let set = set_of_size(random, style, size);
        let [own, others @ ..] = histories(random, style, &set);
        let mut first = self.first(random, style, &set, own)?;
        others
            .iter()
            .try_for_each(|history| self.hold_alike(&mut first, history).map_err(|unlike| first.found(history, true, unlike)))?;
        first.keep_the_rest()?;
        other_sets(random, style, &set).iter().try_for_each(|other| {
            let capacity = other.grants.len().max(1) + random.below(2);
            let order = random.pick(&[Order::Shuffled, Order::WithRevokes]);
            let history = history(random, style, &other.grants, (order, capacity));
            self.tell_apart(&mut first, other, &history).map_err(|unlike| first.found(&history, false, unlike))
        })
    }

    fn reach(&mut self, reached: impl IntoIterator<Item = String>) {
        reached.into_iter().for_each(|what| *self.reached.entry(what).or_default() += 1);
    }

    /// Builds the first index of a set and asks it everything.
    fn first(&mut self, random: &mut Random, style: Style, set: &[Grant], history: History) -> Result<First, Found> {
        let Built { mut index, .. } = build(self.maker, &history, None).map_err(|unlike| Found::in_one(&history, unlike))?;
        let calls = questions(random, style, set, &mut *index);
        let asked: Vec<Asked> = calls.into_iter().map(|call| Asked { seen: index.make(&call), call }).collect();
        self.reach(by_answers(&asked));
        let order = CellOrder::new(index.words(), &asked);
        Ok(First { history, index, asked, order })
    }

    /// Builds another index of the set: it must answer and write as the first does, and match its files.
    fn hold_alike(&mut self, first: &mut First, history: &History) -> Result<(), Unlike> {
        let Built { mut index, reached } = build(self.maker, history, Some(&mut *first.index))?;
        let difference = first_unlike(&first.asked, &mut *index).or_else(|| unmatched(first, &mut *index));
        difference.map_or(Ok(()), Err)?;
        self.alike += 1;
        self.reach(reached.into_iter().chain(history.between.iter().cloned()));
        self.reach(by_words(first.index.words(), index.words()));
        self.reach(told_apart(&first.order, &CellOrder::new(index.words(), &first.asked)));
        Ok(())
    }

    /// Builds an index of another set: its file for all doors must differ from the first's, and match must say at which number.
    fn tell_apart(&mut self, first: &mut First, other: &OtherSet, history: &History) -> Result<(), Unlike> {
        let mut index = build(self.maker, history, None)?.index;
        let [own, others] = [&mut *first.index, &mut *index].map(|index| file_of(index, EVERYTHING[DOORS]));
        if own == others {
            return Err((write_for(EVERYTHING[DOORS]), format!("one file, though there is {} at {}", other.what, other.number)));
        }
        let matches = [(&mut first.index, others.clone()), (&mut index, own.clone())];
        for (index, file) in matches {
            let call = Call::Match(file);
            let answer = index.make(&call).answer;
            if answer != Answer::Matched(Some(other.number)) {
                return Err((call, format!("{answer:?}, though there is {} at {}", other.what, other.number)));
            }
        }
        self.apart += 1;
        let length = if own.len() == others.len() { "the same" } else { "another" };
        self.reach([other.what.clone(), format!("{}, in a file of {length} length", other.what)]);
        Ok(())
    }
}

/// The sizes of a round's sets.
pub fn sizes(random: &mut Random, i: usize) -> Vec<usize> {
    let few = 4 + random.below(9);
    SMALL.into_iter().chain([few, LARGER[i % LARGER.len()]]).collect()
}

/// The first question that an index answers otherwise than the first index.
pub fn first_unlike(asked: &[Asked], index: &mut dyn Index) -> Option<Unlike> {
    asked.iter().find_map(|asked| unlike(&asked.seen, &index.make(&asked.call)).map(|what| (asked.call.clone(), what)))
}

/// A file of the first index that it or another of its set says is not its own.
fn unmatched(first: &mut First, index: &mut dyn Index) -> Option<Unlike> {
    let First { index: first, asked, .. } = first;
    asked.iter().filter_map(file_in).find_map(|file| {
        let call = Call::Match(file.into());
        let answers = [first.make(&call).answer, index.make(&call).answer];
        (answers != [Answer::Matched(None); 2]).then(|| (call, format!("{answers:?}")))
    })
}

/// The file that was written where just its length was lent.
fn file_in(asked: &Asked) -> Option<&[u8]> {
    match (&asked.call, &asked.seen.answer, &asked.seen.lent) {
        (Call::Write(_, lent), Answer::Written(length), Lent::Bytes(file)) if lent == length => Some(file),
        _ => None,
    }
}
