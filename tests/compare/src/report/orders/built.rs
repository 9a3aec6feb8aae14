//! Indexes that histories make, the files that they write, and how two of them are unlike.

use crate::cases::orders::{History, Step};
use crate::interface::answer::Answer;
use crate::interface::call::Call;
use crate::interface::grant::Span;
use crate::interface::index::{Index, Observed};
use crate::interface::lent::Lent;
use crate::oracle::file::{BLOCK, MOST_BLOCKS};
use crate::oracle::layout::words_for;
use crate::oracle::removals::place;
use std::rc::Rc;

/// Makes an index over some words.
pub type Maker<'a> = &'a dyn Fn(&[u16]) -> Box<dyn Index>;

const GUARDS_CHANGED: &str = "memory outside what was lent changed";

/// A call, and how two indexes, or an index and its history, are unlike in it.
pub type Unlike = (Call, String);

/// An index that a history made, and where in the tree its revokes were, in words.
pub struct Built {
    pub index: Box<dyn Index>,
    pub reached: Vec<String>,
}

/// Makes an index by a history, in which every call must be answered as it is planned. Files that it loads are those of the first index of
/// the set; the first itself loads none.
pub fn build(maker: Maker, history: &History, mut first: Option<&mut dyn Index>) -> Result<Built, Unlike> {
    let mut index = maker(&vec![history.before; words_for(history.capacity)]);
    let mut reached = Vec::new();
    for step in &history.steps {
        let (call, answer) = match (step, &mut first) {
            (Step::Make(call, answer), _) => (call.clone(), *answer),
            (Step::Load(doors), Some(first)) => (Call::Load(file_of(*first, *doors)), Answer::Done),
            (Step::Load(_), None) => unreachable!("the first history of a set loads nothing"),
        };
        if let (Call::Revoke(number), Answer::Done) = (&call, answer) {
            reached.extend(place(index.words(), *number).map(|place| format!("revoke of {place}")));
        }
        if let Some(what) = unplanned(answer, &index.make(&call)) {
            return Err((call, what));
        }
    }
    Ok(Built { index, reached })
}

/// How a call of a history was not answered as planned.
fn unplanned(planned: Answer, seen: &Observed) -> Option<String> {
    match seen.guards_stand {
        false => Some(GUARDS_CHANGED.to_string()),
        true => (seen.answer != planned).then(|| format!("{planned:?} is planned, the index answers {:?}", seen.answer)),
    }
}

/// How two indexes differ in what was seen of one call.
pub fn unlike(first: &Observed, other: &Observed) -> Option<String> {
    if !first.guards_stand || !other.guards_stand {
        return Some(GUARDS_CHANGED.to_string());
    }
    if first.answer != other.answer {
        return Some(format!("one index answers {:?}, the other {:?}", first.answer, other.answer));
    }
    let (place, here, there) = first.lent.first_difference(&other.lent)?;
    Some(format!("lent element {place}: one index leaves {here}, the other {there}"))
}

/// Whether the memory lent to a call stands as it was but for what the answer has in it.
pub fn rest_stands(call: &Call, seen: &Observed) -> bool {
    let used = match seen.answer {
        Answer::Listed(count) | Answer::Written(count) => count,
        Answer::Decided(Some(_)) => return true,
        _ => 0,
    };
    match (&seen.lent, &Lent::before(call)) {
        (Lent::Words(after), Lent::Words(before)) => after.get(used..) == before.get(used..),
        (Lent::Bytes(after), Lent::Bytes(before)) => after.get(used..) == before.get(used..),
        (after, before) => after == before,
    }
}

/// A write that is lent enough for every file.
pub fn write_for(doors: Span) -> Call {
    Call::Write(doors, BLOCK * MOST_BLOCKS)
}

/// The file that an index writes for some doors; no bytes where it refuses.
pub fn file_of(index: &mut dyn Index, doors: Span) -> Rc<[u8]> {
    let written = index.make(&write_for(doors));
    match (written.answer, written.lent) {
        (Answer::Written(length), Lent::Bytes(bytes)) => bytes[..length].into(),
        _ => [].into(),
    }
}
