//! Plain indexes whose answers, or the memory lent, depend on their capacity or on the order of their cells: two of them with the same grants
//! differ. And one that writes the same file of any grants.

use crate::interface::answer::{Answer, Fault};
use crate::interface::call::Call;
use crate::interface::index::{Index, Observed};
use crate::interface::lent::Lent;
use crate::oracle::plain::Plain;
use crate::oracle::walks::numbers_met;
use crate::oracle::words::fresh;
use crate::oracle::wrong::Wrong;

/// Alters what is seen of a call on an index of some words.
pub type Alter = fn(&[u16], &Call, &mut Observed);

/// A plain index with altered answers.
pub struct Altered {
    plain: Plain,
    alter: Alter,
}

impl Altered {
    pub fn new(words: &[u16], alter: Alter) -> Altered {
        Altered { plain: Plain::new(words, Wrong::Nothing), alter }
    }
}

impl Index for Altered {
    fn make(&mut self, call: &Call) -> Observed {
        let mut seen = self.plain.make(call);
        (self.alter)(self.plain.words(), call, &mut seen);
        seen
    }

    fn words(&self) -> &[u16] {
        self.plain.words()
    }
}

/// Each alteration in words, and the call that shows it.
pub const ALTERATIONS: [(&str, &str, Alter); 7] = [
    ("lists in the order of the cells", "list", list_by_cells),
    ("8 with the capacity", "list", eight_with_capacity),
    ("the capacity behind a list", "list", capacity_behind_a_list),
    ("the capacity in the ten words where none decides", "decide", capacity_where_none_decides),
    ("14 with the capacity", "write", fourteen_with_capacity),
    ("the capacity behind a file", "write", capacity_behind_a_file),
    ("the same file of any grants", "write", file_of_no_grants),
];

fn list_by_cells(words: &[u16], _: &Call, seen: &mut Observed) {
    if let (Answer::Listed(count), Lent::Words(list)) = (seen.answer, &mut seen.lent) {
        let numbers = numbers_met(words);
        list[..count].sort_by_cached_key(|number| numbers.iter().position(|met| met == number));
    }
}

fn eight_with_capacity(words: &[u16], _: &Call, seen: &mut Observed) {
    if let Answer::Refused(Fault { number: 8, value }) = &mut seen.answer {
        *value = u32::from(words[0]);
    }
}

fn capacity_behind_a_list(words: &[u16], _: &Call, seen: &mut Observed) {
    if let (Answer::Listed(count), Lent::Words(list)) = (seen.answer, &mut seen.lent) {
        list[count..].fill(words[0]);
    }
}

fn capacity_where_none_decides(words: &[u16], _: &Call, seen: &mut Observed) {
    if let (Answer::Decided(None), Lent::Words(out)) = (seen.answer, &mut seen.lent) {
        out.fill(words[0]);
    }
}

fn fourteen_with_capacity(words: &[u16], _: &Call, seen: &mut Observed) {
    if let Answer::Refused(Fault { number: 14, value }) = &mut seen.answer {
        *value += u32::from(words[0]);
    }
}

fn capacity_behind_a_file(words: &[u16], _: &Call, seen: &mut Observed) {
    if let (Answer::Written(length), Lent::Bytes(bytes)) = (seen.answer, &mut seen.lent) {
        bytes[length..].fill(words[0] as u8);
    }
}

/// What an index without grants would write.
fn file_of_no_grants(_: &[u16], call: &Call, seen: &mut Observed) {
    if matches!(call, Call::Write(..)) {
        *seen = Plain::new(&fresh(1), Wrong::Nothing).make(call);
    }
}
