//! What a run over the same grants must have reached: indexes of one capacity whose words differ, and of other capacities; between the grants
//! revokes of every kind and at every place of the tree, refused calls and loads; lists and files with too little, just enough and more lent;
//! decisions and files that an index which goes by the order of its cells would give otherwise; each thing in which a grant can differ.

use crate::cases::sets::{Field, FIELDS};
use crate::interface::answer::Answer;
use crate::interface::call::Call;
use crate::interface::grant::{DOORS, EVERYTHING, LAST_COVERED, LAST_QUARTER};
use crate::interface::lent::Lent;
use crate::oracle::file::number_at;
use crate::oracle::plain::Plain;
use crate::oracle::wrong::Wrong;
use crate::report::orders::comparison::Asked;
use std::collections::BTreeMap;

const ALWAYS: [&str; 41] = [
    "one capacity, other words",
    "another capacity",
    "revoke of a grant of the set",
    "revoke of another number",
    "revoke of a number of the set with another box",
    "revoke of a number of the set with another rank",
    "revoke of a number of the set with another kind",
    "revoke of the root",
    "revoke of the only cell",
    "revoke of an inner cell",
    "revoke of a leaf",
    "grant 2",
    "grant 3",
    "grant 4",
    "grant 5",
    "grant 6",
    "grant 16",
    "revoke 3",
    "revoke 7",
    "load of no grant",
    "load of a part of the grants",
    "load of all grants",
    "list 2",
    "list 8",
    "list with just enough lent",
    "list with more lent",
    "list_holding 2",
    "list_holding 8",
    "list_holding with just enough lent",
    "list_holding with more lent",
    "decide a grant at 65534",
    "decide none at 65535",
    "decide otherwise by the order of the cells",
    "write 2",
    "write 14",
    "write with just enough lent",
    "write with more lent",
    "write otherwise by the order of the cells",
    "one more",
    "one more, in a file of another length",
    "one absent",
];
/// Sizes of files: no block of records, one with a record, one full, and a second begun.
const FILES: [usize; 4] = [0, 1, 31, 32];

/// Those that were not reached.
pub fn missing(reached: &BTreeMap<String, usize>) -> Vec<String> {
    let always = ALWAYS.iter().map(|what| what.to_string());
    let files = FILES.iter().map(|n| format!("a file of {n} grants"));
    let things = FIELDS.into_iter().chain([Field::Number]).map(|field| format!("another {field}"));
    let of_same_length = ["one more".to_string(), "one absent".to_string()].into_iter().chain(things.clone());
    let same_length = of_same_length.map(|thing| format!("{thing}, in a file of the same length"));
    let required = always.chain(files).chain(things).chain(same_length);
    required.filter(|what| !reached.contains_key(what)).map(|what| format!("of the same grants: {what}")).collect()
}

/// What two indexes of the same grants are in memory.
pub fn by_words(first: &[u16], other: &[u16]) -> Option<String> {
    match first.len() == other.len() {
        false => Some("another capacity".to_string()),
        true => (first != other).then(|| "one capacity, other words".to_string()),
    }
}

/// What the questions asked reached.
pub fn by_answers(asked: &[Asked]) -> Vec<String> {
    asked.iter().flat_map(|asked| by_answer(asked).into_iter().chain(of_all_doors(asked))).collect()
}

fn by_answer(asked: &Asked) -> Option<String> {
    let name = asked.call.name();
    let room = |lent: usize, used: usize| match (used, lent == used) {
        (0, _) => None,
        (_, true) => Some(format!("{name} with just enough lent")),
        (_, false) => Some(format!("{name} with more lent")),
    };
    match (&asked.call, asked.seen.answer) {
        (_, Answer::Refused(fault)) => Some(format!("{name} {}", fault.number)),
        (Call::List(.., lent), Answer::Listed(count)) => room(*lent, count),
        (Call::Write(_, lent), Answer::Written(length)) => room(*lent, length),
        (Call::Decide([.., LAST_COVERED]), Answer::Decided(Some(_))) => Some(format!("{name} a grant at 65534")),
        (Call::Decide([.., LAST_QUARTER]), Answer::Decided(None)) => Some(format!("{name} none at 65535")),
        _ => None,
    }
}

/// Of a file for all doors: how many grants it has.
fn of_all_doors(asked: &Asked) -> Option<String> {
    match (&asked.call, &asked.seen.answer, &asked.seen.lent) {
        (Call::Write(doors, _), Answer::Written(_), Lent::Bytes(file)) if *doors == EVERYTHING[DOORS] => {
            Some(format!("a file of {} grants", number_at(file, 6)))
        }
        _ => None,
    }
}

/// The wrong versions that go by the order of an index's cells, and the call that shows each.
const BY_CELLS: [(&str, Wrong); 2] = [("decide", Wrong::FirstMetAmongEquals), ("write", Wrong::FileInTreeOrder)];

/// What an index of some words would answer to the questions if it went by the order of its cells, for each of these versions.
pub struct CellOrder {
    answers: [Vec<(Option<Answer>, Lent)>; 2],
}

impl CellOrder {
    pub fn new(words: &[u16], asked: &[Asked]) -> CellOrder {
        let is_accepted = |asked: &&Asked| !matches!(asked.seen.answer, Answer::Refused(_));
        let answers = BY_CELLS.map(|(name, wrong)| {
            let mut plain = Plain::new(words, wrong);
            let calls = asked.iter().filter(is_accepted).map(|asked| &asked.call).filter(|call| call.name() == name);
            calls.map(|call| plain.step(call)).map(|expected| (expected.answer, expected.lent)).collect()
        });
        CellOrder { answers }
    }
}

/// The calls in which two indexes of the same grants would differ if they went by the order of their cells.
pub fn told_apart(first: &CellOrder, other: &CellOrder) -> Vec<String> {
    let pairs = BY_CELLS.iter().zip(first.answers.iter().zip(&other.answers));
    pairs
        .filter(|(_, (first, other))| first != other)
        .map(|((name, _), _)| format!("{name} otherwise by the order of the cells"))
        .collect()
}
