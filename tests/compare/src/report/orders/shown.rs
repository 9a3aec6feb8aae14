//! What was found, printed: two histories, of as few numbers as still show it, and the call.

use crate::cases::orders::History;
use crate::interface::call::Call;
use crate::report::orders::built::{build, unlike, Built, Maker, Unlike};
use crate::report::orders::comparison::Found;
use std::collections::BTreeSet;

/// Prints the histories that show what was found; where they leave the same grants, the shortest.
pub fn show(maker: Maker, found: &Found) {
    println!("compare: the same grants: {}", found.what);
    let shortest = if found.is_of_one_set { shortest(maker, found) } else { None };
    let (histories, (call, what)) = shortest.unwrap_or((found.histories.clone(), (found.call.clone(), found.what.clone())));
    histories.iter().for_each(|history| print!("compare: by this history:\n{history}"));
    println!("compare: in this call:\n{call}\n{what}");
}

/// The histories without the calls of all numbers that can be left out, and what still shows it. None where nothing does: one that is
/// refused on a full index can be needed.
fn shortest(maker: Maker, found: &Found) -> Option<(Vec<History>, Unlike)> {
    let only = |kept: &[u16]| -> Vec<History> { found.histories.iter().map(|history| history.only(kept)).collect() };
    let shown = |kept: &[u16]| difference(maker, &only(kept), &found.call);
    let numbers: BTreeSet<u16> = found.histories.iter().flat_map(History::numbers).collect();
    let numbers: Vec<u16> = numbers.into_iter().collect();
    shown(&numbers)?;
    let fewest = fewest(numbers, &mut |kept| shown(kept).is_some());
    Some((only(&fewest), shown(&fewest)?))
}

/// How the indexes of one or two histories are unlike in a call, or in building them.
fn difference(maker: Maker, histories: &[History], call: &Call) -> Option<Unlike> {
    let (first, others) = histories.split_first()?;
    let Built { index: mut first, .. } = match build(maker, first, None) {
        Ok(built) => built,
        Err(unplanned) => return Some(unplanned),
    };
    let Built { mut index, .. } = match build(maker, others.first()?, Some(&mut *first)) {
        Ok(built) => built,
        Err(unplanned) => return Some(unplanned),
    };
    unlike(&first.make(call), &index.make(call)).map(|what| (call.clone(), what))
}

/// As few of the numbers as still show it, by dropping ever smaller runs of them.
fn fewest(mut kept: Vec<u16>, shows: &mut dyn FnMut(&[u16]) -> bool) -> Vec<u16> {
    let mut size = kept.len().div_ceil(2);
    while size > 0 {
        let mut end = kept.len();
        while end > 0 {
            let start = end.saturating_sub(size);
            let mut fewer = kept.clone();
            fewer.drain(start..end);
            if shows(&fewer) {
                kept = fewer;
            }
            end = start;
        }
        size /= 2;
    }
    kept
}
