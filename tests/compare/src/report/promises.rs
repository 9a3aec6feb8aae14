//! What holds of a call's answers in any case, looked for in the library's answers alone: the plain implementation has no part in it.

use crate::interface::answer::{Answer, Fault};
use crate::interface::call::Call;
use crate::interface::choice::CHOICES;
use crate::interface::grant::Bounds;
use crate::interface::index::Index;
use crate::library::product::Product;
use crate::oracle::openings::ENTRY;
use std::rc::Rc;

/// What an answer breaks.
pub fn broken(call: &Call, answer: Answer, product: &mut Product) -> Option<String> {
    match call {
        Call::CompareOpenings(door, panel) => openings_broken(door, panel, answer, product),
        Call::List(bounds, ..) => choices_broken(bounds, product),
        _ => None,
    }
}

/// Agreeing and left entries are all of a record's, and exchanging the records exchanges what is left.
fn openings_broken(door: &Rc<[u8]>, panel: &Rc<[u8]>, answer: Answer, product: &mut Product) -> Option<String> {
    let mirrored = match answer {
        Answer::Compared { agree, left_in_door, left_in_panel } => {
            if (agree + left_in_door, agree + left_in_panel) != (door.len() / ENTRY, panel.len() / ENTRY) {
                return Some(format!("{answer:?} is not all entries of both records"));
            }
            Answer::Compared { agree, left_in_door: left_in_panel, left_in_panel: left_in_door }
        }
        refused => refused,
    };
    let exchanged = product.make(&Call::CompareOpenings(panel.clone(), door.clone())).answer;
    (exchanged != mirrored).then(|| format!("{answer:?}, but with the records exchanged {exchanged:?}"))
}

/// A box listed under either choice, without room: 1, 2 and 9 come under both or under neither, and no more hold the box than touch it.
fn choices_broken(bounds: &Bounds, product: &mut Product) -> Option<String> {
    let [touching, holding] = CHOICES.map(|choice| product.make(&Call::List(*bounds, choice, 0)).answer);
    let hits = |answer| match answer {
        Answer::Listed(count) => Ok(count as u32),
        Answer::Refused(Fault { number: 8, value }) => Ok(value),
        other => Err(other),
    };
    let fits = match (hits(touching), hits(holding)) {
        (Ok(touching), Ok(holding)) => holding <= touching,
        (touching, holding) => touching == holding,
    };
    (!fits).then(|| format!("touching answers {touching:?}, holding {holding:?}"))
}
