//! A bank's lists beside head office's (document 02, card 4): a bank loaded from its file gives head office's list for boxes inside its
//! doors, under either choice. Looked for in the library's answers alone.

use crate::cases::boxes::one_off;
use crate::interface::answer::Answer;
use crate::interface::call::Call;
use crate::interface::choice::{Choice, CHOICES};
use crate::interface::grant::{Bounds, Grant, Span, DOORS, ENDS, EVERYTHING};
use crate::interface::index::Index;
use crate::interface::lent::Lent;
use crate::library::product::Product;
use crate::oracle::arguments::rank_too_low;
use crate::oracle::file::{BLOCK, MOST_BLOCKS};
use crate::oracle::layout::words_for;
use crate::oracle::words::fresh;
use crate::oracle::wrong::Wrong;

/// How many lists of banks are those of head office, which has these grants; or how one is not. Files with a grant whose rank is too low
/// for its doors are left out: no load takes them.
pub fn lists_alike(office: &mut Product, live: &[Grant]) -> Result<usize, String> {
    let mut lists = 0;
    for doors in doors_of_banks(live) {
        let touching: Vec<&Grant> = live.iter().filter(|grant| clipped(&grant.bounds, doors).is_some()).collect();
        if touching.iter().any(|grant| rank_too_low(grant.rank, grant.bounds[DOORS], Wrong::Nothing)) {
            continue;
        }
        let Some(mut bank) = bank_of(office, doors, touching.len().max(1)) else {
            return Err(format!("a bank of doors {doors:?} can't be loaded from its file"));
        };
        for asked in boxes_inside(doors, &touching) {
            for choice in CHOICES {
                list_alike(office, &mut bank, &asked, choice)?;
                lists += 1;
            }
        }
    }
    Ok(lists)
}

/// A bank of some cells, loaded from the file that head office writes for its doors.
fn bank_of(office: &mut Product, doors: Span, capacity: usize) -> Option<Product> {
    let written = office.make(&Call::Write(doors, BLOCK * MOST_BLOCKS));
    let (Answer::Written(length), Lent::Bytes(bytes)) = (written.answer, written.lent) else {
        return None;
    };
    let mut bank = Product::new(&vec![0; words_for(capacity)]);
    let loaded = bank.make(&Call::Load(bytes[..length].into())).answer;
    (loaded == Answer::Done).then_some(bank)
}

/// All doors, those of two grants, and a part of a third's.
fn doors_of_banks(live: &[Grant]) -> Vec<Span> {
    let mut doors = vec![EVERYTHING[DOORS]];
    if let ([first, ..], [.., last]) = (live, live) {
        let middle = live[live.len() / 2].bounds[DOORS];
        doors.extend([first.bounds[DOORS], last.bounds[DOORS], (middle.0 + (middle.1 - middle.0) / 2, middle.1)]);
    }
    doors
}

/// Boxes inside a bank's doors: all of them, and near the first, the middle and the last of its grants.
fn boxes_inside(doors: Span, touching: &[&Grant]) -> Vec<Bounds> {
    let mut boxes = vec![[EVERYTHING[0], doors, EVERYTHING[2]]];
    for i in [0, touching.len() / 2, touching.len().saturating_sub(1)] {
        let Some(own) = touching.get(i).and_then(|grant| clipped(&grant.bounds, doors)) else {
            continue;
        };
        let beside = ENDS.iter().flat_map(|end| [false, true].map(|outward| one_off(&own, *end, outward)));
        boxes.extend(std::iter::once(own).chain(beside.flatten()));
    }
    boxes.retain(|asked| doors.0 <= asked[DOORS].0 && asked[DOORS].1 <= doors.1);
    boxes
}

/// The part of a box that lies inside some doors.
fn clipped(bounds: &Bounds, doors: Span) -> Option<Bounds> {
    let [staff, own, quarters] = *bounds;
    let both = (own.0.max(doors.0), own.1.min(doors.1));
    (both.0 <= both.1).then_some([staff, both, quarters])
}

/// Whether a bank gives head office's list of a box: the same answer, and the same numbers.
fn list_alike(office: &mut Product, bank: &mut Product, asked: &Bounds, choice: Choice) -> Result<(), String> {
    let list = Call::List(*asked, choice, usize::from(office.words()[0]));
    let (right, seen) = (office.make(&list), bank.make(&list));
    match (right.answer, &right.lent) == (seen.answer, &seen.lent) {
        true => Ok(()),
        false => Err(format!("{list}: head office answers {:?}, a bank {:?}", right.answer, seen.answer)),
    }
}

/// Whether a bank that lacks a grant is told from one that has it, under each choice: a comparison that could not fail would show nothing.
pub fn notices_a_lack() -> bool {
    let grant = Grant { number: 1, rank: 200, kind: 1, bounds: [(5, 9), (5, 9), (5, 9)] };
    let mut office = Product::new(&fresh(1));
    let granted = office.make(&Call::Grant(grant)).answer == Answer::Done;
    let Some(mut bank) = bank_of(&mut office, (5, 9), 1) else {
        return false;
    };
    let mut alike = |bank: &mut Product| CHOICES.map(|choice| list_alike(&mut office, bank, &grant.bounds, choice).is_ok());
    let whole = alike(&mut bank);
    let revoked = bank.make(&Call::Revoke(1)).answer == Answer::Done;
    granted && whole == [true; 2] && revoked && alike(&mut bank) == [false; 2]
}
