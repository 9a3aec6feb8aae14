//! Which calls are refused on any words of a pool's length and first word (document 01, "The tree"): 9 by the walks, 5 to 8 and 14
//! by their hits. What an accepted call answers there is free.

use crate::interface::answer::{fault, Fault};
use crate::interface::call::Call;
use crate::interface::choice::Choice;
use crate::interface::grant::{Bounds, Grant};
use crate::oracle::file::{blocks_for, BLOCK};
use crate::oracle::judge::Contents;
use crate::oracle::relation::{count_needed, relation, takes, Relation};
use crate::oracle::tree::{
    bounds_in, point_in, point_of, range_of, range_of_doors, range_of_number, range_of_point, Region, QUARTER_FROM, QUARTER_TO,
    WHOLE,
};
use crate::oracle::walks::{free_cell, keep_once, removal, search, search_until_nine, way_down, Hit, Nine};
use crate::oracle::wrong::Wrong;

/// A fault, and its cause in words: for 9 the walk that met it.
pub type Refusal = (Fault, String);

fn nine(nine: Nine) -> Refusal {
    (fault(9), format!(" {}: {}", nine.walk, nine.cause))
}

fn refuse(number: u8, value: usize) -> Result<(), Refusal> {
    Err((Fault { number, value: value as u32 }, " on a scrambled pool".to_string()))
}

/// The refusal of a call whose arguments, pool length, first word and file have no fault.
pub fn refusal(words: &[u16], call: &Call, file: Option<&Contents>, wrong: Wrong) -> Result<(), Refusal> {
    let hits = |range| search(words, &range, wrong).map(|hits| hits.len()).map_err(nine);
    match call {
        Call::Grant(grant) => grant_refusal(words, grant, wrong),
        Call::Revoke(number) => revoke_refusal(words, *number, wrong),
        Call::List(bounds, choice, lent) => list_refusal(words, bounds, *choice, *lent, wrong),
        Call::Decide(point) => range_of_point(*point, wrong).map_or(Ok(()), |range| hits(range).map(|_| ())),
        Call::Write(doors, lent) => match BLOCK * blocks_for(hits(range_of_doors(*doors, wrong))?) {
            needed if needed > *lent => refuse(14, needed),
            _ => Ok(()),
        },
        Call::Match(_) => hits(file.map_or(WHOLE, |file| range_of_doors(file.doors, wrong))).map(|_| ()),
        Call::Count => hits(WHOLE).map(|_| ()),
        _ => unreachable!("start, load and block read don't walk"),
    }
}

/// Number found: 5 after the search alone. Otherwise the way down and the free cell before 6.
fn grant_refusal(words: &[u16], grant: &Grant, wrong: Wrong) -> Result<(), Refusal> {
    if !search(words, &range_of_number(grant.number), wrong).map_err(nine)?.is_empty() {
        return refuse(5, 0);
    }
    if wrong == Wrong::FullBeforeTheWayDown && !free_cell(words, wrong).unwrap_or(true) {
        return refuse(6, 0);
    }
    way_down(words, &point_of(grant.number, &grant.bounds), wrong).map_err(nine)?;
    match free_cell(words, wrong).map_err(nine)? {
        true => Ok(()),
        false => refuse(6, 0),
    }
}

/// The first hit of the search is the one that the removal walk starts at.
fn revoke_refusal(words: &[u16], number: u16, wrong: Wrong) -> Result<(), Refusal> {
    match search(words, &range_of_number(number), wrong).map_err(nine)?.first() {
        Some(hit) => removal(words, *hit, wrong).map_err(nine),
        None => refuse(7, 0),
    }
}

/// 9 goes by the walk, 8 by the cells that the choice takes.
fn list_refusal(words: &[u16], bounds: &Bounds, choice: Choice, lent: usize, wrong: Wrong) -> Result<(), Refusal> {
    let (touching, cause) = list_walk(words, bounds, choice, wrong);
    let taken = taken_of(&touching, words, bounds, choice, wrong);
    let by_room = match wrong {
        Wrong::EightByTouchingOnScrambledPools => Wrong::EightByTouching,
        Wrong::CountByTouchingOnScrambledPools => Wrong::CountByTouching,
        _ => wrong,
    };
    let needed = count_needed(choice, taken.len(), touching.len(), lent, by_room);
    let is_nine_first = wrong != Wrong::HoldingEightBeforeNine || choice == Choice::Touching;
    match (cause, needed) {
        (Some(cause), None) => Err(nine(cause)),
        (Some(cause), _) if is_nine_first => Err(nine(cause)),
        (_, Some(needed)) => refuse(8, needed).map_err(|(fault, cause)| (fault, cause + odd_quarters_in(words, &taken))),
        (None, None) => Ok(()),
    }
}

/// List's walk, the same under either choice: the cells that touch the box, each as often as it is met, until a cause of 9 ends it. A cell
/// whose quarters are equal or reversed can touch a box.
pub fn list_walk(words: &[u16], bounds: &Bounds, choice: Choice, wrong: Wrong) -> (Vec<Hit>, Option<Nine>) {
    let (range, also) = match (wrong, choice) {
        (Wrong::QuartersEnteredAsClosed, _) => (range_of(bounds, wrong), Some(range_of(bounds, Wrong::AskedQuartersClosed))),
        (Wrong::HoldingWalksEverything, Choice::Holding) => (range_of(bounds, wrong), Some(WHOLE)),
        (Wrong::HoldingWalksItsOwnRange, Choice::Holding) => (range_of_holding(bounds), None),
        _ => (range_of(bounds, wrong), None),
    };
    let also_met = also.and_then(|range| search(words, &range, wrong).err());
    let (mut hits, cause) = search_until_nine(words, &range, wrong);
    match wrong {
        Wrong::CellsWithEqualQuartersLeftOut => hits.retain(|hit| !has_equal_quarters(words, hit)),
        Wrong::CellsWithReversedQuartersLeftOut => hits.retain(|hit| !has_reversed_quarters(words, hit)),
        _ => {}
    }
    (hits, also_met.or(cause))
}

/// How many cells list takes before its walk ends.
pub fn list_hits(words: &[u16], bounds: &Bounds, choice: Choice) -> usize {
    taken_of(&list_walk(words, bounds, choice, Wrong::Nothing).0, words, bounds, choice, Wrong::Nothing).len()
}

/// The points of the grants that hold a box: a part of its search range.
fn range_of_holding(bounds: &Bounds) -> Region {
    let [staff, doors, quarters] = *bounds;
    let end = 65535;
    [(0, staff.0), (0, doors.0), (0, quarters.0), (staff.1, end), (doors.1, end), (quarters.1, end), (0, end)]
}

/// Of the cells that a walk has found, those that the choice takes. The walk's range and the test of a grant against a box are one
/// reading: no cell that it finds is apart.
fn taken_of(touching: &[Hit], words: &[u16], bounds: &Bounds, choice: Choice, wrong: Wrong) -> Vec<Hit> {
    let relation_of = |hit: &Hit| relation(&bounds_in(words, hit.cell), bounds, wrong);
    if wrong == Wrong::Nothing {
        assert!(touching.iter().all(|hit| relation_of(hit) != Relation::Apart), "range and test of {bounds:?}");
    }
    let mut taken: Vec<Hit> = touching.iter().filter(|hit| takes(choice, relation_of(hit), wrong)).copied().collect();
    if wrong == Wrong::HoldingCountsACellOnce && choice == Choice::Holding {
        keep_once(&mut taken);
    }
    taken
}

/// That hits have quarters that no grant has.
fn odd_quarters_in(words: &[u16], hits: &[Hit]) -> &'static str {
    if hits.iter().any(|hit| has_equal_quarters(words, hit)) {
        ", a hit with equal quarters"
    } else if hits.iter().any(|hit| has_reversed_quarters(words, hit)) {
        ", a hit with reversed quarters"
    } else {
        ""
    }
}

fn has_equal_quarters(words: &[u16], hit: &Hit) -> bool {
    let point = point_in(words, hit.cell);
    point[QUARTER_FROM] == point[QUARTER_TO]
}

fn has_reversed_quarters(words: &[u16], hit: &Hit) -> bool {
    let point = point_in(words, hit.cell);
    point[QUARTER_FROM] > point[QUARTER_TO]
}
