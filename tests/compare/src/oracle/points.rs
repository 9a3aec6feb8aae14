//! Card 4 read a second time, by single points of staff, door and quarter: of small boxes, and of all that a cell can hold there, at both
//! ends of the values.

use crate::interface::grant::{Bounds, Span};
use crate::oracle::arguments::is_reversed;
use crate::oracle::overlap::box_holds;
use crate::oracle::relation::{relation, Relation};
use crate::oracle::tree::{holds, point_of, range_of};
use crate::oracle::wrong::{Wrong, ALL};

/// The values of an axis: so many, from each of these on.
const VALUES: u16 = 3;
const FIRST_VALUES: [u16; 2] = [0, 65535 - (VALUES - 1)];

/// What is not as the points have it.
pub fn failing() -> Vec<String> {
    let mut failing = Vec::new();
    if !pairs().all(|(cell, asked)| agrees(&cell, &asked, Wrong::Nothing)) {
        failing.push("touching and holding by points".to_string());
    }
    // A reading by points that could not fail would show nothing.
    let unnoticed =
        ALL.into_iter().filter(|wrong| is_of_holding(*wrong) && pairs().all(|(cell, asked)| agrees(&cell, &asked, *wrong)));
    failing.extend(unnoticed.map(|wrong| format!("points that don't notice {wrong:?}")));
    if !pairs().all(|(cell, asked)| is_alike_in_any_order(&cell, &asked)) || !apart_comes_first() {
        failing.push("apart tested first".to_string());
    }
    failing
}

/// Every cell beside every box that fault 2 lets through.
fn pairs() -> impl Iterator<Item = (Bounds, Bounds)> {
    FIRST_VALUES.into_iter().flat_map(|first| {
        let asked = boxes(first).filter(|asked| !is_reversed(asked, Wrong::Nothing));
        asked.flat_map(move |asked| boxes(first).map(move |cell| (cell, asked)))
    })
}

/// Every box of these values, also those that are reversed or cover nothing.
fn boxes(first: u16) -> impl Iterator<Item = Bounds> {
    spans(first)
        .flat_map(move |staff| spans(first).flat_map(move |doors| spans(first).map(move |quarters| [staff, doors, quarters])))
}

fn spans(first: u16) -> impl Iterator<Item = Span> {
    let values = first..=first + (VALUES - 1);
    values.clone().flat_map(move |from| values.clone().map(move |to| (from, to)))
}

/// The single points of a box.
fn points(asked: &Bounds) -> impl Iterator<Item = [u16; 3]> {
    let [staff, doors, quarters] = *asked;
    (staff.0..=staff.1).flat_map(move |at_staff| {
        (doors.0..=doors.1)
            .flat_map(move |at_door| (quarters.0..quarters.1).map(move |at_quarter| [at_staff, at_door, at_quarter]))
    })
}

/// A cell holds a box exactly if each of its points is the cell's. A grant is apart from it exactly if none is; and a cell is apart from it
/// exactly if it is not in the search range.
fn agrees(cell: &Bounds, asked: &Bounds, wrong: Wrong) -> bool {
    let seen = relation(cell, asked, wrong);
    let covered = |point| box_holds(cell, point, Wrong::Nothing);
    let held = (seen == Relation::Holds) == points(asked).all(covered);
    let touched = is_reversed(cell, Wrong::Nothing) || (seen != Relation::Apart) == points(asked).any(covered);
    let found = (seen != Relation::Apart) == holds(&range_of(asked, Wrong::Nothing), &point_of(1, cell));
    held && touched && found
}

/// Whether a wrong version has another reading of holding.
fn is_of_holding(wrong: Wrong) -> bool {
    matches!(
        wrong,
        Wrong::HoldingOnDoorsAndQuarters
            | Wrong::HoldingOnStaffAndQuarters
            | Wrong::HoldingOnStaffAndDoors
            | Wrong::BoxHoldsTheGrant
            | Wrong::ReversedCellsHold
            | Wrong::HoldingStrictAt(_)
            | Wrong::HoldingLooseAt(_)
    )
}

/// Of a box that fault 2 lets through, no cell shows whether apart is tested first: no list can.
fn is_alike_in_any_order(cell: &Bounds, asked: &Bounds) -> bool {
    relation(cell, asked, Wrong::Nothing) == relation(cell, asked, Wrong::HoldsTestedFirst)
}

/// Of boxes that fault 2 refuses, some show it: their ends lie inside a grant that is apart from them.
fn apart_comes_first() -> bool {
    let grant = [(5, 6), (5, 6), (5, 9)];
    let refused = [[(8, 3), (5, 6), (5, 9)], [(5, 6), (8, 3), (5, 9)], [(5, 6), (5, 6), (5, 5)], [(5, 6), (5, 6), (9, 9)]];
    refused.iter().all(|asked| {
        relation(&grant, asked, Wrong::Nothing) == Relation::Apart
            && relation(&grant, asked, Wrong::HoldsTestedFirst) == Relation::Holds
            && is_reversed(asked, Wrong::Nothing)
    })
}
