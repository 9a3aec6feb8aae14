//! How a grant lies to a box, and which grants list takes (document 02, card 4).

use crate::interface::choice::Choice;
use crate::interface::grant::{Bounds, End, Span, ENDS};
use crate::oracle::overlap::boxes_overlap;
use crate::oracle::wrong::Wrong;

#[derive(Clone, Copy, Debug, PartialEq, Eq)]
pub enum Relation {
    Apart,
    Touches,
    Holds,
}

/// How a grant, or what any cell holds, lies to a box. Apart is tested first, whatever the two are.
pub fn relation(grant: &Bounds, asked: &Bounds, wrong: Wrong) -> Relation {
    let overlap = boxes_overlap(grant, asked, wrong) || wrong == Wrong::HoldsTestedFirst && lies_inside(grant, asked, wrong);
    match overlap {
        false => Relation::Apart,
        true if lies_inside(grant, asked, wrong) => Relation::Holds,
        true => Relation::Touches,
    }
}

/// Whether the box lies inside the grant on staff, doors and quarters.
fn lies_inside(grant: &Bounds, asked: &Bounds, wrong: Wrong) -> bool {
    let (outer, inner) = match wrong {
        Wrong::BoxHoldsTheGrant => (*asked, *grant),
        Wrong::ReversedCellsHold => (grant.map(in_order), *asked),
        _ => (*grant, *asked),
    };
    ENDS.iter().all(|end| is_left_out(*end, wrong) || end_lies_inside(*end, &outer, &inner, wrong))
}

/// Whether the inner box's from is not below the outer's, or its to not above.
fn end_lies_inside(end: End, outer: &Bounds, inner: &Bounds, wrong: Wrong) -> bool {
    let (lower, higher) = match end.is_from() {
        true => (end.of(outer), end.of(inner)),
        false => (end.of(inner), end.of(outer)),
    };
    match wrong {
        Wrong::HoldingStrictAt(strict) if strict == end => lower < higher,
        Wrong::HoldingLooseAt(loose) if loose == end => lower <= higher.saturating_add(1),
        _ => lower <= higher,
    }
}

fn is_left_out(end: End, wrong: Wrong) -> bool {
    match end {
        End::StaffFrom | End::StaffTo => wrong == Wrong::HoldingOnDoorsAndQuarters,
        End::DoorFrom | End::DoorTo => wrong == Wrong::HoldingOnStaffAndQuarters,
        End::QuarterFrom | End::QuarterTo => wrong == Wrong::HoldingOnStaffAndDoors,
    }
}

fn in_order(span: Span) -> Span {
    (span.0.min(span.1), span.0.max(span.1))
}

/// Whether a choice takes a grant that lies so to the box.
pub fn takes(choice: Choice, relation: Relation, wrong: Wrong) -> bool {
    match (relation, choice) {
        (Relation::Apart, _) => false,
        (Relation::Touches, Choice::Holding) => wrong == Wrong::TouchingListedUnderHolding,
        (Relation::Holds, Choice::Touching) => wrong != Wrong::HoldingNotTouching,
        _ => true,
    }
}

/// The count that comes with 8, where a list has no room for those that its choice takes; how many touch stands beside.
pub fn count_needed(choice: Choice, taken: usize, touching: usize, lent: usize, wrong: Wrong) -> Option<usize> {
    let (tested, told) = match (choice, wrong) {
        (Choice::Holding, Wrong::EightByTouching) => (touching, taken),
        (Choice::Holding, Wrong::CountByTouching) => (taken, touching),
        _ => (taken, taken),
    };
    (tested > lent).then_some(told)
}
