//! When boxes overlap (document 01, "Boxes as points"; document 02, card 2).

use crate::interface::grant::{Bounds, Span, LAST_QUARTER};
use crate::oracle::wrong::Wrong;

/// Whether two closed spans, of staff or of doors, share a value (001, condition 5).
pub fn spans_overlap(a: Span, b: Span, wrong: Wrong) -> bool {
    match wrong {
        Wrong::EndsOutsideTheBox => a.0 < b.1 && a.1 > b.0,
        _ => a.0 <= b.1 && a.1 >= b.0,
    }
}

/// Whether a grant's quarters and those that are asked for overlap: either begins before the other is over.
fn quarters_overlap(grant: Span, asked: Span, wrong: Wrong) -> bool {
    match wrong {
        Wrong::AskedQuartersClosed => grant.0 <= asked.1 && asked.0 < grant.1,
        Wrong::GrantedQuartersClosed => grant.0 < asked.1 && asked.0 <= grant.1,
        _ => grant.0 < asked.1 && asked.0 < grant.1,
    }
}

/// Whether a grant covers a quarter.
fn quarters_cover(grant: Span, quarter: u16, wrong: Wrong) -> bool {
    let (from, to) = grant;
    match wrong {
        Wrong::GrantedQuartersClosed => from <= quarter && quarter <= to,
        Wrong::DecideAsksNoQuarter => from < quarter && quarter < to,
        Wrong::DecideAsksTwoQuarters => from <= quarter.saturating_add(1) && quarter < to,
        Wrong::LastQuarterWraps if quarter == LAST_QUARTER => true,
        _ => from <= quarter && quarter < to,
    }
}

/// Whether a grant's box overlaps one that is asked for.
pub fn boxes_overlap(grant: &Bounds, asked: &Bounds, wrong: Wrong) -> bool {
    let ([staff, doors, quarters], [asked_staff, asked_doors, asked_quarters]) = (*grant, *asked);
    spans_overlap(staff, asked_staff, wrong)
        && spans_overlap(doors, asked_doors, wrong)
        && quarters_overlap(quarters, asked_quarters, wrong)
}

/// Whether a grant's box holds a point: a staff number, a door, a quarter.
pub fn box_holds(grant: &Bounds, point: [u16; 3], wrong: Wrong) -> bool {
    let ([staff, doors, quarters], [at_staff, at_door, at_quarter]) = (*grant, point);
    spans_overlap(staff, (at_staff, at_staff), wrong)
        && spans_overlap(doors, (at_door, at_door), wrong)
        && quarters_cover(quarters, at_quarter, wrong)
}
