//! The faults of a call's arguments (document 01, "Faults"; document 02, cards 2 and 3).

use crate::interface::answer::{fault, Fault};
use crate::interface::call::Call;
use crate::interface::grant::{Bounds, Span, DOORS};
use crate::oracle::wrong::Wrong;

/// The fault of the arguments, in the documents' order: 3, 4, 2, and of a grant 16.
pub fn argument_fault(call: &Call, wrong: Wrong) -> Option<Fault> {
    let (number, kind) = match call {
        Call::Grant(grant) => (grant.number, grant.kind),
        Call::Revoke(number) => (*number, 0),
        _ => (1, 0),
    };
    if wrong == Wrong::BoxBeforeNumber && has_reversed_range(call, wrong) {
        return Some(fault(2));
    }
    if number == 0 {
        return Some(fault(3));
    }
    if kind > 1 {
        return Some(fault(4));
    }
    if wrong == Wrong::WideBeforeTheBox && is_too_wide(call, wrong) {
        return Some(fault(16));
    }
    if has_reversed_range(call, wrong) {
        return Some(fault(2));
    }
    is_too_wide(call, wrong).then_some(fault(16))
}

/// Whether a call asks for a grant whose rank is too low for its doors.
pub fn is_too_wide(call: &Call, wrong: Wrong) -> bool {
    matches!(call, Call::Grant(grant) if rank_too_low(grant.rank, grant.bounds[DOORS], wrong))
}

/// Whether a rank is too low for doors: below 200 for more than 1,000 of them, both ends counted.
pub fn rank_too_low(rank: u8, doors: Span, wrong: Wrong) -> bool {
    let count = 1 + i32::from(doors.1) - i32::from(doors.0);
    let is_wide = match wrong {
        Wrong::ThousandDoorsAreWide => count >= 1000,
        Wrong::DoorsCountedBetweenTheEnds => count - 1 > 1000,
        _ => count > 1000,
    };
    let is_low = match wrong {
        Wrong::RankTwoHundredIsLow => rank <= 200,
        _ => rank < 200,
    };
    is_wide && is_low
}

/// Whether a call's box, or write's doors, are reversed.
fn has_reversed_range(call: &Call, wrong: Wrong) -> bool {
    match call {
        Call::Grant(grant) => is_reversed(&grant.bounds, wrong),
        Call::List(bounds, ..) => is_reversed(bounds, wrong),
        Call::Write(doors, _) if wrong == Wrong::WriteOfOneDoorRefused => doors.0 >= doors.1,
        Call::Write(doors, _) => doors.0 > doors.1,
        _ => false,
    }
}

/// Whether staff or doors have their from above their to, or quarters have it not below.
pub fn is_reversed(bounds: &Bounds, wrong: Wrong) -> bool {
    let [staff, doors, quarters] = *bounds;
    let doors_reversed = match wrong {
        Wrong::BoxesOfOneDoorRefused => doors.0 >= doors.1,
        _ => doors.0 > doors.1,
    };
    let quarters_reversed = match wrong {
        Wrong::BoxesWithEqualQuartersTaken => quarters.0 > quarters.1,
        _ => quarters.0 >= quarters.1,
    };
    staff.0 > staff.1 || doors_reversed || quarters_reversed
}

/// Whether 2 comes only since a box's two quarters are equal.
pub fn is_reversed_by_equal_quarters(call: &Call) -> bool {
    has_reversed_range(call, Wrong::Nothing) && !has_reversed_range(call, Wrong::BoxesWithEqualQuartersTaken)
}
