//! Points, ranges and regions on seven axes (document 01, "Boxes as points" and "The tree"; document 02, card 2).

use crate::interface::grant::{Bounds, Grant, Span, EVERYTHING, LAST_QUARTER};
use crate::oracle::layout::cell_words;
use crate::oracle::wrong::Wrong;

/// Staff from, door from, quarter from, staff to, door to, quarter to, number.
pub type Point = [u16; 7];
/// A low and a high on each axis; both ends count.
pub type Region = [Span; 7];

pub const WHOLE: Region = [(0, 65535); 7];
pub const QUARTER_FROM: usize = 2;
pub const QUARTER_TO: usize = 5;
/// A region at this level is a single point.
pub const DEEPEST: usize = 112;

pub fn point_of(number: u16, bounds: &Bounds) -> Point {
    let [staff, doors, quarters] = *bounds;
    [staff.0, doors.0, quarters.0, staff.1, doors.1, quarters.1, number]
}

/// The point that a cell's words say.
pub fn point_in(words: &[u16], cell: u16) -> Point {
    let cell = cell_words(words, cell);
    [cell[4], cell[6], cell[8], cell[5], cell[7], cell[9], cell[2]]
}

/// The box that a cell's words say.
pub fn bounds_in(words: &[u16], cell: u16) -> Bounds {
    let cell = cell_words(words, cell);
    Grant::bounds_of([cell[4], cell[5], cell[6], cell[7], cell[8], cell[9]])
}

/// The search range of a box: a quarter from below the box's to, a quarter to above its from. Both bounds are 0 to 65535 for a box without
/// fault 2; a wrong version asks with others.
pub fn range_of(bounds: &Bounds, wrong: Wrong) -> Region {
    let [staff, doors, quarters] = *bounds;
    let end = 65535;
    let highest_from = match wrong {
        Wrong::AskedQuartersClosed => quarters.1,
        _ => quarters.1.saturating_sub(1),
    };
    let lowest_to = match wrong {
        Wrong::GrantedQuartersClosed => quarters.0,
        _ => quarters.0.saturating_add(1),
    };
    [(0, staff.1), (0, doors.1), (0, highest_from), (staff.0, end), (doors.0, end), (lowest_to, end), (0, end)]
}

/// The search range of a point, about its quarter alone; none at 65535, where nothing is walked.
pub fn range_of_point(point: [u16; 3], wrong: Wrong) -> Option<Region> {
    let [staff, door, quarter] = point;
    let mut range = range_of(&[(staff, staff), (door, door), (0, 65535)], wrong);
    range[QUARTER_FROM] = (0, quarter);
    range[QUARTER_TO] = match wrong {
        Wrong::LastQuarterWalked => (quarter.saturating_add(1), 65535),
        Wrong::LastQuarterWraps => (quarter.wrapping_add(1), 65535),
        _ if quarter == LAST_QUARTER => return None,
        _ => (quarter + 1, 65535),
    };
    Some(range)
}

/// A number, all other axes free.
pub fn range_of_number(number: u16) -> Region {
    let mut range = WHOLE;
    range[6] = (number, number);
    range
}

/// Doors, the staff and quarter axes free: also for cells whose quarters no box overlaps.
pub fn range_of_doors(doors: Span, wrong: Wrong) -> Region {
    let mut range = match wrong {
        Wrong::DoorsAskedWithQuarters => range_of(&EVERYTHING, wrong),
        _ => WHOLE,
    };
    range[1].1 = doors.1;
    range[4].0 = doors.0;
    range
}

pub fn holds(range: &Region, point: &Point) -> bool {
    range.iter().zip(point).all(|(span, at)| span.0 <= *at && *at <= span.1)
}

pub fn meets(a: &Region, b: &Region) -> bool {
    a.iter().zip(b).all(|(a, b)| a.0 <= b.1 && a.1 >= b.0)
}

/// The lower and the upper half of a region at a level.
pub fn halves(region: &Region, level: usize) -> (Region, Region) {
    let axis = level % 7;
    let (low, high) = region[axis];
    let middle = low + (high - low) / 2;
    let (mut lower, mut upper) = (*region, *region);
    lower[axis].1 = middle;
    upper[axis].0 = middle + 1;
    (lower, upper)
}

/// Whether the lower half at a level holds the point.
pub fn goes_left(point: &Point, region: &Region, level: usize, wrong: Wrong) -> bool {
    let axis = level % 7;
    let (lower, _) = halves(region, level);
    match wrong {
        Wrong::MiddleGoesRight => point[axis] < lower[axis].1,
        _ => point[axis] <= lower[axis].1,
    }
}
