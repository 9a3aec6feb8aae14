//! Boxes to list, near one that a grant or a cell has: its own, one off at an end, inside it, held on two axes of three.

use crate::cases::random::Random;
use crate::interface::grant::{Bounds, End, Span, DOORS, ENDS, QUARTERS, STAFF};
use crate::oracle::arguments::is_reversed;
use crate::oracle::wrong::Wrong;

/// One of the boxes near another.
pub fn near(random: &mut Random, bounds: &Bounds) -> Bounds {
    let axis = random.below(3);
    match random.below(4) {
        0 => *bounds,
        1 => one_off(bounds, random.pick(&ENDS), random.one_in(2)).unwrap_or(*bounds),
        2 => held_on_two(random, bounds, axis).unwrap_or(*bounds),
        _ => inside(random, bounds),
    }
}

/// The box, each that is one off at an end, and one for each two axes on which it holds them.
pub fn all_near(random: &mut Random, bounds: &Bounds) -> Vec<Bounds> {
    let one_off = ENDS.iter().flat_map(|end| [false, true].map(|outward| one_off(bounds, *end, outward)));
    let held = [STAFF, DOORS, QUARTERS].map(|axis| held_on_two(random, bounds, axis));
    std::iter::once(Some(*bounds)).chain(one_off).chain(held).flatten().collect()
}

/// The box with an end moved by one; none where there is no such value, or where fault 2 comes.
pub fn one_off(bounds: &Bounds, end: End, outward: bool) -> Option<Bounds> {
    let value = match end.is_from() == outward {
        true => end.of(bounds).checked_sub(1)?,
        false => end.of(bounds).checked_add(1)?,
    };
    let moved = end.put(bounds, value);
    (!is_reversed(&moved, Wrong::Nothing)).then_some(moved)
}

/// A box inside another but for one axis, on which it ends outside; none where the other has all values there.
fn held_on_two(random: &mut Random, bounds: &Bounds, axis: usize) -> Option<Bounds> {
    let mut asked = inside(random, bounds);
    asked[axis] = outside(random, bounds[axis])?;
    Some(asked)
}

/// A span that ends before another or behind it, and has the other end with it.
fn outside(random: &mut Random, span: Span) -> Option<Span> {
    let (below, above) = (usize::from(span.0), usize::from(65535 - span.1));
    let before = (below > 0).then(|| (random.below(below) as u16, span.1));
    let behind = (above > 0).then(|| (span.0, span.1 + 1 + random.below(above) as u16));
    match random.one_in(2) {
        true => before.or(behind),
        false => behind.or(before),
    }
}

/// A box inside another.
fn inside(random: &mut Random, bounds: &Bounds) -> Bounds {
    let [staff, doors, quarters] = *bounds;
    [part(random, staff, 0), part(random, doors, 0), part(random, quarters, 1)]
}

/// A part of a span, its ends at least so far apart; the span itself where its own are not.
fn part(random: &mut Random, span: Span, apart: u16) -> Span {
    let Some(room) = span.1.checked_sub(span.0).and_then(|length| length.checked_sub(apart)) else {
        return span;
    };
    let from = span.0 + random.below(usize::from(room) + 1) as u16;
    (from, from + apart + random.below(usize::from(span.1 - from - apart) + 1) as u16)
}
