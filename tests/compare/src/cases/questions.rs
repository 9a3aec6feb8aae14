//! What is asked of every index of a set: lists of boxes at and beside the ends of grants, decisions where ranks tie, files of doors at and
//! beside those of grants. How much is to be lent, the first index of the set says.

use crate::cases::boxes::all_near;
use crate::cases::random::Random;
use crate::cases::styles::Style;
use crate::interface::answer::{Answer, Fault};
use crate::interface::call::Call;
use crate::interface::choice::CHOICES;
use crate::interface::grant::{Bounds, Grant, Span, DOORS, EVERYTHING, LAST_COVERED, LAST_QUARTER};
use crate::interface::index::Index;
use crate::oracle::overlap::boxes_overlap;
use crate::oracle::wrong::Wrong;

/// How many grants of a set the boxes, points and doors are near to.
const NEAR: usize = 4;

/// Lists, decisions and files.
pub fn questions(random: &mut Random, style: Style, set: &[Grant], index: &mut dyn Index) -> Vec<Call> {
    let near: Vec<Grant> = random.shuffled(set).into_iter().take(NEAR).collect();
    let mut calls = lists(random, style, &near, index);
    calls.extend(decisions(random, style, &near, set));
    calls.extend(files(random, &near, index));
    calls
}

/// How much a list or a file needs, as an index says that is lent nothing; 0 where it answers otherwise.
fn needed(index: &mut dyn Index, without_room: &Call) -> usize {
    match index.make(without_room).answer {
        Answer::Refused(Fault { number: 8 | 14, value }) => value as usize,
        _ => 0,
    }
}

/// Nothing, one too short, just enough, and more.
fn lengths(random: &mut Random, needed: usize) -> Vec<usize> {
    let mut lengths = vec![0, needed.saturating_sub(1), needed, needed + 1 + random.below(40)];
    lengths.dedup();
    lengths
}

fn lists(random: &mut Random, style: Style, near: &[Grant], index: &mut dyn Index) -> Vec<Call> {
    let mut boxes = vec![EVERYTHING, style.bounds(random), style.bounds(random)];
    boxes.extend(near.iter().flat_map(|grant| all_near(random, &grant.bounds)));
    boxes.extend(refused_boxes(&style.bounds(random)));
    let mut calls = Vec::new();
    for (asked, choice) in boxes.iter().flat_map(|asked| CHOICES.map(|choice| (*asked, choice))) {
        let needed = needed(index, &Call::List(asked, choice, 0));
        calls.extend(lengths(random, needed).into_iter().map(|lent| Call::List(asked, choice, lent)));
    }
    calls
}

/// A box with each span reversed, and with equal quarters.
fn refused_boxes(bounds: &Bounds) -> [Bounds; 4] {
    let [staff, doors, quarters] = *bounds;
    let reversed = |span: Span| (span.1 | 1, span.1 & 0xFFFE);
    [
        [reversed(staff), doors, quarters],
        [staff, reversed(doors), quarters],
        [staff, doors, reversed(quarters)],
        [staff, doors, (quarters.0, quarters.0)],
    ]
}

/// Points at all ends of grants, at the last quarters, where grants of equal rank meet, and any.
fn decisions(random: &mut Random, style: Style, near: &[Grant], set: &[Grant]) -> Vec<Call> {
    let mut points: Vec<[u16; 3]> = near.iter().flat_map(|grant| points_of(&grant.bounds)).collect();
    points.extend(near.iter().flat_map(|grant| meeting_points(grant, set)));
    points.extend((0..NEAR).map(|_| style.point(random)));
    points.into_iter().map(Call::Decide).collect()
}

/// The first and the last staff number and door, each at the first and the last quarter covered, right behind it, and at the last two.
fn points_of(bounds: &Bounds) -> Vec<[u16; 3]> {
    let [staff, doors, quarters] = *bounds;
    let times = [quarters.0, quarters.1 - 1, quarters.1, LAST_COVERED, LAST_QUARTER];
    let at = move |quarter| {
        [staff.0, staff.1].into_iter().flat_map(move |staff| [doors.0, doors.1].map(move |door| [staff, door, quarter]))
    };
    times.into_iter().flat_map(at).collect()
}

/// Where the boxes of some grants of a grant's rank begin to overlap its own.
fn meeting_points(grant: &Grant, set: &[Grant]) -> Vec<[u16; 3]> {
    let is_equal = |other: &&Grant| other.number != grant.number && other.rank == grant.rank;
    let meets = |other: &&Grant| boxes_overlap(&other.bounds, &grant.bounds, Wrong::Nothing);
    let first_both = |other: &Grant| [0, 1, 2].map(|axis| grant.bounds[axis].0.max(other.bounds[axis].0));
    set.iter().filter(is_equal).filter(meets).take(NEAR).map(first_both).collect()
}

fn files(random: &mut Random, near: &[Grant], index: &mut dyn Index) -> Vec<Call> {
    let ends = [EVERYTHING[DOORS], (0, 0), (65535, 65535), (1, 0), (65535, 0)];
    let doors = ends.into_iter().chain(near.iter().flat_map(|grant| doors_near(grant.bounds[DOORS])));
    let mut calls = Vec::new();
    for asked in doors {
        let needed = needed(index, &Call::Write(asked, 0));
        calls.extend(lengths(random, needed).into_iter().map(|lent| Call::Write(asked, lent)));
    }
    calls
}

/// Doors, the first of them and the last alone, the two beside them, and more with either; reversed ones where they are two at least.
fn doors_near(doors: Span) -> Vec<Span> {
    let (first, last) = doors;
    let (before, behind) = (first.saturating_sub(1), last.saturating_add(1));
    vec![doors, (first, first), (last, last), (before, before), (behind, behind), (before, first), (last, behind), (last, first)]
}
