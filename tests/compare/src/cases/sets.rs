//! Sets of grants, and others that differ from one in a single thing of a single grant.

use crate::cases::random::Random;
use crate::cases::styles::{make_senior, Style};
use crate::interface::call::Call;
use crate::interface::grant::{End, Grant, DOORS};
use crate::oracle::arguments::argument_fault;
use crate::oracle::wrong::Wrong;
use std::fmt;

/// A field of a grant.
#[derive(Clone, Copy)]
pub enum Field {
    Number,
    Rank,
    Kind,
    At(End),
}

impl fmt::Display for Field {
    fn fmt(&self, f: &mut fmt::Formatter<'_>) -> fmt::Result {
        match self {
            Field::Number => write!(f, "number"),
            Field::Rank => write!(f, "rank"),
            Field::Kind => write!(f, "kind"),
            Field::At(end) => write!(f, "{end:?}"),
        }
    }
}

/// The fields of a grant but its number.
pub const FIELDS: [Field; 8] = [
    Field::Rank,
    Field::Kind,
    Field::At(End::StaffFrom),
    Field::At(End::StaffTo),
    Field::At(End::DoorFrom),
    Field::At(End::DoorTo),
    Field::At(End::QuarterFrom),
    Field::At(End::QuarterTo),
];

/// How often a value is drawn before one of the style's, or near one, is given up.
const DRAWS: usize = 12;

/// A set of some size, ascending by number, that grant accepts on an index with room for it.
pub fn set_of_size(random: &mut Random, style: Style, size: usize) -> Vec<Grant> {
    let mut set = Vec::new();
    while set.len() < size {
        let grant = another(random, style, &set);
        insert(&mut set, grant);
    }
    set
}

fn insert(set: &mut Vec<Grant>, grant: Grant) {
    let place = set.partition_point(|other| other.number < grant.number);
    set.insert(place, grant);
}

/// The grant of a number in a set that is ascending by number.
pub fn of_number(set: &[Grant], number: u16) -> Option<&Grant> {
    set.binary_search_by_key(&number, |grant| grant.number).ok().map(|place| &set[place])
}

/// A grant of a number that a set doesn't have; often with the box, the box and the rank, or the doors of one there.
pub fn another(random: &mut Random, style: Style, set: &[Grant]) -> Grant {
    let mut grant = style.grant(random);
    if let Some(like) = random.any(set) {
        match random.below(5) {
            0 => grant.bounds = like.bounds,
            1 => (grant.bounds, grant.rank) = (like.bounds, like.rank),
            2 => grant.bounds[DOORS] = like.bounds[DOORS],
            _ => {}
        }
    }
    make_senior(&mut grant);
    Grant { number: free_number(random, style, set), ..grant }
}

/// A number that a set doesn't have: the style's, or any where the style has too few.
pub fn free_number(random: &mut Random, style: Style, set: &[Grant]) -> u16 {
    let is_free = |number: &u16| of_number(set, *number).is_none();
    let by_style = (0..DRAWS).map(|_| style.number(random)).find(is_free);
    by_style.unwrap_or_else(|| std::iter::repeat_with(|| random.word().max(1)).find(is_free).unwrap_or(1))
}

/// A grant with another value in one field, near its own, that grant accepts; none where none was drawn.
pub fn changed(random: &mut Random, grant: &Grant, field: Field) -> Option<Grant> {
    (0..DRAWS)
        .map(|_| with_other(random, grant, field))
        .find(|other| argument_fault(&Call::Grant(*other), Wrong::Nothing).is_none())
}

/// A grant with another value in one field: a bit or one off; of kind there is only one other.
fn with_other(random: &mut Random, grant: &Grant, field: Field) -> Grant {
    let bit = 1 << random.below(16);
    let mut near = |value: u16| random.pick(&[value ^ bit, value.wrapping_add(1), value.wrapping_sub(1)]);
    let mut other = *grant;
    match field {
        Field::Number => other.number = near(grant.number),
        Field::Rank => other.rank ^= 1 << random.below(8),
        Field::Kind => other.kind ^= 1,
        Field::At(end) => other.bounds = end.put(&grant.bounds, near(end.of(&grant.bounds))),
    }
    other
}

/// A set that differs from another in one grant.
pub struct OtherSet {
    /// In which thing, in words.
    pub what: String,
    /// The lowest number at which the two differ.
    pub number: u16,
    pub grants: Vec<Grant>,
}

/// A set with one grant more, one with one less, and one for each field of a grant that differs.
pub fn other_sets(random: &mut Random, style: Style, set: &[Grant]) -> Vec<OtherSet> {
    let more = another(random, style, set);
    let mut others = vec![exchanged(set, "one more".to_string(), None, Some(more))];
    let absent = random.any(set).map(|grant| exchanged(set, "one absent".to_string(), Some(grant), None));
    others.extend(absent);
    for field in FIELDS.into_iter().chain([Field::Number]) {
        let own = random.any(set);
        let other = own.and_then(|own| changed(random, &own, field));
        let is_new = |other: &Grant| !matches!(field, Field::Number) || of_number(set, other.number).is_none();
        if let Some(other) = other.filter(is_new) {
            others.push(exchanged(set, format!("another {field}"), own, Some(other)));
        }
    }
    others
}

/// A set without one grant and with another.
fn exchanged(set: &[Grant], what: String, without: Option<Grant>, with: Option<Grant>) -> OtherSet {
    let mut grants: Vec<Grant> = set.iter().filter(|grant| Some(**grant) != without).copied().collect();
    with.into_iter().for_each(|grant| insert(&mut grants, grant));
    let number = without.iter().chain(&with).map(|grant| grant.number).min().unwrap_or(0);
    OtherSet { what, number, grants }
}
