//! Pools that no history made, and calls that walk into their faults.

use crate::cases::boxes::near;
use crate::cases::case::Case;
use crate::cases::chains::{chain, doubled_chain, removal_trap, unmet_link};
use crate::cases::histories::set_of_grants;
use crate::cases::other_parents::{damage_one, damage_unmet};
use crate::cases::pools::{changed, cycle, doubled, emptied, lowered, made, noise, plausible, reversed, wrong_frame};
use crate::cases::random::Random;
use crate::cases::styles::{quarter_near, spoil, Style};
use crate::interface::call::Call;
use crate::interface::choice::{Choice, CHOICES};
use crate::interface::grant::{Bounds, Grant, Span, EVERYTHING};
use crate::oracle::arguments::is_reversed;
use crate::oracle::file::file_of;
use crate::oracle::layout::{capacity_of, cell_words, cells_in};
use crate::oracle::scrambled::list_hits;
use crate::oracle::tree::bounds_in;
use crate::oracle::wrong::Wrong;

/// How often calls are drawn for a pool.
const DRAWS: usize = 12;

/// The calls that need not meet all cells.
const OF_A_PART: [&str; 7] = ["grant", "revoke", "list", "list_holding", "decide", "write", "match"];

/// A scrambled pool, and a grant that its calls keep to.
struct Scrambled {
    words: Vec<u16>,
    grant: Grant,
}

/// A pool of one of the kinds of `pools` and `chains`, and some calls on it; at last it may be begun anew.
pub fn scrambled(random: &mut Random, most: usize) -> Case {
    let capacity = match random.below(12) {
        0 => 108 + random.below(10),
        1 => most,
        _ => 1 + random.below(12),
    };
    let style = Style::any(random, capacity);
    let mut grant = style.grant(random);
    let words = match random.below(18) {
        0 => noise(random, capacity),
        1 | 2 => plausible(random, capacity, style),
        3 => cycle(random, capacity, style),
        4 | 5 => doubled(random, capacity, style),
        6 => doubled_chain(random, &grant),
        7 | 8 => chain(random, &grant),
        9 => removal_trap(random, capacity, &mut grant),
        10 => unmet_link(random, capacity, &mut grant),
        11 => wrong_frame(random, capacity),
        12 => lowered(random, capacity, style),
        13 => emptied(random, capacity, style),
        14 | 15 => reversed(random, capacity, style),
        _ => changed(random, capacity, style),
    };
    let scrambled = Scrambled { words, grant };
    let mut calls = scrambled.all_calls(random, style);
    if random.one_in(2) {
        calls.insert(0, Call::Revoke(grant.number));
    }
    match random.below(8) {
        0 => calls.push(Call::Start),
        1 => calls.push(Call::Load(file(random, style, grant.bounds[1]).into())),
        _ => {}
    }
    Case { pool: scrambled.words, calls }
}

/// The pool of a history with another parent in one cell, or in all cells that the first call doesn't meet. Where the grants have one box,
/// it is deep enough for cells that a number's search doesn't meet.
pub fn other_parents(random: &mut Random) -> Case {
    let capacity = 1 + random.below(40);
    let style = match random.below(3) {
        0 => Style::deep(random),
        1 => Style::uniform(),
        _ => Style::any(random, capacity),
    };
    let mut scrambled = Scrambled { words: made(random, capacity, style), grant: style.grant(random) };
    let mut calls = scrambled.all_calls(random, style);
    if random.one_in(2) {
        damage_one(random, &mut scrambled.words);
    } else {
        let name = random.pick(&OF_A_PART);
        let first = scrambled.call_of(random, style, name);
        damage_unmet(random, &mut scrambled.words, &first);
        calls.insert(0, first);
    }
    Case { pool: scrambled.words, calls }
}

impl Scrambled {
    fn all_calls(&self, random: &mut Random, style: Style) -> Vec<Call> {
        (0..DRAWS).flat_map(|_| self.calls(random, style)).collect()
    }

    /// The first call of a name that is drawn.
    fn call_of(&self, random: &mut Random, style: Style, name: &str) -> Call {
        loop {
            if let Some(call) = self.calls(random, style).into_iter().find(|call| call.name() == name) {
                return call;
            }
        }
    }

    /// A number from a cell, or the grant's, or any.
    fn number(&self, random: &mut Random) -> u16 {
        let cells = cells_in(&self.words);
        match random.below(4) {
            0 => self.grant.number,
            1 => random.word(),
            _ if cells == 0 => 1,
            _ => cell_words(&self.words, random.below(cells) as u16 + 1)[2],
        }
    }

    /// All staff and doors, and quarters from just before those of a cell or not, to just behind them or not.
    fn around_a_cell(&self, random: &mut Random) -> Bounds {
        let cells = cells_in(&self.words);
        if cells == 0 {
            return EVERYTHING;
        }
        let cell = cell_words(&self.words, random.below(cells) as u16 + 1);
        let (low, high) = (cell[8].min(cell[9]), cell[8].max(cell[9]));
        let quarters = (low.saturating_sub(random.below(2) as u16), high.saturating_add(random.below(2) as u16));
        [EVERYTHING[0], EVERYTHING[1], quarters]
    }

    /// A box near a cell's, of which staff and doors are put in order and quarters that cover none are widened by one on each side.
    fn near_a_cell(&self, random: &mut Random) -> Bounds {
        let cells = cells_in(&self.words);
        if cells == 0 {
            return EVERYTHING;
        }
        let [staff, doors, quarters] = bounds_in(&self.words, random.below(cells) as u16 + 1);
        let in_order = |span: Span| (span.0.min(span.1), span.0.max(span.1));
        let covered = match quarters.0 < quarters.1 {
            true => quarters,
            false => (quarters.1.saturating_sub(1), quarters.0.saturating_add(1)),
        };
        near(random, &[in_order(staff), in_order(doors), covered])
    }

    /// Either choice for a box: with room for any number, or for just those that it takes on the pool as it begins, or for one less.
    fn lists(&self, random: &mut Random, bounds: Bounds) -> Vec<Call> {
        let boxes = [EVERYTHING, self.around_a_cell(random), self.near_a_cell(random), self.near_a_cell(random), bounds, bounds];
        let asked = random.pick(&boxes);
        let room = |choice| match random.below(4) {
            0 => self.hits(&asked, choice),
            1 => self.hits(&asked, choice).saturating_sub(1),
            _ => lent(random, &[0, 1, 2, 12, 2048]),
        };
        CHOICES.map(room).into_iter().zip(CHOICES).map(|(lent, choice)| Call::List(asked, choice, lent)).collect()
    }

    /// How many cells list takes; 0 where it doesn't walk.
    fn hits(&self, asked: &Bounds, choice: Choice) -> usize {
        let is_pool = capacity_of(&self.words, Wrong::Nothing).is_some_and(|capacity| capacity == usize::from(self.words[0]));
        match is_pool && !is_reversed(asked, Wrong::Nothing) {
            true => list_hits(&self.words, asked, choice),
            false => 0,
        }
    }

    /// A call, or two lists.
    fn calls(&self, random: &mut Random, style: Style) -> Vec<Call> {
        let bounds = if random.one_in(2) { self.grant.bounds } else { style.bounds(random) };
        let mut grant = Grant { number: self.number(random), bounds, ..self.grant };
        if random.one_in(10) {
            spoil(random, &mut grant);
        }
        let Grant { number, bounds, .. } = grant;
        vec![match random.below(24) {
            0..=3 => Call::Grant(grant),
            4..=5 => Call::Grant(self.grant),
            6..=9 => Call::Revoke(number),
            10..=12 => return self.lists(random, bounds),
            13..=15 => {
                let [staff, doors, quarters] = bounds;
                let mut end_of = |span: Span| random.pick(&[span.0, span.1]);
                Call::Decide([end_of(staff), end_of(doors), quarter_near(random, quarters)])
            }
            16..=18 => Call::Write(bounds[1], lent(random, &[0, 511, 512, 1024, 4096, 34816])),
            19..=20 => Call::Match(file(random, style, bounds[1]).into()),
            21 if random.one_in(6) => Call::Load(file(random, style, bounds[1]).into()),
            22 if random.one_in(6) => Call::Start,
            _ => Call::Count,
        }]
    }
}

/// A length to lend, at times one that is none when it is cut to 16 bits.
fn lent(random: &mut Random, lengths: &[usize]) -> usize {
    match random.one_in(60) {
        true => 65536,
        false => random.pick(lengths),
    }
}

/// A file of a few grants for the doors, or a refused one.
fn file(random: &mut Random, style: Style, doors: Span) -> Vec<u8> {
    let mut file = file_of(doors, &set_of_grants(random, style, 3, doors), Wrong::Nothing);
    match random.below(8) {
        0 => file.truncate(random.below(600)),
        1 => file[random.below(512)] ^= 1,
        _ => {}
    }
    file
}
