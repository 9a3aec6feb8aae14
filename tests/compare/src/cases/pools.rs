//! Pools that no history made: any words, links to anywhere, cells that no grant is like, what is no pool. Parents are mostly as the links
//! have them: with another one a walk ends.

use crate::cases::histories::set_of_grants;
use crate::cases::random::Random;
use crate::cases::styles::Style;
use crate::interface::call::Call;
use crate::interface::grant::{DOORS, EVERYTHING};
use crate::interface::lent::Lent;
use crate::oracle::honest::Honest;
use crate::oracle::layout::{cell_words, left_of, older_words_for, parent_of, put_leaf, right_of, words_for, FREE_HEAD, ROOT};
use crate::oracle::parents::put_parents;
use crate::oracle::wrong::Wrong;

/// The pool of a history: grants of a file, some of them revoked, others granted.
pub fn made(random: &mut Random, capacity: usize, style: Style) -> Vec<u16> {
    let grants = set_of_grants(random, style, capacity, EVERYTHING[DOORS]);
    let mut honest = Honest::load(capacity, &grants, Wrong::Nothing);
    for _ in 0..random.below(9) {
        let live = &honest.book.live;
        let call = match live.is_empty() || random.one_in(2) {
            true => Call::Grant(style.grant(random)),
            false => Call::Revoke(live[random.below(live.len())].number),
        };
        let _ = honest.step(&call, &mut Lent::Nothing, None);
    }
    honest.words
}

/// Any words behind a right first one.
pub fn noise(random: &mut Random, capacity: usize) -> Vec<u16> {
    let mut words: Vec<u16> = (0..words_for(capacity)).map(|_| random.word()).collect();
    words[0] = capacity as u16;
    if random.one_in(2) {
        words[ROOT] = 1;
        words[parent_of(1)] = 0;
    }
    words
}

/// A link that mostly leads to a cell.
pub fn link(random: &mut Random, capacity: usize) -> u16 {
    match random.below(20) {
        0 => capacity as u16 + 1,
        1 => random.word(),
        2..=11 => 0,
        _ => random.below(capacity + 1) as u16,
    }
}

/// Cells with grants in them, each linked to others that no cell links to yet, at times both links to one; in half of the pools some links
/// lead anywhere.
pub fn plausible(random: &mut Random, capacity: usize, style: Style) -> Vec<u16> {
    let mut words = vec![0; words_for(capacity)];
    words[0] = capacity as u16;
    words[ROOT] = 1;
    words[FREE_HEAD] = link(random, capacity);
    let some_lead_anywhere = random.one_in(2);
    let mut unlinked = 2..=capacity as u16;
    let mut child = |random: &mut Random| match random.below(6) {
        0 if some_lead_anywhere => link(random, capacity),
        0..=2 => 0,
        _ => unlinked.next().unwrap_or(0),
    };
    for cell in 1..=capacity as u16 {
        put_leaf(&mut words, cell, &style.grant(random), 0);
        let (left, right) = (child(random), child(random));
        words[left_of(cell)] = left;
        words[right_of(cell)] = if random.one_in(8) { left } else { right };
    }
    put_parents(&mut words);
    words
}

/// Every link 1, or links to themselves, or a ring that the root is in or leads to; on the left, the right or both. A parent is the cell
/// before: no walk comes back to a cell and finds its parent right both times.
pub fn cycle(random: &mut Random, capacity: usize, style: Style) -> Vec<u16> {
    let mut words = plausible(random, capacity, style);
    let kind = random.below(3);
    let sides = 1 + random.below(3);
    let first = random.pick(&[1, capacity.min(2) as u16]);
    for cell in 1..=capacity as u16 {
        let next = match kind {
            0 => 1,
            1 => cell,
            _ if usize::from(cell) == capacity => first,
            _ => cell + 1,
        };
        words[left_of(cell)] = if sides & 1 != 0 { next } else { 0 };
        words[right_of(cell)] = if sides & 2 != 0 { next } else { 0 };
        words[parent_of(next)] = cell;
    }
    if random.one_in(2) {
        put_parents(&mut words);
    }
    words
}

/// The pool of a history in which cells with one child have both links lead to it: it is met twice, each time from its parent.
pub fn doubled(random: &mut Random, capacity: usize, style: Style) -> Vec<u16> {
    let mut words = made(random, capacity, style);
    let seldom = random.pick(&[1, 2, 8]);
    for cell in 1..=capacity as u16 {
        let [left, right, number, ..] = *cell_words(&words, cell) else {
            continue;
        };
        let has_one = (left == 0) != (right == 0);
        if number != 0 && has_one && random.one_in(seldom) {
            words[left_of(cell)] = left.max(right);
            words[right_of(cell)] = left.max(right);
        }
    }
    words
}

/// A first word that is not C, or a length that no pool has, or that one had before cells had parents.
pub fn wrong_frame(random: &mut Random, capacity: usize) -> Vec<u16> {
    let mut words = Honest::start(capacity, Wrong::Nothing).words;
    match random.below(6) {
        0 => words[0] = random.word(),
        1 => words.resize(random.pick(&[0, 1, 2, 3, 4, 13, 15, 24, 26, 22530, 22532, 22542]), 0),
        2 => words.resize(words.len() + 65536, 0),
        3 => words.resize(older_words_for(capacity), 0),
        4 => words = [&[11], &Honest::start(10, Wrong::Nothing).words[1..]].concat(), // as long as an older one of 11 cells
        _ => words[0] = words[0].wrapping_add(random.pick(&[1, 65535, 2048])),
    }
    words
}

/// The pool of a history with ranks made too low for their doors: its links are sound, and no cell is wrong by what it holds.
pub fn lowered(random: &mut Random, capacity: usize, style: Style) -> Vec<u16> {
    let mut words = made(random, capacity, style);
    for cell in 1..=capacity as u16 {
        if random.one_in(2) {
            let rank_word = left_of(cell) + 3;
            words[rank_word] %= 2 * 200;
        }
    }
    words
}

/// The pool of a history with the quarters of some cells made such as no grant has: equal, reversed, or overlapped by no box.
pub fn emptied(random: &mut Random, capacity: usize, style: Style) -> Vec<u16> {
    let mut words = made(random, capacity, style);
    for cell in 1..=capacity as u16 {
        let quarters = &mut words[left_of(cell) + 8..][..2];
        let (from, to) = (quarters[0], quarters[1]);
        let odd = match random.below(6) {
            0 => [from, from],
            1 => [to, to],
            2 => [to, from],
            3 => [65535, to],
            4 => [from, 0],
            _ => [from, to],
        };
        quarters.copy_from_slice(&odd);
    }
    words
}

/// The pool of a history with the staff or the doors of some cells reversed.
pub fn reversed(random: &mut Random, capacity: usize, style: Style) -> Vec<u16> {
    let mut words = made(random, capacity, style);
    for cell in 1..=capacity as u16 {
        let spans = &mut words[left_of(cell) + 4..][..4];
        match random.below(4) {
            0 => spans.swap(0, 1),
            1 => spans.swap(2, 3),
            _ => {}
        }
    }
    words
}

/// The pool of a history with a few words changed; in half of them the parents follow the links.
pub fn changed(random: &mut Random, capacity: usize, style: Style) -> Vec<u16> {
    let mut words = made(random, capacity, style);
    for _ in 0..1 + random.below(3) {
        let cell = random.below(capacity) as u16 + 1;
        let place = match random.below(6) {
            0 => ROOT,
            1 => FREE_HEAD,
            2 => left_of(cell),
            3 => right_of(cell),
            _ => random.below(words.len() - 1) + 1,
        };
        words[place] = match random.one_in(4) {
            true => random.word(),
            false => link(random, capacity),
        };
    }
    if random.one_in(2) {
        put_parents(&mut words);
    }
    words
}
