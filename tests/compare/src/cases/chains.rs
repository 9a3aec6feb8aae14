//! Pools with cells one behind the other along a way down, so deep that the last levels show, and hits below which a walk goes on.

use crate::cases::pools::link;
use crate::cases::random::Random;
use crate::interface::grant::Grant;
use crate::oracle::layout::{left_of, parent_of, put_leaf, right_of, words_for, FREE_HEAD, ROOT};
use crate::oracle::parents::put_parents;
use crate::oracle::tree::{goes_left, halves, point_of, DEEPEST, WHOLE};
use crate::oracle::wrong::Wrong;

/// Links one cell behind the other along a point's way down, `length` cells from the root; the cells hold the grants given.
fn put_chain(words: &mut [u16], along: &Grant, length: usize, mut held: impl FnMut(usize) -> Grant) {
    let point = point_of(along.number, &along.bounds);
    let mut region = WHOLE;
    let mut place = ROOT;
    for level in 0..length {
        let cell = level as u16 + 1;
        words[place] = cell;
        put_leaf(words, cell, &held(level), cell - 1);
        if level < DEEPEST {
            let left = goes_left(&point, &region, level, Wrong::Nothing);
            let (lower, upper) = halves(&region, level);
            region = if left { lower } else { upper };
            place = if left { left_of(cell) } else { right_of(cell) };
        } else {
            place = left_of(cell);
        }
    }
}

/// A pool of C cells, so many of them a chain along a grant's way down. One of these may have the grant's number.
fn with_chain(capacity: usize, grant: &Grant, length: usize, own: usize) -> Vec<u16> {
    let mut words = vec![0; words_for(capacity)];
    words[0] = capacity as u16;
    put_chain(&mut words, grant, length, |level| Grant {
        number: if level == own { grant.number } else { grant.number ^ 1 },
        ..*grant
    });
    words
}

/// Cells along a grant's own way down, to level 111, 112 or below; one may hold its number, the last may have links.
pub fn chain(random: &mut Random, grant: &Grant) -> Vec<u16> {
    let length = 111 + random.below(5);
    let capacity = length + random.below(3);
    let mut words = with_chain(capacity, grant, length, random.below(2 * length));
    let last = length as u16;
    match random.below(6) {
        0 => words[left_of(last)] = link(random, capacity),
        1 => words[right_of(last)] = link(random, capacity),
        2 => words[right_of(last - 1)] = link(random, capacity),
        _ => {}
    }
    words[FREE_HEAD] = match random.below(3) {
        0 => 0,
        1 => link(random, capacity),
        _ => capacity as u16,
    };
    words
}

/// A chain, not always of all cells, both links of each cell to the next: at each level twice as many are met as above it.
pub fn doubled_chain(random: &mut Random, grant: &Grant) -> Vec<u16> {
    let most = random.pick(&[4, 8, 120]);
    let length = 1 + random.below(most);
    let capacity = length + random.below(40);
    let mut words = with_chain(capacity, grant, length, random.below(2 * length));
    for cell in 1..length as u16 {
        words[left_of(cell)] = cell + 1;
        words[right_of(cell)] = cell + 1;
    }
    words[FREE_HEAD] = link(random, capacity);
    words
}

/// The level of the hits below, which halves the numbers, and their cell.
const HIT_LEVEL: usize = 6;
const HIT: u16 = 7;

/// A hit at level 6 whose left link is outside the number's range: only the removal walk goes there.
pub fn removal_trap(random: &mut Random, capacity: usize, grant: &mut Grant) -> Vec<u16> {
    let capacity = capacity.max(DEEPEST + 3);
    grant.number |= 0x8000;
    let mut words = with_chain(capacity, grant, HIT_LEVEL + 1, HIT_LEVEL);
    put_tail(random, &mut words);
    let above = capacity as u16 + 1 + random.below(3) as u16;
    let cell = HIT + random.below(DEEPEST - HIT_LEVEL) as u16;
    match random.below(6) {
        0 => words[left_of(cell)] = above,
        1 => words[parent_of(cell + 1)] = random.pick(&[0, cell - 1, cell + 1, above]),
        2 => (words[left_of(cell)], words[right_of(cell)]) = (cell, 0),
        3 => (words[left_of(cell)], words[right_of(cell)]) = (0, HIT),
        4 => words[right_of(cell + 1)] = above,
        _ => {}
    }
    words[FREE_HEAD] = link(random, capacity);
    words
}

/// Cells below the hit, its left link first and then either one, to level 111, 112 or below.
fn put_tail(random: &mut Random, words: &mut [u16]) {
    let last = (DEEPEST + random.below(3)) as u16;
    words[left_of(HIT)] = HIT + 1;
    for cell in HIT + 1..=last {
        words[parent_of(cell)] = cell - 1;
        let place = random.pick(&[left_of(cell), right_of(cell)]);
        words[place] = if cell < last { cell + 1 } else { 0 };
    }
}

/// A hit at level 6 whose right link no walk meets: the number's range is to its left, and there is a cell, so that the removal walk goes
/// there too. The right link leads to no cell, or to one with any parent.
pub fn unmet_link(random: &mut Random, capacity: usize, grant: &mut Grant) -> Vec<u16> {
    let capacity = capacity.max(10);
    grant.number = (grant.number & 0x7FFF).max(1);
    let mut words = with_chain(capacity, grant, HIT_LEVEL + 1, HIT_LEVEL);
    words[left_of(HIT)] = 8;
    words[left_of(8)] = random.pick(&[0, 9]);
    words[right_of(8)] = random.pick(&[0, 10]);
    put_parents(&mut words);
    let any = random.word();
    words[right_of(HIT)] = random.pick(&[capacity as u16 + 1, capacity as u16 + 2, 65535, any, any % 10 + 1]);
    words[FREE_HEAD] = link(random, capacity);
    words
}
