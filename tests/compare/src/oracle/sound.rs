//! Whether a pool is sound (demand 3; document 02, card 6): the links from the root and the free head reach each cell once, the root's
//! cells carry the live grants, each with its point in its region and none behind more than 112 others; each link down has its link up,
//! and a free cell has zeros but for its left link.

use crate::interface::grant::Grant;
use crate::oracle::arguments::is_reversed;
use crate::oracle::layout::{capacity_of, cell_words, left_of, parent_of, right_of, FREE_HEAD, ROOT};
use crate::oracle::tree::{halves, holds, point_in, Region, DEEPEST, WHOLE};
use crate::oracle::wrong::Wrong;

struct Reached<'a> {
    words: &'a [u16],
    seen: Vec<bool>,
    live: Vec<Grant>,
}

pub fn is_sound(words: &[u16], live: &[Grant]) -> bool {
    reached_from(words).is_some_and(|reached| reached == live)
}

/// The grants in the cells of a pool that is sound but for what the cells hold of rank, doors and the like, ascending by number. None
/// where it isn't, or where its cells hold what the plain book can't: number 0, a number twice, a rank above 255, a span reversed,
/// quarters that cover nothing.
pub fn grants_in(words: &[u16]) -> Option<Vec<Grant>> {
    let capacity = capacity_of(words, Wrong::Nothing)?;
    let live = (usize::from(words[0]) == capacity).then(|| reached_from(words))??;
    let numbered = live.first().is_none_or(|grant| grant.number > 0) && live.windows(2).all(|two| two[0].number < two[1].number);
    let ranked = (1..=capacity as u16).all(|cell| cell_words(words, cell)[3] < 512);
    let ordered = live.iter().all(|grant| !is_reversed(&grant.bounds, Wrong::Nothing));
    (numbered && ranked && ordered).then_some(live)
}

/// The grants in the cells that the root reaches, ascending by number, where root and free head reach each cell once, parents are as the
/// links have them and free cells are blank.
fn reached_from(words: &[u16]) -> Option<Vec<Grant>> {
    let mut reached = Reached { words, seen: vec![false; usize::from(words[0])], live: Vec::new() };
    let linked = reached.tree(words[ROOT], 0, 0, &WHOLE) && reached.free(words[FREE_HEAD]);
    reached.live.sort_by_key(|grant| grant.number);
    (linked && reached.seen.iter().all(|seen| *seen)).then_some(reached.live)
}

impl Reached<'_> {
    /// Marks a cell; false if it is none or was reached before.
    fn reach(&mut self, cell: u16) -> bool {
        match self.seen.get_mut(usize::from(cell) - 1) {
            Some(seen) => !std::mem::replace(seen, true),
            None => false,
        }
    }

    /// Reaches a cell from another, or from the root link, which stands as 0; then those below it.
    fn tree(&mut self, cell: u16, from: u16, level: usize, region: &Region) -> bool {
        if cell == 0 {
            return true;
        }
        if level > DEEPEST || !self.reach(cell) || !holds(region, &point_in(self.words, cell)) {
            return false;
        }
        if self.words[parent_of(cell)] != from {
            return false;
        }
        self.live.push(grant_in(self.words, cell));
        let (left, right) = (self.words[left_of(cell)], self.words[right_of(cell)]);
        if level == DEEPEST {
            return (left, right) == (0, 0);
        }
        let (lower, upper) = halves(region, level);
        self.tree(left, cell, level + 1, &lower) && self.tree(right, cell, level + 1, &upper)
    }

    fn free(&mut self, mut cell: u16) -> bool {
        while cell != 0 {
            if !self.reach(cell) || cell_words(self.words, cell)[1..].iter().any(|word| *word != 0) {
                return false;
            }
            cell = self.words[left_of(cell)];
        }
        true
    }
}

fn grant_in(words: &[u16], cell: u16) -> Grant {
    let cell = cell_words(words, cell);
    let ends = [cell[4], cell[5], cell[6], cell[7], cell[8], cell[9]];
    Grant { number: cell[2], rank: (cell[3] / 2) as u8, kind: (cell[3] % 2) as u8, bounds: Grant::bounds_of(ends) }
}
