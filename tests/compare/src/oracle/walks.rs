//! The walks of the calls over any words, and the causes of 9 that they meet (document 01, "The tree"; document 02, card 6). A walk that
//! has met its cause stops.

use crate::oracle::layout::{left_of, parent_of, right_of, FREE_HEAD, ROOT};
use crate::oracle::tree::{goes_left, halves, holds, meets, point_in, Point, Region, DEEPEST, WHOLE};
use crate::oracle::wrong::Wrong;
use std::collections::BTreeSet;

/// Which walk met which cause.
#[derive(Clone, Copy, Debug)]
pub struct Nine {
    pub walk: &'static str,
    pub cause: &'static str,
}

/// A link as a walk comes to it: the cell it is in, or 0 for the root's, and the cell behind it, or 0 where it is blank, with its level.
#[derive(Clone, Copy)]
struct Step {
    from: u16,
    to: u16,
    level: usize,
}

/// A cell met inside the range, and its level on that path.
#[derive(Clone, Copy, Debug)]
pub struct Hit {
    pub cell: u16,
    pub level: usize,
}

/// A walk counts its own cells, a cell each time it is met.
struct Walk<'a> {
    words: &'a [u16],
    name: &'static str,
    met: usize,
    /// The cells met, for a wrong version that meets none twice.
    cells: BTreeSet<u16>,
    wrong: Wrong,
}

impl<'a> Walk<'a> {
    fn new(words: &'a [u16], name: &'static str, wrong: Wrong) -> Walk<'a> {
        Walk { words, name, met: 0, cells: BTreeSet::new(), wrong }
    }

    fn capacity(&self) -> usize {
        usize::from(self.words[0])
    }

    fn broken<T>(&self, cause: &'static str) -> Result<T, Nine> {
        Err(Nine { walk: self.name, cause })
    }

    /// Goes through a link that isn't blank to the cell behind it.
    fn meet(&mut self, step: Step) -> Result<(), Nine> {
        if step.level > DEEPEST {
            return self.broken("a cell below level 112");
        }
        if self.is_above(step.to) {
            return self.broken("a link above C");
        }
        if self.has_other_parent(step) && !self.parent_passes(step) {
            return self.broken("a parent that is another cell");
        }
        if self.wrong == Wrong::CellMetTwiceRefused && !self.cells.insert(step.to) {
            return self.broken("a cell met twice");
        }
        self.met += 1;
        let more = usize::from(self.wrong == Wrong::OneCellMoreThanC);
        match self.met > self.capacity() + more {
            true => self.broken("more than C cells"),
            false => Ok(()),
        }
    }

    fn is_above(&self, link: u16) -> bool {
        usize::from(link) > self.capacity()
    }

    /// Whether the cell behind a link has another parent than the cell that the link is in; the root's is 0.
    fn has_other_parent(&self, step: Step) -> bool {
        self.words[parent_of(step.to)] != step.from
    }

    /// Whether a wrong version doesn't test the parent of the cell behind a link.
    fn parent_passes(&self, step: Step) -> bool {
        match self.wrong {
            Wrong::RootsParentNotTested => step.from == 0,
            Wrong::ChildsParentNotTested => step.from != 0 && self.name == "search",
            Wrong::RemovalTestsNoParent => self.name == "removal",
            _ => false,
        }
    }

    /// 001's three steps at a cell: test it, enter the left subtree, then the right.
    fn visit(&mut self, step: Step, region: &Region, range: &Region, hits: &mut Vec<Hit>) -> Result<(), Nine> {
        self.meet(step)?;
        let Step { to: cell, level, .. } = step;
        let point = point_in(self.words, cell);
        if holds(range, &point) && (holds(region, &point) || self.wrong != Wrong::NoHitOutsideItsRegion) {
            hits.push(Hit { cell, level });
        }
        let (left, right) = (self.words[left_of(cell)], self.words[right_of(cell)]);
        if level == DEEPEST {
            return self.leave_deepest(left, right);
        }
        let (lower, upper) = halves(region, level);
        self.enter(Step { from: cell, to: left, level: level + 1 }, &lower, range, hits)?;
        self.enter(Step { from: cell, to: right, level: level + 1 }, &upper, range, hits)
    }

    /// Below level 112 no region is left to test: a link that isn't 0 leads to a cell below.
    fn leave_deepest(&self, left: u16, right: u16) -> Result<(), Nine> {
        match (left, right) != (0, 0) && self.wrong != Wrong::NoNineBelowLevel112 {
            true => self.broken("a cell below level 112"),
            false => Ok(()),
        }
    }

    /// Enters a subtree if its region meets the range; otherwise its link isn't met, whatever it holds, and so isn't the cell behind it.
    fn enter(&mut self, step: Step, region: &Region, range: &Region, hits: &mut Vec<Hit>) -> Result<(), Nine> {
        let skipped = !meets(region, range) && self.wrong != Wrong::LinksOutsideRangeMet;
        match step.to == 0 || skipped {
            true if self.is_tested_unmet(step) => self.broken("a parent that is another cell"),
            true => Ok(()),
            false => self.visit(step, region, range, hits),
        }
    }

    /// Whether a wrong version finds another parent in a cell that isn't met.
    fn is_tested_unmet(&self, step: Step) -> bool {
        self.wrong == Wrong::UnmetParentTested && step.to != 0 && !self.is_above(step.to) && self.has_other_parent(step)
    }
}

/// A search: its hits in order, a cell as often as it is met.
pub fn search(words: &[u16], range: &Region, wrong: Wrong) -> Result<Vec<Hit>, Nine> {
    let (hits, cause) = search_until_nine(words, range, wrong);
    cause.map_or(Ok(hits), Err)
}

/// The hits that a search has when it ends, and the cause of 9 that ended it.
pub fn search_until_nine(words: &[u16], range: &Region, wrong: Wrong) -> (Vec<Hit>, Option<Nine>) {
    let mut hits = Vec::new();
    let root = Step { from: 0, to: words[ROOT], level: 0 };
    let cause = Walk::new(words, "search", wrong).enter(root, &WHOLE, range, &mut hits).err();
    if wrong == Wrong::HitsOnce {
        keep_once(&mut hits);
    }
    (hits, cause)
}

/// The numbers of the cells in the order in which a search meets them: a cell, its left subtree, its right. None where it ends in 9.
pub fn numbers_met(words: &[u16]) -> Vec<u16> {
    let hits = search(words, &WHOLE, Wrong::Nothing).unwrap_or_default();
    hits.iter().map(|hit| point_in(words, hit.cell)[6]).collect()
}

/// Keeps each cell where it is met first.
pub fn keep_once(hits: &mut Vec<Hit>) {
    let mut seen = Vec::new();
    hits.retain(|hit| {
        !seen.contains(&hit.cell) && {
            seen.push(hit.cell);
            true
        }
    });
}

/// Grant's way down by the half that holds the point, to the first blank link. The number's search has met all of these cells through the
/// same links: what is left to be found is a cell at level 112.
pub fn way_down(words: &[u16], point: &Point, wrong: Wrong) -> Result<(), Nine> {
    if wrong == Wrong::WayDownNotWalked {
        return Ok(());
    }
    let mut walk = Walk::new(words, "way down", wrong);
    let mut step = Step { from: 0, to: words[ROOT], level: 0 };
    let mut region = WHOLE;
    while step.to != 0 {
        walk.meet(step)?;
        let Step { to: cell, level, .. } = step;
        if level == DEEPEST {
            return walk.broken("a cell below level 112");
        }
        let left = goes_left(point, &region, level, wrong);
        let (lower, upper) = halves(&region, level);
        region = if left { lower } else { upper };
        step = Step { from: cell, to: words[if left { left_of(cell) } else { right_of(cell) }], level: level + 1 };
    }
    Ok(())
}

/// Whether a cell is free: grant reads the free head and, unless that is 0, its cell's left link. Neither counts as a cell met, and the
/// free cell's parent isn't tested.
pub fn free_cell(words: &[u16], wrong: Wrong) -> Result<bool, Nine> {
    let head = words[FREE_HEAD];
    let above = |link: u16| usize::from(link) > usize::from(words[0]);
    if above(head) {
        return Err(Nine { walk: "free head", cause: "a link above C" });
    }
    if head != 0 && above(words[left_of(head)]) && wrong != Wrong::FreeCellNotRead {
        return Err(Nine { walk: "free cell's left", cause: "a link above C" });
    }
    if head != 0 && words[parent_of(head)] != 0 && wrong == Wrong::FreeCellsParentTested {
        return Err(Nine { walk: "free cell", cause: "a parent that is another cell" });
    }
    Ok(head != 0)
}

/// The removal walk from a hit at its own level: left, else right, to a terminal cell. The hit counts, and the search has tested it. Each
/// cell met has one parent and is met once: they are never more than C.
pub fn removal(words: &[u16], hit: Hit, wrong: Wrong) -> Result<(), Nine> {
    if wrong == Wrong::RemovalNotWalked {
        return Ok(());
    }
    let mut walk = Walk { met: 1, ..Walk::new(words, "removal", wrong) };
    let Hit { mut cell, mut level } = hit;
    loop {
        let (left, right) = (words[left_of(cell)], words[right_of(cell)]);
        let next = if left != 0 { left } else { right };
        if next == 0 {
            return Ok(());
        }
        level += 1;
        walk.meet(Step { from: cell, to: next, level })?;
        cell = next;
    }
}
