//! The words of a pool that start, load and accepted calls made (document 01, "The tree"; document 02, card 6): every one is fixed.

use crate::interface::grant::Grant;
use crate::oracle::layout::{left_of, parent_of, put_free, put_leaf, right_of, words_for, FREE_HEAD, ROOT};
use crate::oracle::tree::{goes_left, halves, point_in, point_of, Point, WHOLE};
use crate::oracle::wrong::Wrong;

/// An empty index, free cells in rising order.
pub fn fresh(capacity: usize) -> Vec<u16> {
    let mut words = vec![0; words_for(capacity)];
    words[0] = capacity as u16;
    words[FREE_HEAD] = 1;
    for cell in 1..capacity as u16 {
        words[left_of(cell)] = cell + 1;
    }
    words
}

/// A link's place, and the cell that it is in; 0 is the root's.
struct Link {
    place: usize,
    from: u16,
}

/// The first link on a point's way down that is blank or leads to the point's own cell.
fn link_to(words: &[u16], point: &Point, wrong: Wrong) -> Link {
    let mut link = Link { place: ROOT, from: 0 };
    let mut region = WHOLE;
    for level in 0.. {
        let cell = words[link.place];
        if cell == 0 || point_in(words, cell) == *point {
            break;
        }
        let left = goes_left(point, &region, level, wrong);
        let (lower, upper) = halves(&region, level);
        region = if left { lower } else { upper };
        link = Link { place: if left { left_of(cell) } else { right_of(cell) }, from: cell };
    }
    link
}

/// The cell of a live grant.
pub fn cell_of(words: &[u16], grant: &Grant) -> u16 {
    words[link_to(words, &point_of(grant.number, &grant.bounds), Wrong::Nothing).place]
}

/// Puts a grant into the free head's cell, at the first blank link on its way down.
pub fn insert(words: &mut [u16], grant: &Grant, wrong: Wrong) {
    if words[FREE_HEAD] == 0 {
        return; // Only a wrong version's book has room here.
    }
    let link = link_to(words, &point_of(grant.number, &grant.bounds), wrong);
    let cell = words[FREE_HEAD];
    words[FREE_HEAD] = words[left_of(cell)];
    words[link.place] = cell;
    let parent = if wrong == Wrong::GrantStoresNoParent { 0 } else { link.from };
    put_leaf(words, cell, grant, parent);
}

/// Takes a live grant out: a terminal cell takes its place by links alone, and its cell becomes the free head.
pub fn remove(words: &mut [u16], grant: &Grant, wrong: Wrong) {
    let place = link_to(words, &point_of(grant.number, &grant.bounds), wrong).place;
    let unwanted = words[place];
    let last = terminal_place(words, place, wrong);
    let terminal = words[last];
    let children_before = children_of(words, unwanted);
    if terminal == unwanted || wrong != Wrong::LinksTakenBeforeTheCut {
        words[last] = 0;
    }
    if terminal != unwanted {
        let children = children_of(words, unwanted);
        words[left_of(terminal)] = children[0];
        words[right_of(terminal)] = children[1];
        words[place] = terminal;
        let below = if wrong == Wrong::ChildrenTakenBeforeTheCut { children_before } else { children };
        move_parents(words, unwanted, terminal, below, wrong);
    }
    free(words, unwanted, wrong);
}

fn children_of(words: &[u16], cell: u16) -> [u16; 2] {
    [words[left_of(cell)], words[right_of(cell)]]
}

/// The terminal cell gets the unwanted one's parent, and is the parent of its children.
fn move_parents(words: &mut [u16], unwanted: u16, terminal: u16, children: [u16; 2], wrong: Wrong) {
    if wrong != Wrong::TerminalKeepsItsParent {
        words[parent_of(terminal)] = words[parent_of(unwanted)];
    }
    let kept = [Wrong::LeftChildKeepsItsParent, Wrong::RightChildKeepsItsParent];
    for (child, keeps) in children.into_iter().zip(kept) {
        if child != 0 && wrong != keeps {
            words[parent_of(child)] = terminal;
        }
    }
}

/// From the cell at a place follows left, else right: the place of the link to the terminal cell.
fn terminal_place(words: &[u16], place: usize, wrong: Wrong) -> usize {
    let cell = words[place];
    let (mut first, mut second) = (left_of(cell), right_of(cell));
    if wrong == Wrong::RightBeforeLeftInRemoval {
        std::mem::swap(&mut first, &mut second);
    }
    if words[first] != 0 {
        terminal_place(words, first, wrong)
    } else if words[second] != 0 {
        terminal_place(words, second, wrong)
    } else {
        place
    }
}

fn free(words: &mut [u16], cell: u16, wrong: Wrong) {
    let mut place = FREE_HEAD;
    while wrong == Wrong::FreeCellsInOrder && words[place] != 0 && words[place] < cell {
        place = left_of(words[place]);
    }
    let (next, parent) = (words[place], words[parent_of(cell)]);
    words[place] = cell;
    put_free(words, cell, next);
    if wrong == Wrong::FreedCellKeepsItsParent {
        words[parent_of(cell)] = parent;
    }
}
