//! Where things lie in a pool (document 01, "The tree"; document 02, card 6): C, root, free head, then cells of eleven words, numbered
//! from 1.

use crate::interface::grant::Grant;
use crate::oracle::wrong::Wrong;

pub const ROOT: usize = 1;
pub const FREE_HEAD: usize = 2;
const HEADER: usize = 3;
const CELL: usize = 11;
/// A cell without its parent, as pools had them before.
const OLDER_CELL: usize = 10;
/// The cell's last word.
const PARENT: usize = 10;
pub const MOST_CELLS: usize = 2048;

/// How many words a pool of C cells has.
pub fn words_for(capacity: usize) -> usize {
    HEADER + CELL * capacity
}

/// How many words a pool of C cells had before a cell knew its parent.
pub fn older_words_for(capacity: usize) -> usize {
    HEADER + OLDER_CELL * capacity
}

/// C from a pool's length, where it is a pool's.
pub fn capacity_of(words: &[u16], wrong: Wrong) -> Option<usize> {
    let cell = if wrong == Wrong::CellsOfTenWords { OLDER_CELL } else { CELL };
    capacity_by(words, cell)
}

/// C from the length of a pool whose cells have no parents.
pub fn older_capacity_of(words: &[u16]) -> Option<usize> {
    capacity_by(words, OLDER_CELL)
}

fn capacity_by(words: &[u16], cell: usize) -> Option<usize> {
    let cells = words.len().checked_sub(HEADER)?;
    (cells.is_multiple_of(cell) && (1..=MOST_CELLS).contains(&(cells / cell))).then_some(cells / cell)
}

/// How many whole cells there are in words of any length.
pub fn cells_in(words: &[u16]) -> usize {
    words.len().saturating_sub(HEADER) / CELL
}

/// Where a cell's left link stands; its right link is the next word.
pub fn left_of(cell: u16) -> usize {
    HEADER + CELL * (usize::from(cell) - 1)
}

pub fn right_of(cell: u16) -> usize {
    left_of(cell) + 1
}

/// Where the cell is named from which a link leads to this one; 0 stands there at the root and in free cells.
pub fn parent_of(cell: u16) -> usize {
    left_of(cell) + PARENT
}

pub fn cell_words(words: &[u16], cell: u16) -> &[u16] {
    &words[left_of(cell)..][..CELL]
}

/// Makes a cell without children: a grant, and its parent.
pub fn put_leaf(words: &mut [u16], cell: u16, grant: &Grant, parent: u16) {
    let mut contents = [0; CELL];
    contents[2] = grant.number;
    contents[3] = u16::from(grant.rank) * 2 + u16::from(grant.kind);
    contents[4..PARENT].copy_from_slice(&grant.ends());
    contents[PARENT] = parent;
    words[left_of(cell)..][..CELL].copy_from_slice(&contents);
}

/// Makes a free cell: the next one, and zeros.
pub fn put_free(words: &mut [u16], cell: u16, next: u16) {
    words[left_of(cell)..][..CELL].fill(0);
    words[left_of(cell)] = next;
}
