//! Parents that are other than the links have them (document 02, card 6), in words: which a run must have met, and which passed by.

use crate::interface::call::Call;
use crate::oracle::layout::{cell_words, cells_in, left_of, parent_of, right_of, FREE_HEAD, ROOT};
use crate::oracle::sound::grants_in;

/// Makes each cell's parent the one from which a way along all links first comes to it; 0 at the root, and where the way doesn't come. The
/// pool has a right length.
pub fn put_parents(words: &mut [u16]) {
    let mut parents = vec![None; cells_in(words)];
    let mut ahead = vec![(words[ROOT], 0)];
    while let Some((cell, from)) = ahead.pop() {
        let is_new = cell != 0 && parents.get(usize::from(cell) - 1).is_some_and(Option::is_none);
        if is_new {
            parents[usize::from(cell) - 1] = Some(from);
            ahead.extend([(words[right_of(cell)], cell), (words[left_of(cell)], cell)]);
        }
    }
    for (cell, parent) in (1..).zip(parents) {
        words[parent_of(cell)] = parent.unwrap_or(0);
    }
}

/// What a cell can be in its pool: those that walks meet come first.
pub const PLACES: [&str; 5] = ["the root", "a leaf", "an inner cell", "the free head's cell", "another free cell"];

/// What a cell is in a pool whose links are sound.
pub fn place_of(words: &[u16], cell: u16) -> &'static str {
    let (links, number) = (&cell_words(words, cell)[..2], cell_words(words, cell)[2]);
    let place = match number != 0 {
        true if words[ROOT] == cell => 0,
        true if links == [0, 0] => 1,
        true => 2,
        false if words[FREE_HEAD] == cell => 3,
        false => 4,
    };
    PLACES[place]
}

/// The cells with another parent than the links have it, of a pool that would be sound without them.
fn with_other_parents(words: &[u16]) -> Vec<u16> {
    let mut mended = words.to_vec();
    put_parents(&mut mended);
    let is_other = |cell: &u16| words[parent_of(*cell)] != mended[parent_of(*cell)];
    match grants_in(&mended) {
        Some(_) => (1..=cells_in(words) as u16).filter(is_other).collect(),
        None => Vec::new(),
    }
}

/// Of a call that walked: the one cell whose parent gave it 9, or the cells whose parents didn't.
pub fn seen(words: &[u16], call: &Call, is_nine: bool) -> Vec<String> {
    let cells = with_other_parents(words);
    match is_nine && cells.len() != 1 {
        true => Vec::new(),
        false => cells.iter().map(|cell| format!("{} {}", call.name(), of_parent(is_nine, place_of(words, *cell)))).collect(),
    }
}

/// The words for a parent that gives 9, or doesn't.
pub fn of_parent(is_nine: bool, place: &str) -> String {
    match is_nine {
        true => format!("with another parent in {place} alone: 9"),
        false => format!("with another parent in {place}: no 9"),
    }
}
