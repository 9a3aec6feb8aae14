//! What a revoke takes out, in words: what a run must have taken out (document 01, "The tree"; document 02, card 6).

use crate::interface::grant::Grant;
use crate::oracle::layout::{cell_words, ROOT};
use crate::oracle::tree::range_of_number;
use crate::oracle::walks::search;
use crate::oracle::words::cell_of;
use crate::oracle::wrong::Wrong;

/// Of a pool that calls made: whether the grant's cell is the root's, its children, and which cell takes its place.
pub fn shape(words: &[u16], grant: &Grant) -> String {
    let cell = cell_of(words, grant);
    let place = if words[ROOT] == cell { "the root" } else { "another cell" };
    let below = |cell| (cell_words(words, cell)[0], cell_words(words, cell)[1]);
    let (children, first) = match below(cell) {
        (0, 0) => return format!("revoke of {place}, without children"),
        (left, 0) => ("a left child", left),
        (0, right) => ("a right child", right),
        (left, _) => ("two children", left),
    };
    let taken_by = if below(first) == (0, 0) { "a child" } else { "a cell further down" };
    format!("revoke of {place}, with {children}, whose place {taken_by} takes")
}

/// Of a pool that calls made: where a live number's cell stands.
pub fn place(words: &[u16], number: u16) -> Option<&'static str> {
    let cell = search(words, &range_of_number(number), Wrong::Nothing).ok()?.first()?.cell;
    let has_children = cell_words(words, cell)[..2] != [0, 0];
    Some(match (words[ROOT] == cell, has_children) {
        (true, true) => "the root",
        (true, false) => "the only cell",
        (false, true) => "an inner cell",
        (false, false) => "a leaf",
    })
}

/// Of an accepted revoke on any pool: that a link above C hangs on the cell. No walk has met it.
pub fn unmet_link(words: &[u16], number: u16) -> Option<String> {
    let hit = *search(words, &range_of_number(number), Wrong::Nothing).ok()?.first()?;
    let is_above = cell_words(words, hit.cell)[..2].iter().any(|link| *link > words[0]);
    is_above.then(|| "revoke of a cell with a link above C that isn't met".to_string())
}
