//! How the box of a list lies to grants and cells, in words, where its walk came to its end: what a run must have asked for.

use crate::interface::choice::Choice;
use crate::interface::grant::{Bounds, End, Grant, DOORS, ENDS, QUARTERS, STAFF};
use crate::oracle::relation::{relation, Relation};
use crate::oracle::tree::bounds_in;
use crate::oracle::walks::Hit;
use crate::oracle::wrong::Wrong;

/// What list was asked: a box, a choice, and room for so many.
#[derive(Clone, Copy)]
pub struct Asked<'a> {
    pub bounds: &'a Bounds,
    pub choice: Choice,
    pub lent: usize,
}

impl Asked<'_> {
    /// On a pool that calls made.
    pub fn of_grants(&self, live: &[Grant]) -> Vec<String> {
        let mut positions: Vec<String> = live.iter().flat_map(|grant| beside(&grant.bounds, self.bounds)).collect();
        let relations = live.iter().map(|grant| relation(&grant.bounds, self.bounds, Wrong::Nothing));
        positions.extend(self.of_room(&relations.collect::<Vec<_>>()).map(str::to_string));
        positions
    }

    /// On a scrambled pool, of which these cells touch the box.
    pub fn of_cells(&self, words: &[u16], touching: &[Hit]) -> Vec<String> {
        let cells: Vec<Bounds> = touching.iter().map(|hit| bounds_in(words, hit.cell)).collect();
        let relations: Vec<Relation> = cells.iter().map(|cell| relation(cell, self.bounds, Wrong::Nothing)).collect();
        let mut positions: Vec<&str> = cells.iter().flat_map(|cell| odd_spans(cell, self.bounds)).collect();
        positions.extend(self.of_room(&relations));
        let met_before = |i: usize| touching[..i].iter().any(|hit| hit.cell == touching[i].cell);
        if (0..touching.len()).any(|i| relations[i] == Relation::Holds && met_before(i)) {
            positions.push("a cell that holds the box, met twice");
        }
        positions.into_iter().map(|position| format!("{position}, on a scrambled pool")).collect()
    }

    /// Where fewer hold the box than touch it: a list that is one too short, or just long enough.
    fn of_room(&self, relations: &[Relation]) -> Option<&'static str> {
        let holding = relations.iter().filter(|relation| **relation == Relation::Holds).count();
        let touching = relations.iter().filter(|relation| **relation != Relation::Apart).count();
        let needed = if self.choice == Choice::Holding { holding } else { touching };
        match holding < touching {
            true if self.lent + 1 == needed => Some("one too short where fewer hold"),
            true if self.lent == needed => Some("just long enough where fewer hold"),
            _ => None,
        }
    }
}

/// Of a grant: the box is its own, or all but one end is, which is one off; or the grant holds it on two axes alone.
fn beside(grant: &Bounds, asked: &Bounds) -> Vec<String> {
    let others: Vec<End> = ENDS.into_iter().filter(|end| end.of(grant) != end.of(asked)).collect();
    let mut positions = Vec::new();
    match others[..] {
        [] => positions.push("the box of a grant".to_string()),
        [end] => positions.extend(one_off(end, grant, asked).map(|side| format!("a box one {side} a grant at {end:?}"))),
        _ => {}
    }
    if relation(grant, asked, Wrong::Nothing) == Relation::Touches {
        let held = [STAFF, DOORS, QUARTERS].map(|axis| grant[axis].0 <= asked[axis].0 && asked[axis].1 <= grant[axis].1);
        positions.extend(two_of(held).map(|two| format!("a box held on {two} alone")));
    }
    positions
}

fn one_off(end: End, grant: &Bounds, asked: &Bounds) -> Option<&'static str> {
    let above = i32::from(end.of(asked)) - i32::from(end.of(grant));
    match (end.is_from(), above) {
        (true, 1) | (false, -1) => Some("inside"),
        (true, -1) | (false, 1) => Some("outside"),
        _ => None,
    }
}

fn two_of(held: [bool; 3]) -> Option<&'static str> {
    match held {
        [true, true, false] => Some("staff and doors"),
        [true, false, true] => Some("staff and quarters"),
        [false, true, true] => Some("doors and quarters"),
        _ => None,
    }
}

/// Of a cell that touches the box: spans that no grant has. A reversed one of staff or doors is touched and has the box between its ends
/// only where the box ends where it does.
fn odd_spans(cell: &Bounds, asked: &Bounds) -> Vec<&'static str> {
    let reversed = |axis: usize| cell[axis].0 > cell[axis].1 && asked[axis] == (cell[axis].1, cell[axis].0);
    let cases = [
        (reversed(STAFF), "a cell with the box's staff reversed"),
        (reversed(DOORS), "a cell with the box's doors reversed"),
        (cell[QUARTERS].0 > cell[QUARTERS].1, "a cell with reversed quarters"),
        (cell[QUARTERS].0 == cell[QUARTERS].1, "a cell with equal quarters"),
    ];
    cases.into_iter().filter(|(is_so, _)| *is_so).map(|(_, position)| position).collect()
}
