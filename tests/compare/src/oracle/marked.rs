//! Document 01's marked cases, and cases of document 02's cards 2, 4 and 6, tried on the plain implementation: what the library is held against
//! is itself held to the papers.

use crate::interface::choice::Choice;
use crate::interface::grant::{Grant, EVERYTHING};
use crate::oracle::book::Book;
use crate::oracle::file::check;
use crate::oracle::layout::{parent_of, words_for, ROOT};
use crate::oracle::overlap::{box_holds, boxes_overlap, spans_overlap};
use crate::oracle::relation::{relation, Relation};
use crate::oracle::sound::is_sound;
use crate::oracle::tree::{goes_left, halves, holds, point_of, range_of, WHOLE};
use crate::oracle::words::{fresh, insert, remove};
use crate::oracle::wrong::Wrong;

/// The marked cases that the plain implementation gets wrong.
pub fn failing() -> Vec<&'static str> {
    let cases = [
        ("checks", checks_hold()),
        ("axes and halves", halves_hold()),
        ("doors", doors_hold()),
        ("quarters", quarters_hold()),
        ("holding", holding_holds()),
        ("parents", parents_hold()),
        ("slips", slips_hold()),
    ];
    cases.into_iter().filter(|(_, holds)| !holds).map(|(name, _)| name).collect()
}

fn checks_hold() -> bool {
    let marked: [(&[u8], u16); 5] = [(&[], 1), (&[0], 256), (&[0, 0], 15), (&[255, 255], 29), (&[0, 0, 0], 3840)];
    marked.iter().all(|(bytes, sum)| check(bytes) == *sum)
}

fn halves_hold() -> bool {
    let axis = |level| halves(&WHOLE, level).0.iter().position(|span| *span != (0, 65535));
    let left = |staff| goes_left(&point_of(1, &[(staff, 65535); 3]), &WHOLE, 0, Wrong::Nothing);
    (axis(6), axis(7), axis(111)) == (Some(6), Some(0), Some(6)) && left(32767) && !left(32768)
}

fn doors_hold() -> bool {
    spans_overlap((1, 40), (40, 50), Wrong::Nothing) && !spans_overlap((1, 40), (41, 50), Wrong::Nothing)
}

/// A shift from 14:00 written to 22:00 is over at 22:00; two shifts that follow each other don't overlap; a cell with quarters 5 5 is a hit
/// of the box 3 8.
fn quarters_hold() -> bool {
    let during = |from, to| [EVERYTHING[0], EVERYTHING[1], (from, to)];
    let shift = during(56, 88);
    let open = |quarter| box_holds(&shift, [1, 1, quarter], Wrong::Nothing);
    let overlaps = |from, to| boxes_overlap(&shift, &during(from, to), Wrong::Nothing);
    let is_hit = |from, to| holds(&range_of(&during(from, to), Wrong::Nothing), &point_of(1, &during(5, 5)));
    let covered = !open(55) && open(56) && open(87) && !open(88);
    let apart = !overlaps(24, 56) && overlaps(24, 57) && overlaps(87, 88) && !overlaps(88, 120);
    covered && apart && is_hit(3, 8) && is_hit(4, 6) && !is_hit(3, 5) && !is_hit(5, 8)
}

/// A grant holds its own box and those inside it; it touches one that ends a quarter later, or has a door or a staff number more.
fn holding_holds() -> bool {
    let grant = [(100, 199), (1, 40), (56, 88)];
    let cases = [
        (grant, Relation::Holds),
        ([(150, 150), (40, 40), (87, 88)], Relation::Holds),
        ([(100, 199), (1, 40), (56, 89)], Relation::Touches),
        ([(100, 199), (0, 40), (56, 88)], Relation::Touches),
        ([(100, 200), (1, 40), (56, 88)], Relation::Touches),
        (EVERYTHING, Relation::Touches),
        ([(200, 200), (1, 40), (56, 88)], Relation::Apart),
        ([(100, 199), (1, 40), (88, 89)], Relation::Apart),
    ];
    cases.iter().all(|(asked, right)| relation(&grant, asked, Wrong::Nothing) == *right)
}

/// Of three grants the first is at the root, above the others. When it is revoked, its left child takes its place and is the right one's
/// parent. With any other parent the pool is not sound.
fn parents_hold() -> bool {
    let lengths = (words_for(1), words_for(2048)) == (14, 22531);
    let grant = |number, staff| Grant { number, rank: 200, kind: 1, bounds: [(staff, 65535), EVERYTHING[1], EVERYTHING[2]] };
    let [first, left, right] = [grant(1, 0), grant(2, 0), grant(3, 32768)];
    let parents = |words: &[u16]| [1, 2, 3].map(|cell| words[parent_of(cell)]);
    let mut words = fresh(3);
    [first, left, right].iter().for_each(|grant| insert(&mut words, grant, Wrong::Nothing));
    let granted = parents(&words) == [0, 1, 1] && is_sound(&words, &[first, left, right]);
    remove(&mut words, &first, Wrong::Nothing);
    let revoked = parents(&words) == [0, 0, 2] && words[ROOT] == 2 && is_sound(&words, &[left, right]);
    let unsound = [1, 2, 3].iter().all(|cell| {
        let mut other = words.clone();
        other[parent_of(*cell)] ^= 1;
        !is_sound(&other, &[left, right])
    });
    lengths && granted && revoked && unsound
}

/// The slips of the papers, as calls on the book.
fn slips_hold() -> bool {
    let mut book = Book::new(2048, Wrong::Nothing);
    let seven = Grant { number: 7, rank: 10, kind: 1, bounds: [(100, 199), (1, 40), (32, 63)] };
    let three = Grant { number: 3, rank: 20, kind: 0, bounds: [(150, 150), (12, 12), (0, 65535)] };
    let granted = book.grant(seven).is_ok() && book.grant(three).is_ok();
    let again = book.grant(Grant { bounds: [(0, 0), (0, 0), (0, 1)], ..seven }).is_err_and(|fault| fault.number == 5);
    let asked = [(150, 150), (1, 20), (40, 41)];
    let listed =
        book.list(&asked, Choice::Touching, 2048) == Ok(vec![3, 7]) && book.list(&asked, Choice::Holding, 2048) == Ok(vec![7]);
    let decided = book.decide([150, 12, 40]) == Some(three) && book.decide([200, 12, 40]).is_none();
    let revoked = book.revoke(3) == Ok(three) && book.decide([150, 12, 40]) == Some(seven);
    granted && again && listed && decided && revoked && book.live.len() == 1
}
