//! That the comparison of the same grants can fail, though it doesn't know the right answers: on plain indexes that are wrong or whose
//! answers depend on more than their grants, and on indexes of the library that hold other grants.

use crate::cases::random::Random;
use crate::interface::answer::Answer;
use crate::interface::call::Call;
use crate::interface::choice::CHOICES;
use crate::interface::grant::{Grant, DOORS, EVERYTHING};
use crate::interface::index::Index;
use crate::library::product::Product;
use crate::oracle::plain::Plain;
use crate::oracle::words::fresh;
use crate::oracle::wrong::Wrong;
use crate::report::orders::altered::{Altered, ALTERATIONS};
use crate::report::orders::built::{write_for, Maker};
use crate::report::orders::comparison::{first_unlike, sizes, Asked, Found, Orders};

/// How many rounds a wrong index may last, and how many the right one must.
const ROUNDS: usize = 6;
const RIGHT_ROUNDS: usize = 1;

/// Wrong versions that must be noticed, and the calls that must show them.
const WRONG: [(Wrong, &[&str]); 6] = [
    (Wrong::FileInTreeOrder, &["write"]),
    (Wrong::FirstMetAmongEquals, &["decide"]),
    (Wrong::RevokeForgetsTheNext, &["list", "list_holding", "decide", "write", "grant", "revoke"]),
    (Wrong::FullOneGrantEarly, &["grant"]),
    (Wrong::MatchIgnoresRank, &["match"]),
    (Wrong::ListTailCleared, &["list", "list_holding"]),
];

/// A wrong index in words, the calls that must show it, and what was found in one of them.
struct Noticed {
    what: String,
    calls: Vec<&'static str>,
    found: Option<Found>,
}

/// What the comparison has wrong.
pub fn failing(seed: u64) -> Vec<String> {
    let in_right = found_in(&plain(Wrong::Nothing), seed, RIGHT_ROUNDS, &|_| true);
    let in_right = in_right.map(|found| format!("found in right indexes: {}: {}", found.call, found.what));
    let unnoticed = noticed(seed).into_iter().filter(|noticed| noticed.found.is_none());
    let unnoticed = unnoticed.map(|Noticed { what, calls, .. }| format!("not noticed in {}: {what}", calls.join(", ")));
    let of_others = unnoticed_of_others().into_iter().map(|what| format!("not told apart: {what}"));
    in_right.into_iter().chain(unnoticed).chain(of_others).map(|what| format!("the same grants: {what}")).collect()
}

/// Prints what shows each wrong index; whether all is well.
pub fn show(seed: u64) -> bool {
    for Noticed { what, found, .. } in noticed(seed) {
        let shown = found.map_or("not noticed".to_string(), |found| format!("noticed in {}, {}", found.call.name(), found.what));
        println!("the same grants: {what}: {shown}");
    }
    failing(seed).is_empty()
}

fn noticed(seed: u64) -> Vec<Noticed> {
    let look = |what: String, calls: &[&'static str], maker: Maker| {
        let found = found_in(maker, seed, ROUNDS, &|found| calls.contains(&found.call.name()));
        Noticed { what, calls: calls.to_vec(), found }
    };
    let wrong = WRONG.iter().map(|(wrong, calls)| look(format!("{wrong:?}"), calls, &plain(*wrong)));
    let altered = ALTERATIONS
        .iter()
        .map(|(what, call, alter)| look(what.to_string(), &[*call], &|words| Box::new(Altered::new(words, *alter))));
    wrong.chain(altered).collect()
}

fn plain(wrong: Wrong) -> impl Fn(&[u16]) -> Box<dyn Index> {
    move |words| Box::new(Plain::new(words, wrong))
}

/// The first of some kind that the comparison finds in some rounds.
fn found_in(maker: Maker, seed: u64, rounds: usize, is_meant: &dyn Fn(&Found) -> bool) -> Option<Found> {
    let mut random = Random::new(seed);
    let mut orders = Orders::new(maker);
    (0..rounds).find_map(|i| {
        let sizes = sizes(&mut random, i).into_iter();
        sizes.filter_map(|size| orders.set(&mut random, size).err()).find(is_meant)
    })
}

/// The other grants that the library's indexes don't show in just those of lists under either choice, decide and write that must.
fn unnoticed_of_others() -> Vec<String> {
    let grant = |number, rank, kind| Grant { number, rank, kind, bounds: [(5, 9), (5, 9), (5, 9)] };
    let [a, b, c] = [grant(1, 10, 0), grant(2, 10, 1), grant(3, 20, 1)];
    let others = [
        ("the same in another order", vec![c, a, b], [false; 4]),
        ("one absent", vec![a, b], [true; 4]),
        ("another rank", vec![a, b, grant(3, 21, 1)], [false, false, true, true]),
        ("another kind", vec![a, b, grant(3, 20, 0)], [false, false, true, true]),
        ("another number", vec![a, b, grant(4, 20, 1)], [true; 4]),
    ];
    let shown = |other: &[Grant]| shown_in(&[a, b, c], other);
    others.iter().filter(|(_, other, right)| shown(other) != Some(*right)).map(|(what, ..)| what.to_string()).collect()
}

/// In which of lists under either choice, decide and write two indexes of the library with these grants differ.
fn shown_in(first: &[Grant], other: &[Grant]) -> Option<[bool; 4]> {
    let (mut first, mut other) = (library_of(first)?, library_of(other)?);
    let [touching, holding] = CHOICES.map(|choice| Call::List([(5, 9), (5, 9), (5, 9)], choice, 4));
    let calls = [touching, holding, Call::Decide([5, 9, 8]), write_for(EVERYTHING[DOORS])];
    Some(calls.map(|call| first_unlike(&[Asked { seen: first.make(&call), call }], &mut other).is_some()))
}

/// An index of the library with these grants, and no more room.
fn library_of(grants: &[Grant]) -> Option<Product> {
    let mut index = Product::new(&fresh(grants.len()));
    grants.iter().all(|grant| index.make(&Call::Grant(*grant)).answer == Answer::Done).then_some(index)
}
