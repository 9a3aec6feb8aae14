//! A case run on the library and on the plain implementation, held against each other after every call.

use crate::cases::case::Case;
use crate::interface::answer::Answer;
use crate::interface::grant::Grant;
use crate::interface::index::{Index, Observed};
use crate::library::product::Product;
use crate::oracle::plain::{Expected, Plain};
use crate::oracle::sound::is_sound;
use crate::oracle::wrong::Wrong;
use crate::report::{banks, promises};
use std::collections::BTreeMap;

/// Where the two first differ, and how.
#[derive(Debug)]
pub struct Difference {
    pub at: usize,
    pub what: String,
}

/// What a run has tried.
#[derive(Default)]
pub struct Tally {
    pub calls: usize,
    /// Each refusal by call, number and cause, and what else a run must reach; how often it was seen.
    pub reached: BTreeMap<String, usize>,
    /// How often a grant decided, and how often its number did, among grants of equal rank.
    pub decisions: usize,
    pub ties: usize,
    /// How many lists of banks were head office's.
    pub bank_lists: usize,
}

pub fn run(case: &Case, wrong: Wrong, tally: &mut Tally) -> Result<(), Difference> {
    let mut product = Product::new(&case.pool);
    let mut plain = Plain::new(&case.pool, wrong);
    for (at, call) in case.calls.iter().enumerate() {
        let expected = plain.step(call);
        let observed = product.make(call);
        let broken = promises::broken(call, observed.answer, &mut product);
        let differs = || difference(&expected, &observed).or_else(|| pool_difference(&expected, &plain, &product));
        if let Some(what) = broken.or_else(differs) {
            return Err(Difference { at, what });
        }
        if expected.pool_is_free {
            plain.adopt(product.words());
        }
        tally.calls += 1;
        let equals = plain.of_highest_rank(call);
        tally.decisions += usize::from(equals > 0);
        tally.ties += usize::from(equals > 1);
        for reached in expected.reached {
            *tally.reached.entry(reached).or_default() += 1;
        }
    }
    if let Some(live) = plain.live() {
        tally.bank_lists +=
            left_right(&mut product, live).map_err(|what| Difference { at: case.calls.len().saturating_sub(1), what })?;
    }
    Ok(())
}

/// Of a pool that calls made, after all of them: that it is sound, and how many lists of its banks are its own.
fn left_right(product: &mut Product, live: &[Grant]) -> Result<usize, String> {
    match is_sound(product.words(), live) {
        false => Err("the pool is not sound".to_string()),
        true => banks::lists_alike(product, live),
    }
}

/// The first difference in guards, answer or lent memory.
fn difference(expected: &Expected, observed: &Observed) -> Option<String> {
    if !observed.guards_stand {
        return Some("memory outside what was lent changed".to_string());
    }
    let Some(answer) = expected.answer else {
        return match observed.answer {
            Answer::Refused(fault) => Some(format!("accepted is right, the library refuses with {fault:?}")),
            _ => None,
        };
    };
    if answer != observed.answer {
        return Some(format!("{answer:?} is right, the library answers {:?}", observed.answer));
    }
    let (place, right, seen) = expected.lent.first_difference(&observed.lent)?;
    Some(format!("lent element {place}: {right} is right, the library leaves {seen}"))
}

fn pool_difference(expected: &Expected, plain: &Plain, product: &Product) -> Option<String> {
    if expected.pool_is_free {
        return None;
    }
    let place = plain.words().iter().zip(product.words()).position(|(a, b)| a != b)?;
    Some(format!("pool word {place}: {} is right, the library leaves {}", plain.words()[place], product.words()[place]))
}
