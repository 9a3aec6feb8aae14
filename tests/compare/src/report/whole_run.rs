//! A whole run: the rounds, what they must have reached, the wrong versions, and the line that says so.

use crate::cases::case::Case;
use crate::cases::random::Random;
use crate::cases::suite::{self, Family};
use crate::interface::call::Call;
use crate::interface::index::Index;
use crate::library::product::Product;
use crate::oracle::wrong::{self, Wrong};
use crate::oracle::{marked, points};
use crate::report::compare::{run, Tally};
use crate::report::orders::comparison::Orders;
use crate::report::{banks, orders, required, self_test, shrink};
use std::collections::BTreeSet;

/// Every so many rounds comes a long one.
const LONG_EVERY: usize = 30;

/// Of so many decisions by a grant, at least one is between grants of equal rank.
const DECISIONS_PER_TIE: usize = 3;

/// What a run has tried, by family.
#[derive(Default)]
pub struct Counts {
    tally: Tally,
    files: usize,
    pairs: usize,
    scrambled: usize,
}

impl Counts {
    /// The number of each refusal that was seen, once for each of its causes.
    fn refusals(&self) -> impl Iterator<Item = u8> + '_ {
        self.tally.reached.keys().filter_map(|reached| reached.split_whitespace().nth(1)?.parse().ok())
    }

    /// How many of the documents' faults were seen.
    pub fn faults(&self) -> usize {
        self.refusals().collect::<BTreeSet<_>>().len()
    }

    /// Whether a call was refused with a number, as `list 8`, by any cause.
    pub fn has(&self, refusal: &str) -> bool {
        let is_of =
            |reached: &String| reached.strip_prefix(refusal).is_some_and(|cause| cause.is_empty() || cause.starts_with(' '));
        self.tally.reached.keys().any(is_of)
    }

    /// Runs a case; on a difference prints the shortest history that shows it.
    pub fn visit(&mut self, family: Family, case: &Case) -> Result<(), ()> {
        match family {
            Family::History => {}
            Family::File => self.files += case.calls.iter().filter(|call| matches!(call, Call::Load(_))).count(),
            Family::Openings => self.pairs += case.calls.len(),
            Family::Scrambled => self.scrambled += 1,
        }
        run(case, Wrong::Nothing, &mut self.tally).map_err(|difference| {
            println!("compare: {}", difference.what);
            let shortest = shrink::shrink(case, difference.at, Wrong::Nothing);
            let shown = run(&shortest, Wrong::Nothing, &mut Tally::default()).err();
            println!(
                "compare: the shortest history with a difference, in its last call:\n{shortest}{}",
                shown.map_or(String::new(), |shown| shown.what)
            );
        })
    }
}

/// An index of the library.
fn library(words: &[u16]) -> Box<dyn Index> {
    Box::new(Product::new(words))
}

/// Makes a round of cases against the plain implementation.
fn make_round(random: &mut Random, i: usize, counts: &mut Counts) -> Result<(), ()> {
    let mut visit = |family, case: &Case| counts.visit(family, case);
    suite::round(random, i, &mut visit)?;
    match i.is_multiple_of(LONG_EVERY) {
        true => suite::long_round(random, &mut visit),
        false => Ok(()),
    }
}

/// Makes a round over the same grants; prints what is found.
fn make_round_of_orders(random: &mut Random, i: usize, orders: &mut Orders) -> Result<(), ()> {
    let made = orders.round(random, i).and_then(|()| match i.is_multiple_of(LONG_EVERY) {
        true => orders.long_round(random),
        false => Ok(()),
    });
    made.map_err(|found| orders::shown::show(&library, &found))
}

/// Makes the rounds and prints one line, or what is wrong; whether all is well. The rounds over the same grants draw for themselves, so that
/// the other cases don't depend on them.
pub fn compare(seed: u64, rounds: usize) -> bool {
    let mut random = Random::new(seed);
    let mut random_of_orders = Random::new(!seed);
    let mut counts = Counts::default();
    let mut orders = Orders::new(&library);
    for i in 0..rounds {
        let made = make_round(&mut random, i, &mut counts);
        if made.and_then(|()| make_round_of_orders(&mut random_of_orders, i, &mut orders)).is_err() {
            println!("compare: seed {seed}, round {i}: the library differs");
            return false;
        }
    }
    let uncaught = self_test::uncaught(seed);
    println!("{}", summary(seed, &counts, &orders, uncaught.len()));
    is_whole(seed, &counts, &orders, &uncaught)
}

/// Whether a run without differences has reached everything and can fail; prints what it lacks.
fn is_whole(seed: u64, counts: &Counts, orders: &Orders, uncaught: &[Wrong]) -> bool {
    let mut missing = required::missing(&counts.tally.reached);
    missing.extend(orders::reached::missing(&orders.reached));
    let impossible = required::impossible(&counts.tally.reached);
    let failing = failing(seed);
    let ties_are_common = counts.tally.ties * DECISIONS_PER_TIE >= counts.tally.decisions.max(1);
    missing.iter().for_each(|refusal| println!("compare: not reached: {refusal}"));
    impossible.iter().for_each(|refusal| println!("compare: reached, and can't be: {refusal}"));
    uncaught.iter().for_each(|wrong| println!("compare: not caught: {wrong:?}"));
    failing.iter().for_each(|what| println!("compare: {what}"));
    if !ties_are_common {
        println!("compare: fewer than one decision in {DECISIONS_PER_TIE} was between grants of equal rank");
    }
    missing.is_empty() && impossible.is_empty() && uncaught.is_empty() && failing.is_empty() && ties_are_common
}

/// What the comparison itself has wrong.
fn failing(seed: u64) -> Vec<String> {
    let marked = marked::failing().into_iter().map(|name| format!("marked cases that the scan gets wrong: {name}"));
    let points = points::failing().into_iter().map(|name| format!("not as single points have it: {name}"));
    let banks = (!banks::notices_a_lack()).then(|| "a bank that lacks a grant is not noticed".to_string());
    marked.chain(points).chain(banks).chain(orders::self_test::failing(seed)).collect()
}

fn summary(seed: u64, counts: &Counts, orders: &Orders, uncaught: usize) -> String {
    format!(
        "compare: seed {seed}: {} calls, {} files, {} pairs of records and {} scrambled pools as documents 01 and 02 have them; \
         {} faults reached by {} causes; {} decisions, {} at equal rank; {} lists of banks as head office has them; \
         {} indexes of the same grants by other histories answer and write alike, {} of other grants write otherwise; \
         {} of {} wrong versions caught",
        counts.tally.calls,
        counts.files,
        counts.pairs,
        counts.scrambled,
        counts.faults(),
        counts.refusals().count(),
        counts.tally.decisions,
        counts.tally.ties,
        counts.tally.bank_lists,
        orders.alike,
        orders.apart,
        wrong::ALL.len() - uncaught,
        wrong::ALL.len()
    )
}
