//! That the comparison can fail: each wrong version of the plain implementation must be caught.

use crate::cases::case::Case;
use crate::cases::random::Random;
use crate::cases::suite::{long_round, round};
use crate::oracle::wrong::{Wrong, ALL};
use crate::report::compare::{run, Difference, Tally};
use crate::report::orders;
use crate::report::shrink::shrink;

/// How many rounds a wrong version may last.
const ROUNDS: usize = 27;

/// The first case that shows a wrong version, and where.
fn catch(wrong: Wrong, seed: u64) -> Option<(Case, Difference)> {
    let mut random = Random::new(seed);
    let mut visit = |_, case: &Case| match run(case, wrong, &mut Tally::default()) {
        Ok(()) => Ok(()),
        Err(difference) => Err((case.clone(), difference)),
    };
    (0..ROUNDS).find_map(|i| round(&mut random, i, &mut visit).err()).or_else(|| long_round(&mut random, &mut visit).err())
}

/// The wrong versions that were not caught.
pub fn uncaught(seed: u64) -> Vec<Wrong> {
    ALL.into_iter().filter(|wrong| catch(*wrong, seed).is_none()).collect()
}

/// Prints each wrong version with the shortest history that shows it; whether all were caught.
pub fn show(seed: u64) -> bool {
    let mut all = true;
    for wrong in ALL {
        match catch(wrong, seed) {
            Some((case, difference)) => {
                let shortest = shrink(&case, difference.at, wrong);
                println!("{wrong:?}: caught, shortest history {}: {}", shortest.calls.len(), difference.what);
            }
            None => {
                println!("{wrong:?}: not caught");
                all = false;
            }
        }
    }
    orders::self_test::show(seed) && all
}
