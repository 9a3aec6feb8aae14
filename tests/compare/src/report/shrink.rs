//! The shortest history that still shows a difference, by dropping calls; then as many zeros in its pool as can be.

use crate::cases::case::Case;
use crate::oracle::wrong::Wrong;
use crate::report::compare::{run, Tally};

/// How many calls may be made in search of it: seconds, also where every call of a full pool of 2048 cells is needed.
const MOST_CALLS: usize = 300_000;

struct Shrink {
    case: Case,
    wrong: Wrong,
    calls_left: usize,
}

/// The shortest history of a case that fails in call `at`.
pub fn shrink(case: &Case, at: usize, wrong: Wrong) -> Case {
    let mut case = case.clone();
    case.calls.truncate(at + 1);
    let mut shrink = Shrink { case, wrong, calls_left: MOST_CALLS };
    shrink.drop_calls();
    shrink.clear_words();
    shrink.case
}

impl Shrink {
    /// Drops ever smaller runs of calls as long as the case still fails.
    fn drop_calls(&mut self) {
        let mut size = self.case.calls.len().div_ceil(2);
        loop {
            let dropped = self.drop_runs(size);
            if size <= 1 && !dropped {
                return;
            }
            size = if dropped { size.min(self.case.calls.len()) } else { size / 2 };
        }
    }

    /// Makes all words of the pool 0, or as many as can be.
    fn clear_words(&mut self) {
        let blank = Case { pool: vec![0; self.case.pool.len()], ..self.case.clone() };
        if self.fails(&blank) {
            self.case = blank;
            return;
        }
        for i in 0..self.case.pool.len() {
            let mut cleared = self.case.clone();
            cleared.pool[i] = 0;
            if self.fails(&cleared) {
                self.case = cleared;
            }
        }
    }

    /// Drops runs of `size` calls where it can; whether it did.
    fn drop_runs(&mut self, size: usize) -> bool {
        let mut dropped = false;
        let mut end = self.case.calls.len();
        while end > 0 && size > 0 {
            let start = end.saturating_sub(size);
            let mut shorter = self.case.clone();
            shorter.calls.drain(start..end);
            if self.fails(&shorter) {
                self.case = shorter;
                dropped = true;
            }
            end = start;
        }
        dropped
    }

    /// Whether a case fails; none does when the calls are used up.
    fn fails(&mut self, case: &Case) -> bool {
        let left = self.calls_left.checked_sub(case.calls.len());
        self.calls_left = left.unwrap_or(0);
        left.is_some() && run(case, self.wrong, &mut Tally::default()).is_err()
    }
}
