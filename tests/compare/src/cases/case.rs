//! A case: a pool and calls.

use crate::interface::call::{hex_of_words, Call};
use std::fmt;

/// A pool's words, and the calls made on it one after the other.
#[derive(Clone)]
pub struct Case {
    pub pool: Vec<u16>,
    pub calls: Vec<Call>,
}

impl fmt::Display for Case {
    fn fmt(&self, f: &mut fmt::Formatter<'_>) -> fmt::Result {
        writeln!(f, "pool {}", hex_of_words(&self.pool))?;
        self.calls.iter().try_for_each(|call| writeln!(f, "{call}"))
    }
}
