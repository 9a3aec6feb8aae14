//! An index as its callers see it: the library's, or a plain one.

use crate::interface::answer::Answer;
use crate::interface::call::Call;
use crate::interface::lent::Lent;

/// What a call answered and left in the memory lent to it.
pub struct Observed {
    pub answer: Answer,
    pub lent: Lent,
    /// The memory around what was lent is as it was.
    pub guards_stand: bool,
}

pub trait Index {
    fn make(&mut self, call: &Call) -> Observed;

    /// The pool's words.
    fn words(&self) -> &[u16];
}
