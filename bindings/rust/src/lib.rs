//! The grant index for luggage lockers: safe functions over its C interface (include/lg.h).
//!
//! `Index` owns its memory; the module `pool` has the same calls over words that the caller holds, `file` reads one block of a
//! grants file. `compare_openings` holds a door record against a panel record. Nothing is required of a caller: each call finds the
//! fault itself and then leaves all memory as it was. examples/night_shift.rs is a page that shows it.

mod answer;
mod choice;
mod fault;
mod ffi;
mod grant;
mod index;
mod openings;

pub mod file;
pub mod pool;

pub use answer::{Count, Decision, Match};
pub use choice::Choice;
pub use fault::Fault;
pub use grant::{Bounds, Grant, HalfOpen, Kind, Span};
pub use index::{BadCapacity, Index};
pub use openings::{compare_openings, Comparison, Opening};
