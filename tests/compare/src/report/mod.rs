//! The two held against each other: runs, the shortest history of a difference, what must be reached, the trace.

pub mod banks;
pub mod compare;
pub mod orders;
pub mod promises;
pub mod required;
pub mod self_test;
pub mod shrink;
pub mod trace;
pub mod whole_run;
