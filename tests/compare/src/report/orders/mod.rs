//! The same grants by other histories (document 02, card 7), looked for in the answers of indexes alone: what list, decide and write should
//! answer is not known here.

pub mod altered;
pub mod built;
pub mod comparison;
pub mod reached;
pub mod self_test;
pub mod shown;
