//! The library as its users call it: the C archive through the Rust wrapper, in guarded memory.

pub mod guarded;
pub mod product;
