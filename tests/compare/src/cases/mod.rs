//! The cases that are tried: histories, files good and damaged, records of openings, scrambled pools, one set of grants by many histories,
//! all from a seed.

pub mod boxes;
pub mod case;
pub mod chains;
pub mod damage;
pub mod file_cases;
pub mod histories;
pub mod openings;
pub mod orders;
pub mod other_parents;
pub mod pools;
pub mod questions;
pub mod random;
pub mod scramble;
pub mod sets;
pub mod styles;
pub mod suite;
