//! What documents 01 and 02 say of every call, on plain lists and on any words: shares nothing with the library.

pub mod arguments;
pub mod block_read;
pub mod book;
pub mod file;
pub mod honest;
pub mod judge;
pub mod layout;
pub mod marked;
pub mod openings;
pub mod overlap;
pub mod parents;
pub mod plain;
pub mod points;
pub mod positions;
pub mod relation;
pub mod removals;
pub mod scrambled;
pub mod sound;
pub mod tree;
pub mod walks;
pub mod words;
pub mod wrong;
