//! What a call is given and what is seen of it: grants, calls, answers, lent memory, and the index it is made on. The library and the oracle
//! share it.

pub mod answer;
pub mod call;
pub mod choice;
pub mod grant;
pub mod index;
pub mod lent;
