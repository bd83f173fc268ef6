//! The cases: which calls are compared, and what is lent to them.

pub mod all;
pub mod balance;
pub mod case;
pub mod encodes;
pub mod fields;
pub mod fills;
pub mod findings;
pub mod jobs;
pub mod lent;
pub mod lists;
pub mod loans;
pub mod rebuilds;
pub mod runs;
pub mod shapes;
pub mod shelves;
pub mod writes;
pub mod written;
