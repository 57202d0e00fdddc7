//! The comparison: the library's answers, and those of the program `steps`, held
//! against the model and demand 3, and what is said of them.

pub mod batch;
pub mod caller;
pub mod calls;
pub mod counts;
pub mod coverage;
pub mod databases;
pub mod rare;
pub mod report;
pub mod shrink;
pub mod steps;
