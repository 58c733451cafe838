//! Compares the proved library and lister with the second implementation: the
//! program makes all comparisons, and a fuzzer those that its inputs lead to.

// Only the bindings call C.
#![forbid(unsafe_code)]

pub mod accepted;
pub mod bench;
pub mod breaches;
pub mod calls;
mod census;
pub mod crowded;
pub mod exchange;
mod extremes;
mod fields;
pub mod fixed;
mod generated;
mod grid;
mod input;
pub mod lent;
pub mod library;
mod lister;
pub mod logs;
pub mod objects;
mod part;
pub mod queries;
pub mod random;
mod realistic;
pub mod run;
pub mod sessions;
pub mod shape;
mod subjects;
mod tally;
mod texts;
pub mod vectors;
pub mod verdict;
pub mod views;
mod wording;
