//! A reference implementation of document 01: one GPU sector cache, its record
//! streams and its rounds, with generators of inputs for comparing it.
//!
//! Nothing here is fast or clever on purpose; it is written to be held against
//! the text of document 01 line by line.

pub mod choices;
pub mod compare;
pub mod model;
pub mod owed;
pub mod percentage;
pub mod process;
pub mod random;
pub mod rounds;
pub mod runner;
pub mod streams;
pub mod tables;
