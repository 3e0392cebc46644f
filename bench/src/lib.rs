//! What the measured programs share: the cache in plain Rust twice, over the lent tables (`flat`)
//! and over tables of its own (`own`), with the stream runner of both; and the streams.

pub mod calls;
pub mod events;
pub mod flat;
pub mod own;
pub mod runner;
pub mod stream;
