//! What the test programs share: random numbers from a seed, and the ways of a command line. Requests, replies and
//! settings are those of the wrapper that hosts use.

pub mod program;
mod random;

pub use random::{Random, mix};
