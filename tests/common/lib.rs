//! What the tests and the benchmarks share: the C interface in Rust, and numbers to try it on.

pub mod interface;
pub mod random;
