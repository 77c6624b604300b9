//! The declaration ring in plain Rust, from the same rules as the proved one: what the benchmark compares with.

pub mod book;
pub mod protocol;
pub mod replay;
pub mod ring;
pub mod script;
pub mod station;
pub mod wire;
