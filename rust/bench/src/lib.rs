//! What the benchmarks need: tables at full size, and the library's algorithm in plain Rust.

pub mod dump;
pub mod input;
pub mod measure;
pub mod namespace;
pub mod plain;
