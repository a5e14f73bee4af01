//! The layout check and repair, and the namespace check, in plain Rust, written from the papers
//! alone.
//!
//! It is slow and simple on purpose, and shares nothing with the verified library: bytes are
//! read into vectors and options, changed there, and written back. The differential tests
//! compare the two.

pub mod answer;
pub mod check;
pub mod class;
pub mod fid;
pub mod intake;
pub mod interface;
pub mod layout;
pub mod link;
pub mod names;
pub mod position;
pub mod run;
pub mod search;
pub mod site;
pub mod step;
pub mod tables;
mod take;
pub mod writes;
