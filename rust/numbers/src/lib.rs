//! The numbers of documents 01 and 02 for the Rust programs, each once; what follows from others
//! is derived. The reference implementation keeps its own, to be independent.

pub mod answer;
pub mod call;
pub mod child;
pub mod entry;
pub mod fid;
pub mod intake;
pub mod layout;
pub mod link;
pub mod names;
pub mod object;
pub mod parent;
pub mod reserve;
