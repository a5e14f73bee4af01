//! The namespace check: the entries of directories against the children that they name.

mod check;
mod find;
mod judge;
mod mend;
mod rows;

pub use check::{Fault, Faults, MOST_ROWS, read, read_marks, refusal};
pub use find::{FidFinding, find};
pub use judge::{MOST_LEVELS, Mark, ROOT, judge};
pub use mend::{Mended, mend, visible_directories};
pub use rows::{CHILD_BYTES, Child, ENTRY_BYTES, Entry, LINK_ROOM, MOST_NAME, Namespace};

#[cfg(test)]
mod tests;
