//! The algorithm of the verified library in plain Rust.
//!
//! The same searches in the same order: rows are looked for from the first on, in the bytes
//! that the caller lends, without any index; the claimed slot is looked at first; a FID that
//! stands twice is found by comparing every row with all later ones. Directories of a namespace
//! are found by a hash map. What is proved of the library is not proved of this; the tests compare
//! the two.

mod bytes;
mod check;
mod class;
mod decide;
mod intake;
mod keeper;
mod layout;
mod link;
mod listing;
mod names;
mod position;
mod repair;
mod run;
mod search;
mod writes;

pub use check::check;
pub use intake::{State as IntakeState, intake_end, intake_feed};
pub use keeper::keeper;
pub use link::{link_read, link_record, link_write};
pub use listing::classes;
pub use names::{names_find, names_judge, names_mend, names_pass};
pub use run::run;
pub use writes::step_writes;
