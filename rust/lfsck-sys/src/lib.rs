//! Safe wrappers round the C interface of the verified library.
//!
//! The functions take slices and numbers and answer the paper's numbers. They have no
//! conditions: the library checks whatever it is handed. The one thing that nothing checks is
//! that the declarations here are those of the library, so they are kept in the order and the
//! words of `include/lfsck_layout.h`.
//!
//! A slice is handed over as a pointer and a count of elements. A Rust slice's pointer is
//! aligned and never null, also where the slice is empty; the library keeps no pointer after
//! the call, reads and writes within the counts, and a slice that is lent by `&mut` overlaps
//! no other.

mod check;
mod class;
mod intake;
mod keeper;
mod layout;
mod link;
mod names;
mod run;
mod writes;

pub use check::{check, start, steps};
pub use class::{class, classes};
pub use intake::{intake_end, intake_feed};
pub use keeper::keeper;
pub use layout::{layout_read, layout_slot, layout_write, slot_rewrite};
pub use link::{link_read, link_record, link_write};
pub use names::{names_find, names_judge, names_mend, names_pass};
pub use run::run;
pub use writes::step_writes;
