//! The C interface, on the same numbers and byte slices as the library's.
//!
//! Every function answers a number of [`crate::answer`] and, where it refuses, writes nothing.

mod check;
mod class;
mod intake;
mod keeper;
mod layout;
mod link;
mod names;
mod run;
mod writes;

pub use check::{check, start, steps};
pub use class::{class, classes};
pub use intake::{Feeding, STATE_BYTES};
pub use keeper::keeper;
pub use layout::{
    layout_of_numbers, layout_read, layout_slot, layout_write, numbers_of_slot, slot_of_numbers,
    slot_rewrite,
};
pub use link::{LinkFault, LinkFaults, link_of_numbers, link_read, link_record, link_write};
pub use names::{Working, names_find, names_judge, names_mend, names_pass};
pub use run::run;
pub use writes::step_writes;

use crate::answer::{DONE, NO_ROOM};

/// Numbers for the caller, in the first places that it lends.
fn hand_out(numbers: &[u64], out: &mut [u64]) -> u32 {
    match out.get_mut(..numbers.len()) {
        Some(places) => {
            places.copy_from_slice(numbers);
            DONE
        }
        None => NO_ROOM,
    }
}
