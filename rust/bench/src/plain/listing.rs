//! The classes from a position on.

use numbers::answer::OK;
use numbers::call::{CLASS, END, POSITION};

use super::check::check;
use super::class;
use super::position::next;

/// Checks the input, then tells the classes of as many positions as `out` has places for.
pub fn classes(
    parents: &[u8],
    objects: &[u8],
    position: &mut [u64; POSITION],
    out: &mut [u64],
    done: &mut u64,
) -> u32 {
    let refusal = check(parents, objects, &[], 0, *position);
    if refusal != OK {
        return refusal;
    }
    *done = 0;
    for place in out.chunks_exact_mut(CLASS) {
        if *position == END {
            break;
        }
        place.copy_from_slice(&class::at(parents, objects, *position).numbers());
        *done += 1;
        *position = next(parents, objects, *position);
    }
    OK
}
