//! The check, the start and the number of steps.

use super::hand_out;
use crate::answer::DONE;
use crate::check::{Faults, faults, read_tables};
use crate::position::{Position, count_steps};
use crate::tables::Tables;

/// Whether a run may be made with this input: 0, or the least number of what is wrong.
pub fn check(
    parents: &[u8],
    objects: &[u8],
    reserve: &[u8],
    policy: u64,
    position: [u64; 3],
) -> u32 {
    least(&faults(parents, objects, reserve, policy, position))
}

/// Hands out the position where a run begins.
pub fn start(parents: &[u8], objects: &[u8], position: &mut [u64]) -> u32 {
    of_sound_tables(parents, objects, position, |tables| {
        Position::start(tables).to_numbers()
    })
}

/// Hands out how many steps an uncut run takes.
pub fn steps(parents: &[u8], objects: &[u8], out: &mut [u64]) -> u32 {
    of_sound_tables(parents, objects, out, |tables| [count_steps(tables) as u64])
}

fn of_sound_tables<const COUNT: usize>(
    parents: &[u8],
    objects: &[u8],
    out: &mut [u64],
    numbers: fn(&Tables) -> [u64; COUNT],
) -> u32 {
    let (tables, faults) = read_tables(parents, objects);
    match least(&faults) {
        DONE => hand_out(&numbers(&tables), out),
        refusal => refusal,
    }
}

/// The answer to some faults.
pub(super) fn least(faults: &Faults) -> u32 {
    faults.first().copied().unwrap_or(DONE)
}
