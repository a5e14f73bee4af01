//! The writes of a step.

use super::hand_out;
use crate::answer::{NO_POSITION, NO_ROOM};
use crate::check::{Faults, faults, read_reserve, read_tables};
use crate::position::Position;
use crate::site::Site;
use crate::step::Policy;
use crate::writes::{Record, writes};

/// The most writes of a step.
const MOST_WRITES: usize = 3;
/// The numbers of a list of writes: how many, and of each its table and its row.
const WRITES_NUMBERS: usize = 1 + 2 * MOST_WRITES;

/// Checks the input, then hands out the writes of the step at a position. Nothing is changed. The
/// end has no step.
pub fn step_writes(
    parents: &[u8],
    objects: &[u8],
    reserve: &[u8],
    policy: u64,
    position: [u64; 3],
    out: &mut [u64],
) -> u32 {
    let faults = faults(parents, objects, reserve, policy, position);
    if let Some(&refusal) = faults.first() {
        return refusal;
    }
    let (tables, _) = read_tables(parents, objects);
    let position = match Position::of_numbers(position, &tables) {
        None | Some(Position::End) => return NO_POSITION,
        Some(position) => position,
    };
    if out.len() < WRITES_NUMBERS {
        return NO_ROOM;
    }
    let reserve = read_reserve(reserve, &mut Faults::new());
    let policy = Policy::of_number(policy);
    match writes(&Site::new(tables), position, policy, &reserve) {
        Ok(records) => hand_out(&numbers_of(&records), out),
        Err(stop) => stop,
    }
}

fn numbers_of(records: &[Record]) -> [u64; WRITES_NUMBERS] {
    let mut numbers = [0; WRITES_NUMBERS];
    numbers[0] = records.len() as u64;
    for (write, &record) in records.iter().enumerate() {
        let (table, row) = match record {
            Record::Parent(row) => (0, row),
            Record::Object(row) => (1, row),
        };
        numbers[1 + 2 * write..][..2].copy_from_slice(&[table, row as u64]);
    }
    numbers
}
