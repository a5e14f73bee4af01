//! The run.

use super::hand_out;
use crate::answer::NO_ROOM;
use crate::check::{Faults, faults, read_reserve, read_tables};
use crate::position::Position;
use crate::run;
use crate::site::Site;
use crate::step::Policy;

/// The numbers of a report: the steps done and the repairs by class.
const REPORT_NUMBERS: usize = 1 + run::COUNTED;

/// Checks the input, then makes at most `most` steps. Tables and position are changed in
/// place; the report is handed out.
pub fn run(
    parents: &mut [u8],
    objects: &mut [u8],
    reserve: &[u8],
    policy: u64,
    most: u64,
    position: &mut [u64],
    report: &mut [u64],
) -> u32 {
    // Stage 0 is no position, and neither are fewer or more than three numbers.
    let numbers = <[u64; 3]>::try_from(&*position).unwrap_or([0; 3]);
    let faults = faults(parents, objects, reserve, policy, numbers);
    if let Some(&refusal) = faults.first() {
        return refusal;
    }
    if report.len() < REPORT_NUMBERS {
        return NO_ROOM;
    }
    let (tables, _) = read_tables(parents, objects);
    let Some(start) = Position::of_numbers(numbers, &tables) else {
        unreachable!("the check found the position");
    };
    let reserve = read_reserve(reserve, &mut Faults::new());
    let mut site = Site::new(tables);
    let outcome = run::run(&mut site, Policy::of_number(policy), &reserve, start, most);
    site.write_back(parents, objects);
    position.copy_from_slice(&outcome.position.to_numbers());
    let mut numbers = [0; REPORT_NUMBERS];
    numbers[0] = outcome.steps;
    numbers[1..].copy_from_slice(&outcome.repairs);
    hand_out(&numbers, report);
    outcome.answer
}
