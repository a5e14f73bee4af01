//! The run.

use numbers::answer::{OK, STEPS_USED};
use numbers::call::{END, POSITION, REPORT};

use super::check::check;
use super::decide::{Lent, decide};
use super::position::next;
use super::repair::put;

/// Checks the input, then makes at most `most` steps.
pub fn run(
    parents: &mut [u8],
    objects: &mut [u8],
    reserve: &[u8],
    policy: u64,
    most: u64,
    position: &mut [u64; POSITION],
    report: &mut [u64; REPORT],
) -> u32 {
    let refusal = check(parents, objects, reserve, policy, *position);
    if refusal != OK {
        return refusal;
    }
    report.fill(0);
    while *position != END {
        if report[0] == most {
            return STEPS_USED;
        }
        let lent = Lent {
            parents,
            objects,
            reserve,
        };
        match decide(lent, policy, *position) {
            Ok(None) => (),
            Ok(Some((count, writes))) => {
                let writes = writes.into_iter().flatten();
                writes.for_each(|write| put(parents, objects, write));
                report[1 + count] += 1;
            }
            Err(stop) => return stop,
        }
        report[0] += 1;
        *position = next(parents, objects, *position);
    }
    OK
}
