//! The writes of a step.

use numbers::answer::{NO_POSITION, OK};
use numbers::call::{END, POSITION, ROW, TABLE_OBJECTS, TABLE_PARENTS, WRITES};

use super::check::check;
use super::decide::{Lent, Write, decide};

/// Checks the input, then tells which rows the step at a position writes.
pub fn step_writes(
    parents: &[u8],
    objects: &[u8],
    reserve: &[u8],
    policy: u64,
    position: [u64; POSITION],
    out: &mut [u64; WRITES],
) -> u32 {
    let refusal = check(parents, objects, reserve, policy, position);
    if refusal != OK {
        return refusal;
    }
    if position == END {
        return NO_POSITION;
    }
    let lent = Lent {
        parents,
        objects,
        reserve,
    };
    let repair = match decide(lent, policy, position) {
        Ok(repair) => repair,
        Err(stop) => return stop,
    };
    let writes = repair.into_iter().flat_map(|(_, writes)| writes).flatten();
    let mut count = 0;
    out.fill(0);
    for (place, write) in out[1..].chunks_exact_mut(ROW).zip(writes) {
        place.copy_from_slice(&row_of(write));
        count += 1;
    }
    out[0] = count;
    OK
}

/// Table and row of a write.
fn row_of(write: Write) -> [u64; ROW] {
    let (table, row) = match write {
        Write::New(row, ..) | Write::Match(row, _) | Write::Destroy(row) => (TABLE_OBJECTS, row),
        Write::Own(row)
        | Write::Name((row, _), ..)
        | Write::Index((row, _), _)
        | Write::Grow((row, _), ..)
        | Write::Make((row, _), _) => (TABLE_PARENTS, row),
    };
    [table, row as u64]
}
