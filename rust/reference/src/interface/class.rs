//! The class at a position, and the classes from one on.

use super::hand_out;
use crate::answer::{DONE, NO_POSITION, NO_ROOM};
use crate::check::read_tables;
use crate::class::Class;
use crate::position::Position;
use crate::site::Site;

/// The numbers of a class.
const CLASS_NUMBERS: usize = 4;

/// Hands out the class at a position, 4 numbers: its number and, of an object that claims
/// another slot, the claimed sequence, id and index.
pub fn class(parents: &[u8], objects: &[u8], position: [u64; 3], out: &mut [u64]) -> u32 {
    let (tables, faults) = read_tables(parents, objects);
    if let Some(&refusal) = faults.first() {
        return refusal;
    }
    let position = Position::of_numbers(position, &tables);
    let site = Site::new(tables);
    match position.and_then(|position| Class::at(&site, position)) {
        Some(class) => hand_out(&numbers_of(class), out),
        None => NO_POSITION,
    }
}

/// Hands out the classes from a position on, as many as `out` has whole places for, and how many
/// they are; the position moves to the first that was not told.
pub fn classes(
    parents: &[u8],
    objects: &[u8],
    position: &mut [u64],
    out: &mut [u64],
    done: &mut [u64],
) -> u32 {
    let (tables, faults) = read_tables(parents, objects);
    if let Some(&refusal) = faults.first() {
        return refusal;
    }
    let given: Option<&mut [u64; 3]> = position.try_into().ok();
    let begin = given.and_then(|given| Some((Position::of_numbers(*given, &tables)?, given)));
    let Some((begin, position)) = begin else {
        return NO_POSITION;
    };
    let Some(done) = done.first_mut() else {
        return NO_ROOM;
    };
    let site = Site::new(tables);
    let mut told = 0;
    let mut left = Position::all(site.tables()).skip_while(|&position| position != begin);
    let mut at = left.next().unwrap_or(Position::End);
    for place in out.chunks_exact_mut(CLASS_NUMBERS) {
        let Some(class) = Class::at(&site, at) else {
            break;
        };
        place.copy_from_slice(&numbers_of(class));
        told += 1;
        at = left.next().unwrap_or(Position::End);
    }
    *position = at.to_numbers();
    *done = told;
    DONE
}

fn numbers_of(class: Class) -> [u64; CLASS_NUMBERS] {
    match class {
        Class::Unmatched(claim) => [
            class.number(),
            claim.parent.sequence,
            claim.parent.id.into(),
            claim.index.into(),
        ],
        _ => [class.number(), 0, 0, 0],
    }
}
