//! Positions: stage, row and part.

use numbers::call::{END, POSITION, STAGE_OBJECTS, STAGE_PARENTS};
use numbers::layout::SLOT_BYTES;
use numbers::{object, parent};

use super::bytes::row;
use super::layout::slot_area;

/// The slots of a parent row.
fn width(parents: &[u8], at: usize) -> u64 {
    (slot_area(row(parents, parent::BYTES, at)).len() / SLOT_BYTES) as u64
}

pub fn exists(parents: &[u8], objects: &[u8], position: [u64; POSITION]) -> bool {
    let [stage, row, part] = position;
    match stage {
        STAGE_PARENTS => {
            row < (parents.len() / parent::BYTES) as u64 && part <= width(parents, row as usize)
        }
        STAGE_OBJECTS => row < (objects.len() / object::BYTES) as u64 && part == 0,
        _ => position == END,
    }
}

pub fn next(parents: &[u8], objects: &[u8], position: [u64; POSITION]) -> [u64; POSITION] {
    let [stage, row, part] = position;
    match stage {
        STAGE_PARENTS if part < width(parents, row as usize) => [STAGE_PARENTS, row, part + 1],
        STAGE_PARENTS if row + 1 < (parents.len() / parent::BYTES) as u64 => {
            [STAGE_PARENTS, row + 1, 0]
        }
        STAGE_PARENTS => object_or_end(objects, 0),
        STAGE_OBJECTS => object_or_end(objects, row + 1),
        _ => END,
    }
}

fn object_or_end(objects: &[u8], row: u64) -> [u64; POSITION] {
    if row < (objects.len() / object::BYTES) as u64 {
        [STAGE_OBJECTS, row, 0]
    } else {
        END
    }
}
