//! Striping layouts in the lent bytes.

use numbers::fid::{ID_AT, SEQUENCE_AT};
use numbers::layout::{
    COUNT_AT, HEADER_ONE, HEADER_THREE, HOLES, LAST_OST, MAGIC_AT, MAGIC_ONE, MAGIC_THREE,
    MOST_SLOTS, PATTERN_AT, PLAIN, SLOT_BYTES, SLOT_OST_AT, STRIPE_SIZE_AT, STRIPE_UNIT,
};
use numbers::parent;

use super::bytes::{Fid, is_used, number16, number32, number64};

/// Where the slots start.
pub fn slot_start(layout: &[u8]) -> usize {
    if number32(layout, MAGIC_AT) == MAGIC_THREE {
        HEADER_THREE
    } else {
        HEADER_ONE
    }
}

pub fn stripe_count(layout: &[u8]) -> usize {
    number16(layout, COUNT_AT).into()
}

pub fn holes_allowed(layout: &[u8]) -> bool {
    number32(layout, PATTERN_AT) == HOLES
}

/// Whether a layout meets every rule.
pub fn is_good(layout: &[u8]) -> bool {
    if layout.len() < HEADER_ONE {
        return false;
    }
    let (start, count) = (slot_start(layout), stripe_count(layout));
    let magic = number32(layout, MAGIC_AT);
    let pattern = number32(layout, PATTERN_AT);
    layout.len() == start + SLOT_BYTES * count
        && (magic == MAGIC_ONE || magic == MAGIC_THREE)
        && (pattern == PLAIN || pattern == HOLES)
        && count <= MOST_SLOTS
        && is_stripe_size(number32(layout, STRIPE_SIZE_AT))
        && layout[start..]
            .chunks_exact(SLOT_BYTES)
            .all(|slot| is_good_slot(slot, pattern == HOLES))
}

fn is_stripe_size(size: u32) -> bool {
    size != 0 && size.is_multiple_of(STRIPE_UNIT)
}

/// Slot `index` of the bytes after the header.
pub fn slot(area: &[u8], index: usize) -> &[u8] {
    &area[SLOT_BYTES * index..SLOT_BYTES * index + SLOT_BYTES]
}

pub fn is_hole(slot: &[u8]) -> bool {
    number64(slot, 0) == 0 && number64(slot, 8) == 0 && number64(slot, 16) == 0
}

fn is_good_slot(slot: &[u8], holes: bool) -> bool {
    if is_hole(slot) {
        return holes;
    }
    Fid::read(slot, 0).is_good() && number32(slot, SLOT_OST_AT) <= LAST_OST
}

/// Whether a slot names an object; the zeros of a hole name none.
pub fn names(slot: &[u8], fid: Fid) -> bool {
    number32(slot, ID_AT) == fid.id && number64(slot, SEQUENCE_AT) == fid.sequence
}

/// The layout of a used parent row.
pub fn layout_of(row: &[u8]) -> &[u8] {
    &row[parent::LAYOUT_AT..parent::LAYOUT_AT + usize::from(number16(row, parent::LENGTH_AT))]
}

/// The slots of a parent row: no bytes where it is unused.
pub fn slot_area(row: &[u8]) -> &[u8] {
    if !is_used(row) {
        return &row[..0];
    }
    let layout = layout_of(row);
    &layout[slot_start(layout)..]
}
