//! The writes of a step, made in the lent bytes.

use numbers::layout::{
    COUNT_AT, GENERATION_AT, HEADER_ONE, HOLES, MAGIC_AT, MAGIC_ONE, OWN_ID_AT, OWN_SEQUENCE_AT,
    PATTERN_AT, SLOT_BYTES, SLOT_GENERATION_AT, SLOT_OST_AT, STRIPE_SIZE_AT,
};
use numbers::object::SELF_AT;
use numbers::{object, parent};

use super::bytes::{Fid, number16, number32, row, row_mut};
use super::decide::Write;
use super::layout::{slot_start, stripe_count};
use super::search::Place;

/// The stripe size of a file that is made.
const STRIPE_SIZE_MADE: u32 = 1 << 20;

/// Makes one write.
pub fn put(parents: &mut [u8], objects: &mut [u8], write: Write) {
    match write {
        Write::New(at, fid, ost, place) => {
            let row = row_mut(objects, object::BYTES, at);
            row[0] = 1;
            fid.write(row, SELF_AT);
            row[object::OST_AT..object::OWNER_AT].copy_from_slice(&ost.to_le_bytes());
            row[object::FRESH_AT] = 1;
            match_object(parents, row, place);
        }
        Write::Match(at, place) => {
            match_object(parents, row_mut(objects, object::BYTES, at), place);
        }
        Write::Destroy(at) => row_mut(objects, object::BYTES, at).fill(0),
        Write::Own(at) => write_own(row_mut(parents, parent::BYTES, at)),
        Write::Name((at, index), fid, ost) => {
            let row = row_mut(parents, parent::BYTES, at);
            write_slot(row, index, fid, ost);
            raise_generation(row);
        }
        Write::Index((at, index), ost) => {
            let row = row_mut(parents, parent::BYTES, at);
            slot_mut(row, index)[SLOT_OST_AT..].copy_from_slice(&ost.to_le_bytes());
            raise_generation(row);
        }
        Write::Grow((at, index), fid, ost) => {
            let row = row_mut(parents, parent::BYTES, at);
            grow(row, index + 1);
            write_slot(row, index, fid, ost);
            raise_generation(row);
        }
        Write::Make((at, index), orphan) => {
            let orphan = row(objects, object::BYTES, orphan);
            make_parent(row_mut(parents, parent::BYTES, at), index, orphan);
        }
    }
}

fn write_own(row: &mut [u8]) {
    let fid = Fid::read(row, SELF_AT);
    let layout = &mut row[parent::LAYOUT_AT..];
    layout[OWN_ID_AT..OWN_SEQUENCE_AT].copy_from_slice(&u64::from(fid.id).to_le_bytes());
    layout[OWN_SEQUENCE_AT..STRIPE_SIZE_AT].copy_from_slice(&fid.sequence.to_le_bytes());
}

/// The bytes of a slot.
fn slot_mut(row: &mut [u8], index: usize) -> &mut [u8] {
    let place = parent::LAYOUT_AT + slot_start(&row[parent::LAYOUT_AT..]) + SLOT_BYTES * index;
    &mut row[place..place + SLOT_BYTES]
}

fn write_slot(row: &mut [u8], index: usize, fid: Fid, ost: u32) {
    let slot = slot_mut(row, index);
    fid.write(slot, 0);
    slot[SLOT_GENERATION_AT..SLOT_OST_AT].fill(0);
    slot[SLOT_OST_AT..].copy_from_slice(&ost.to_le_bytes());
}

/// The slots of a file are others: its layout's generation goes up by one, the last to 0.
fn raise_generation(row: &mut [u8]) {
    let layout = &mut row[parent::LAYOUT_AT..];
    let raised = number16(layout, GENERATION_AT).wrapping_add(1);
    layout[GENERATION_AT..HEADER_ONE].copy_from_slice(&raised.to_le_bytes());
}

/// The object of a row claims the slot and has its file's owner.
fn match_object(parents: &[u8], object: &mut [u8], (at, index): Place) {
    let parent = row(parents, parent::BYTES, at);
    let claim = Fid {
        version: index as u32,
        ..Fid::read(parent, SELF_AT)
    };
    claim.write(object, object::CLAIM_AT);
    object[object::OWNER_AT..object::CLAIM_AT]
        .copy_from_slice(&parent[parent::OWNER_AT..parent::LENGTH_AT]);
}

/// More slots, all holes.
fn grow(row: &mut [u8], count: usize) {
    let start = parent::LAYOUT_AT + slot_start(&row[parent::LAYOUT_AT..]);
    let old = start + SLOT_BYTES * stripe_count(&row[parent::LAYOUT_AT..]);
    let new = start + SLOT_BYTES * count;
    row[old..new].fill(0);
    let count_at = parent::LAYOUT_AT + COUNT_AT;
    row[count_at..count_at + 2].copy_from_slice(&(count as u16).to_le_bytes());
    row[parent::LENGTH_AT..parent::LAYOUT_AT]
        .copy_from_slice(&((new - parent::LAYOUT_AT) as u16).to_le_bytes());
    debug_assert_eq!(
        usize::from(number16(row, parent::LENGTH_AT)),
        new - parent::LAYOUT_AT
    );
}

/// A file of holes up to the slot that names the orphan, with the orphan's owner.
fn make_parent(row: &mut [u8], index: usize, orphan: &[u8]) {
    let file = Fid::read(orphan, object::CLAIM_AT).file();
    row[0] = 1;
    file.write(row, SELF_AT);
    row[parent::OWNER_AT..parent::LENGTH_AT]
        .copy_from_slice(&orphan[object::OWNER_AT..object::CLAIM_AT]);
    let layout = &mut row[parent::LAYOUT_AT..];
    layout[MAGIC_AT..PATTERN_AT].copy_from_slice(&MAGIC_ONE.to_le_bytes());
    layout[PATTERN_AT..OWN_ID_AT].copy_from_slice(&HOLES.to_le_bytes());
    layout[STRIPE_SIZE_AT..COUNT_AT].copy_from_slice(&STRIPE_SIZE_MADE.to_le_bytes());
    layout[COUNT_AT..HEADER_ONE].fill(0);
    write_own(row);
    grow(row, index + 1);
    let ost = number32(orphan, object::OST_AT);
    write_slot(row, index, Fid::read(orphan, SELF_AT), ost);
}
