//! The check of a call's input.

use numbers::layout::LAST_OST;
use numbers::object::SELF_AT;
use numbers::{answer, call, object, parent, reserve};

use super::bytes::{Fid, NO_FID, has_fid, is_used, number16, number32};
use super::layout;
use super::position::exists;

/// 0, or the lowest of 11 to 16 that applies.
pub fn check(
    parents: &[u8],
    objects: &[u8],
    reserve: &[u8],
    policy: u64,
    position: [u64; 3],
) -> u32 {
    if !(is_whole(parents, parent::BYTES, parent::MOST)
        && is_whole(objects, object::BYTES, object::MOST)
        && is_whole(reserve, reserve::BYTES, reserve::MOST)
        && objects.chunks(object::BYTES).all(is_fresh_mark))
    {
        answer::BAD_TABLE
    } else if policy > call::BOTH {
        answer::BAD_POLICY
    } else if !parents.chunks(parent::BYTES).all(is_good_layout) {
        answer::BAD_LAYOUT
    } else if !(parents.chunks(parent::BYTES).all(is_good_parent)
        && objects.chunks(object::BYTES).all(is_good_object)
        && reserve
            .chunks(reserve::BYTES)
            .all(|entry| Fid::read(entry, 0).is_good()))
    {
        answer::BAD_FID
    } else if !(none_twice(parents, parent::BYTES) && none_twice(objects, object::BYTES)) {
        answer::FID_TWICE
    } else if !exists(parents, objects, position) {
        answer::NO_POSITION
    } else {
        answer::OK
    }
}

/// Whole rows, not too many, and every used mark 0 or 1; the reserve has no marks.
fn is_whole(table: &[u8], size: usize, most: usize) -> bool {
    table.len().is_multiple_of(size)
        && table.len() / size <= most
        && (size == reserve::BYTES || table.chunks(size).all(|row| row[0] <= 1))
}

fn is_fresh_mark(row: &[u8]) -> bool {
    !is_used(row) || row[object::FRESH_AT] <= 1
}

fn is_good_layout(row: &[u8]) -> bool {
    if !is_used(row) {
        return true;
    }
    let length = usize::from(number16(row, parent::LENGTH_AT));
    row[parent::LAYOUT_AT..]
        .get(..length)
        .is_some_and(layout::is_good)
}

fn is_good_parent(row: &[u8]) -> bool {
    !is_used(row) || Fid::read(row, SELF_AT).is_good()
}

fn is_good_object(row: &[u8]) -> bool {
    let claim = Fid::read(row, object::CLAIM_AT);
    !is_used(row)
        || Fid::read(row, SELF_AT).is_good()
            && number32(row, object::OST_AT) <= LAST_OST
            && (claim == NO_FID || claim.is_good_number())
            && (row[object::FRESH_AT] != 1 || claim != NO_FID)
}

/// Whether no two used rows have the same FID: each is compared with all later ones.
fn none_twice(table: &[u8], size: usize) -> bool {
    let mut rows = table.chunks_exact(size);
    while let Some(row) = rows.next() {
        let fid = Fid::read(row, SELF_AT);
        if is_used(row) && rows.clone().any(|later| has_fid(later, fid)) {
            return false;
        }
    }
    true
}
