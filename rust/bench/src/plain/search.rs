//! The searches, each from the first row on.

use numbers::layout::SLOT_BYTES;
use numbers::{object, parent, reserve};

use super::bytes::{Fid, NO_FID, has_fid, is_used, row};
use super::layout::{names, slot, slot_area};

/// A slot of a parent row.
pub type Place = (usize, usize);

/// The row of a FID.
fn row_of(table: &[u8], size: usize, fid: Fid) -> Option<usize> {
    table.chunks_exact(size).position(|row| has_fid(row, fid))
}

pub fn object_row(objects: &[u8], fid: Fid) -> Option<usize> {
    row_of(objects, object::BYTES, fid)
}

pub fn parent_row(parents: &[u8], fid: Fid) -> Option<usize> {
    row_of(parents, parent::BYTES, fid)
}

/// The first unused row.
pub fn unused(table: &[u8], size: usize) -> Option<usize> {
    table.chunks_exact(size).position(|row| !is_used(row))
}

/// Slot `index` of parent row `at`, if there is one.
pub fn slot_at(parents: &[u8], at: usize, index: usize) -> Option<&[u8]> {
    let area = slot_area(row(parents, parent::BYTES, at));
    (index < area.len() / SLOT_BYTES).then(|| slot(area, index))
}

/// A search for a slot that names an object: what it found, and how many slots it compared.
pub struct Search {
    pub found: Option<Place>,
    pub compared: usize,
}

impl Search {
    /// The same search, with the slots that were compared before it.
    fn after(self, compared: usize) -> Search {
        Search {
            compared: compared + self.compared,
            ..self
        }
    }
}

/// The first slot of parent row `at` that names an object.
fn first_in(parents: &[u8], fid: Fid, at: usize) -> Search {
    let mut slots = slot_area(row(parents, parent::BYTES, at)).chunks_exact(SLOT_BYTES);
    let count = slots.len();
    let index = slots.position(|slot| names(slot, fid));
    Search {
        found: index.map(|index| (at, index)),
        compared: index.map_or(count, |index| index + 1),
    }
}

/// The first slot in scan order that names an object.
fn first_naming(parents: &[u8], fid: Fid) -> Search {
    let mut compared = 0;
    for at in 0..parents.len() / parent::BYTES {
        let search = first_in(parents, fid, at).after(compared);
        if search.found.is_some() {
            return search;
        }
        compared = search.compared;
    }
    Search {
        found: None,
        compared,
    }
}

/// Whether a slot other than `place` names an object.
pub fn is_named_else(parents: &[u8], fid: Fid, place: Place) -> bool {
    let mut rows = parents.chunks_exact(parent::BYTES).enumerate();
    rows.any(|(at, row)| {
        let mut slots = slot_area(row).chunks_exact(SLOT_BYTES).enumerate();
        slots.any(|(index, slot)| names(slot, fid) && (at, index) != place)
    })
}

/// The claim of the object in a row.
pub fn claim_of(objects: &[u8], at: usize) -> Fid {
    Fid::read(row(objects, object::BYTES, at), object::CLAIM_AT)
}

/// The keeper of an object with this claim: the claimed slot if that one names it; else the
/// first slot naming it in the claimed parent; else the first in scan order.
pub fn keeper(parents: &[u8], fid: Fid, claim: Fid) -> Search {
    if claim == NO_FID {
        return first_naming(parents, fid);
    }
    let Some(at) = parent_row(parents, claim.file()) else {
        return first_naming(parents, fid);
    };
    let index = claim.version as usize;
    let claimed = slot_at(parents, at, index);
    let compared = usize::from(claimed.is_some());
    if claimed.is_some_and(|slot| names(slot, fid)) {
        return Search {
            found: Some((at, index)),
            compared,
        };
    }
    let in_parent = first_in(parents, fid, at).after(compared);
    if in_parent.found.is_some() {
        return in_parent;
    }
    first_naming(parents, fid).after(in_parent.compared)
}

/// The first FID of the reserve that is neither in the object table nor named by a slot.
pub fn usable(parents: &[u8], objects: &[u8], reserve: &[u8]) -> Option<Fid> {
    let fids = (0..reserve.len() / reserve::BYTES)
        .map(|at| Fid::read(row(reserve, reserve::BYTES, at), 0));
    let in_use =
        |fid: Fid| object_row(objects, fid).is_some() || first_naming(parents, fid).found.is_some();
    fids.into_iter().find(|&fid| !in_use(fid))
}

/// The first row with a fresh object that has this claim and that no slot names.
pub fn waiting(parents: &[u8], objects: &[u8], claim: Fid) -> Option<usize> {
    let mut rows = objects.chunks_exact(object::BYTES);
    rows.position(|row| {
        is_used(row)
            && row[object::FRESH_AT] == 1
            && Fid::read(row, object::CLAIM_AT) == claim
            && first_naming(parents, Fid::read(row, object::SELF_AT))
                .found
                .is_none()
    })
}
