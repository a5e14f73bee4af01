//! The class at a position.

use numbers::call::{self, STAGE_PARENTS};
use numbers::layout::{MOST_SLOTS, OWN_ID_AT, OWN_SEQUENCE_AT, SLOT_OST_AT};
use numbers::object::SELF_AT;
use numbers::{object, parent};

use super::bytes::{Fid, NO_FID, is_used, number32, number64, row};
use super::layout::{holes_allowed, is_hole, layout_of};
use super::search::{claim_of, is_named_else, keeper, object_row, parent_row, slot_at};

#[derive(Clone, Copy, PartialEq, Eq)]
pub enum Class {
    Clean,
    SelfId,
    Hole,
    Multiple,
    Dangling,
    Blank,
    Unmatched(Fid),
    WrongOst,
    Owner,
    Spare,
    Empty,
    Orphan,
    Conflict,
    Kept,
    Unused,
}

impl Class {
    /// The numbers of the C interface.
    pub fn numbers(self) -> [u64; call::CLASS] {
        let number = match self {
            Class::Clean => 0,
            Class::SelfId => 1,
            Class::Hole => 2,
            Class::Multiple => 3,
            Class::Dangling => 4,
            Class::Blank => 5,
            Class::Unmatched(claim) => {
                return [6, claim.sequence, claim.id.into(), claim.version.into()];
            }
            Class::Owner => 7,
            Class::Spare => 8,
            Class::Empty => 9,
            Class::Orphan => 10,
            Class::Conflict => 11,
            Class::Kept => 12,
            Class::Unused => 13,
            Class::WrongOst => 14,
        };
        [number, 0, 0, 0]
    }
}

/// How the claimed place of an orphan can be had.
#[derive(Clone, Copy, PartialEq, Eq)]
pub enum Way {
    MakeParent,
    FillHole(usize),
    Grow(usize),
    ReplaceFresh(usize),
}

/// The class at a position that is not the end.
pub fn at(parents: &[u8], objects: &[u8], [stage, at, part]: [u64; call::POSITION]) -> Class {
    let at = at as usize;
    match (stage, part) {
        (STAGE_PARENTS, 0) => header(row(parents, parent::BYTES, at)),
        (STAGE_PARENTS, part) => slot(parents, objects, at, part as usize - 1),
        _ => object(parents, objects, at),
    }
}

/// The class of a header.
pub fn header(row: &[u8]) -> Class {
    if !is_used(row) {
        return Class::Unused;
    }
    let layout = layout_of(row);
    let fid = Fid::read(row, SELF_AT);
    let own = (
        number64(layout, OWN_SEQUENCE_AT),
        number64(layout, OWN_ID_AT),
    );
    if own == (fid.sequence, fid.id.into()) {
        Class::Clean
    } else {
        Class::SelfId
    }
}

/// The class of a slot.
pub fn slot(parents: &[u8], objects: &[u8], at: usize, index: usize) -> Class {
    let Some(slot) = slot_at(parents, at, index).filter(|slot| !is_hole(slot)) else {
        return Class::Hole;
    };
    let fid = Fid::read(slot, 0);
    let found = object_row(objects, fid);
    let claim = found.map_or(NO_FID, |object| claim_of(objects, object));
    if keeper(parents, fid, claim).found != Some((at, index)) {
        return Class::Multiple;
    }
    let Some(object) = found else {
        return Class::Dangling;
    };
    let parent = row(parents, parent::BYTES, at);
    let object = row(objects, object::BYTES, object);
    let owner = &object[object::OWNER_AT..object::CLAIM_AT];
    let own = Fid {
        version: index as u32,
        ..Fid::read(parent, SELF_AT)
    };
    if claim == NO_FID {
        Class::Blank
    } else if claim != own {
        Class::Unmatched(claim)
    } else if number32(object, object::OST_AT) != number32(slot, SLOT_OST_AT) {
        Class::WrongOst
    } else if *owner != parent[parent::OWNER_AT..parent::LENGTH_AT] {
        Class::Owner
    } else {
        Class::Clean
    }
}

/// The class of an object. One that is named has a keeper, which is looked for at the claimed
/// place first.
pub fn object(parents: &[u8], objects: &[u8], at: usize) -> Class {
    let own = row(objects, object::BYTES, at);
    if !is_used(own) {
        return Class::Unused;
    }
    let claim = Fid::read(own, object::CLAIM_AT);
    if keeper(parents, Fid::read(own, SELF_AT), claim)
        .found
        .is_some()
    {
        Class::Kept
    } else if claim == NO_FID {
        Class::Spare
    } else if own[object::FRESH_AT] == 1 {
        Class::Empty
    } else {
        way(parents, objects, claim).map_or(Class::Conflict, |_| Class::Orphan)
    }
}

/// How a claimed place can be had.
pub fn way(parents: &[u8], objects: &[u8], claim: Fid) -> Option<Way> {
    let index = claim.version as usize;
    if index >= MOST_SLOTS {
        return None;
    }
    let Some(at) = parent_row(parents, claim.file()) else {
        return Some(Way::MakeParent);
    };
    match slot_at(parents, at, index) {
        Some(slot) if is_hole(slot) => Some(Way::FillHole(at)),
        Some(slot) => {
            let named = Fid::read(slot, 0);
            let object = object_row(objects, named)?;
            let row = row(objects, object::BYTES, object);
            let fresh = row[object::FRESH_AT] == 1
                && Fid::read(row, object::CLAIM_AT) == claim
                && !is_named_else(parents, named, (at, index));
            fresh.then_some(Way::ReplaceFresh(at))
        }
        None => {
            let layout = layout_of(row(parents, parent::BYTES, at));
            holes_allowed(layout).then_some(Way::Grow(at))
        }
    }
}
