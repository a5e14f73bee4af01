//! One step, decided: the class, then the records that its repair writes, in their order.

use numbers::answer::{NO_OBJECT_ROW, NO_PARENT_ROW, NO_RESERVE};
use numbers::call::{ADOPT, CREATE, MOST_WRITES, POSITION, STAGE_PARENTS};
use numbers::layout::SLOT_OST_AT;
use numbers::object::SELF_AT;
use numbers::{object, parent};

use super::bytes::{Fid, number32, row};
use super::class::{Class, Way, header, object, slot, way};
use super::layout::is_hole;
use super::search::{Place, object_row, slot_at, unused, usable, waiting};

/// The lent tables, to be looked at.
#[derive(Clone, Copy)]
pub struct Lent<'call> {
    pub parents: &'call [u8],
    pub objects: &'call [u8],
    pub reserve: &'call [u8],
}

/// A record that is written.
#[derive(Clone, Copy)]
pub enum Write {
    /// A new object of this row, with FID and OST, for a slot.
    New(usize, Fid, u32, Place),
    /// The object of this row claims a slot and has its file's owner.
    Match(usize, Place),
    /// The object of this row is destroyed.
    Destroy(usize),
    /// The file of this row has its own id and sequence.
    Own(usize),
    /// A slot names an object on an OST.
    Name(Place, Fid, u32),
    /// A slot names what it did, on this OST.
    Index(Place, u32),
    /// A layout grows up to a slot, which names an object on an OST.
    Grow(Place, Fid, u32),
    /// A file is made in a row up to a slot, for the orphan of another row.
    Make(Place, usize),
}

/// The count that a repair adds to, and its writes.
pub type Repair = (usize, [Option<Write>; MOST_WRITES]);

/// A repair, none where a step rests, or the stop in front of it.
type Decided = Result<Option<Repair>, u32>;

/// The step at a position.
pub fn decide(lent: Lent, policy: u64, [stage, at, part]: [u64; POSITION]) -> Decided {
    let at = at as usize;
    match (stage, part) {
        (STAGE_PARENTS, 0) => Ok(header_step(lent, at)),
        (STAGE_PARENTS, part) => slot_step(lent, policy, (at, part as usize - 1)),
        _ => object_step(lent, policy, at),
    }
}

fn header_step(lent: Lent, at: usize) -> Option<Repair> {
    match header(row(lent.parents, parent::BYTES, at)) {
        Class::SelfId => Some((0, [Some(Write::Own(at)), None, None])),
        _ => None,
    }
}

/// The class comes before the policy.
fn slot_step(lent: Lent, policy: u64, place: Place) -> Decided {
    let (at, index) = place;
    let named = slot_at(lent.parents, at, index).filter(|slot| !is_hole(slot));
    let Some((fid, ost)) = named.map(|slot| (Fid::read(slot, 0), number32(slot, SLOT_OST_AT)))
    else {
        return Ok(None);
    };
    let create = policy & CREATE != 0;
    match slot(lent.parents, lent.objects, at, index) {
        Class::Multiple if create => redirect(lent, place, ost).map(Some),
        Class::Dangling if create => {
            let free = unused(lent.objects, object::BYTES).ok_or(NO_OBJECT_ROW)?;
            let new = Write::New(free, fid, ost, place);
            Ok(Some((2, [Some(new), None, None])))
        }
        Class::Blank => Ok(mend(lent, place, fid, ost, 3)),
        Class::Unmatched(_) => Ok(mend(lent, place, fid, ost, 4)),
        Class::Owner => Ok(mend(lent, place, fid, ost, 5)),
        Class::WrongOst => Ok(mend(lent, place, fid, ost, 8)),
        _ => Ok(None),
    }
}

/// The slot gets a fresh object that waits for it, or else a new one.
fn redirect(lent: Lent, place: Place, ost: u32) -> Result<Repair, u32> {
    if let Some(object) = waiting(lent.parents, lent.objects, claim_on(lent, place)) {
        let own = row(lent.objects, object::BYTES, object);
        let name = Write::Name(
            place,
            Fid::read(own, SELF_AT),
            number32(own, object::OST_AT),
        );
        return Ok((1, [owner_write(lent, object, place), Some(name), None]));
    }
    let fid = usable(lent.parents, lent.objects, lent.reserve).ok_or(NO_RESERVE)?;
    let free = unused(lent.objects, object::BYTES).ok_or(NO_OBJECT_ROW)?;
    let new = Write::New(free, fid, ost, place);
    Ok((1, [Some(new), Some(Write::Name(place, fid, ost)), None]))
}

/// The claim of an object that belongs in a slot.
fn claim_on(lent: Lent, (at, index): Place) -> Fid {
    Fid {
        version: index as u32,
        ..Fid::read(row(lent.parents, parent::BYTES, at), SELF_AT)
    }
}

/// Whether an object has the owner of the file of a slot.
fn is_owned(lent: Lent, object: usize, (at, _): Place) -> bool {
    let parent = row(lent.parents, parent::BYTES, at);
    let object = row(lent.objects, object::BYTES, object);
    object[object::OWNER_AT..object::CLAIM_AT] == parent[parent::OWNER_AT..parent::LENGTH_AT]
}

/// The owner of an object that takes the slot that it claims, where it differs.
fn owner_write(lent: Lent, object: usize, place: Place) -> Option<Write> {
    (!is_owned(lent, object, place)).then_some(Write::Match(object, place))
}

/// Claim and owner of the object, then the slot's OST index, each where it differs. The row of the
/// object is looked for once more.
fn mend(lent: Lent, place: Place, fid: Fid, ost: u32, count: usize) -> Option<Repair> {
    let object = object_row(lent.objects, fid)?;
    let own = row(lent.objects, object::BYTES, object);
    let claims = Fid::read(own, object::CLAIM_AT) == claim_on(lent, place);
    let matches = claims && is_owned(lent, object, place);
    let index = number32(own, object::OST_AT);
    let writes = [
        (!matches).then_some(Write::Match(object, place)),
        (index != ost).then_some(Write::Index(place, index)),
        None,
    ];
    Some((count, writes))
}

/// The policy comes before the class.
fn object_step(lent: Lent, policy: u64, at: usize) -> Decided {
    if policy & ADOPT == 0 {
        return Ok(None);
    }
    match object(lent.parents, lent.objects, at) {
        Class::Empty => Ok(Some((6, [Some(Write::Destroy(at)), None, None]))),
        Class::Orphan => adopt(lent, at),
        _ => Ok(None),
    }
}

/// An orphan is put in the place that it claims, by the way in which it can be had.
fn adopt(lent: Lent, orphan: usize) -> Decided {
    let own = row(lent.objects, object::BYTES, orphan);
    let claim = Fid::read(own, object::CLAIM_AT);
    let (fid, ost) = (Fid::read(own, SELF_AT), number32(own, object::OST_AT));
    let index = claim.version as usize;
    let owner = |at| owner_write(lent, orphan, (at, index));
    let writes = match way(lent.parents, lent.objects, claim) {
        None => return Ok(None),
        Some(Way::MakeParent) => {
            let at = unused(lent.parents, parent::BYTES).ok_or(NO_PARENT_ROW)?;
            [Some(Write::Make((at, index), orphan)), None, None]
        }
        Some(Way::FillHole(at)) => [Some(Write::Name((at, index), fid, ost)), owner(at), None],
        Some(Way::Grow(at)) => [Some(Write::Grow((at, index), fid, ost)), owner(at), None],
        Some(Way::ReplaceFresh(at)) => {
            let fresh = slot_at(lent.parents, at, index).map(|slot| Fid::read(slot, 0));
            let fresh = fresh.and_then(|fresh| object_row(lent.objects, fresh));
            let name = Write::Name((at, index), fid, ost);
            [Some(name), owner(at), fresh.map(Write::Destroy)]
        }
    };
    Ok(Some((7, writes)))
}
