//! One step of a run: the class at a position, and its repair.

use crate::answer::{NO_OBJECT_ROW, NO_PARENT_ROW, NO_RESERVE};
use crate::class::{Class, Way, way_to};
use crate::fid::Fid;
use crate::layout::{Layout, Stripe, Version};
use crate::position::Position;
use crate::site::{Place, Site};
use crate::tables::{Object, Parent};

/// Which repairs a run may make beside those that it always makes.
#[derive(Clone, Copy, Debug, PartialEq, Eq)]
pub struct Policy {
    /// Make objects for slots that have none of their own.
    pub create: bool,
    /// Put objects that no slot names in their places, and destroy empty ones.
    pub adopt: bool,
}

/// Why a step could not be made: one of 21 to 23.
pub type Stop = u32;

impl Policy {
    /// The policy in bits 0 and 1 of a number.
    pub fn of_number(number: u64) -> Policy {
        Policy {
            create: number & 1 != 0,
            adopt: number & 2 != 0,
        }
    }
}

/// Makes the step at a position. Hands back the class that was repaired, if any was.
pub fn step(
    site: &mut Site,
    position: Position,
    policy: Policy,
    reserve: &[Fid],
) -> Result<Option<Class>, Stop> {
    let repaired = repair(site, position, policy, reserve)?;
    raise_generations(site);
    Ok(repaired)
}

/// Every file that was there before a step and has other slots after it, or another number of
/// them, gets the next generation.
fn raise_generations(site: &mut Site) {
    for (row, parent) in site.take_replaced() {
        let after = site.parent(row).map(|parent| &parent.layout.slots);
        if after != Some(&parent.layout.slots) {
            change_parent(site, row, |parent| parent.layout.raise_generation());
        }
    }
    site.take_replaced();
}

/// The repair of the class at a position, without the generations.
fn repair(
    site: &mut Site,
    position: Position,
    policy: Policy,
    reserve: &[Fid],
) -> Result<Option<Class>, Stop> {
    let Some(class) = Class::at(site, position) else {
        return Ok(None);
    };
    let repaired = match position {
        Position::Header { row } => repair_header(site, row, class),
        Position::Slot { row, slot } => {
            repair_slot(site, Place { row, slot }, class, policy.create, reserve)?
        }
        Position::Object { row } => policy.adopt && repair_object(site, row, class)?,
        Position::End => false,
    };
    Ok(repaired.then_some(class))
}

fn repair_header(site: &mut Site, row: usize, class: Class) -> bool {
    if class == Class::SelfId {
        change_parent(site, row, |parent| {
            parent.layout.own_id = parent.fid.id.into();
            parent.layout.own_sequence = parent.fid.sequence;
        });
    }
    class == Class::SelfId
}

fn repair_slot(
    site: &mut Site,
    place: Place,
    class: Class,
    create: bool,
    reserve: &[Fid],
) -> Result<bool, Stop> {
    let Some(stripe) = site.stripe(place) else {
        return Ok(false);
    };
    match class {
        Class::Multiple if create => redirect(site, place, stripe, reserve)?,
        Class::Dangling if create => make_object(site, place, stripe)?,
        Class::Blank | Class::Unmatched(_) | Class::WrongOst => {
            match_object(site, place, stripe);
            match_index(site, place, stripe);
        }
        Class::Owner => match_object(site, place, stripe),
        _ => return Ok(false),
    }
    Ok(true)
}

/// Gives the slot an object of its own: a fresh one that waits for it, or else a new one under the
/// first FID of the reserve that nothing uses.
fn redirect(site: &mut Site, place: Place, stripe: Stripe, reserve: &[Fid]) -> Result<(), Stop> {
    if let Some(row) = waiting_row(site, place) {
        take_place(site, row, place);
        return Ok(());
    }
    let is_used = |fid: Fid| site.object_row(fid).is_some() || site.named_by(fid).next().is_some();
    let unused = reserve.iter().copied().find(|&fid| !is_used(fid));
    let redirected = Stripe {
        object: unused.ok_or(NO_RESERVE)?,
        generation: 0,
        ost: stripe.ost,
    };
    make_object(site, place, redirected)?;
    set_slot(site, place, redirected);
    Ok(())
}

/// The first row with a fresh object that claims this very slot and that no slot names.
fn waiting_row(site: &Site, place: Place) -> Option<usize> {
    let waits = |object: &Object| {
        object.fresh
            && object.claim == site.claim_on(place)
            && site.named_by(object.fid).next().is_none()
    };
    let rows = &site.tables().objects;
    rows.iter().position(|row| row.as_ref().is_some_and(waits))
}

/// A fresh object for a slot that names, or is to name, it.
fn make_object(site: &mut Site, place: Place, stripe: Stripe) -> Result<(), Stop> {
    let objects = &site.tables().objects;
    let row = objects
        .iter()
        .position(Option::is_none)
        .ok_or(NO_OBJECT_ROW)?;
    let object = site.parent(place.row).map(|parent| Object {
        fid: stripe.object,
        ost: stripe.ost,
        owner: parent.owner,
        claim: site.claim_on(place),
        fresh: true,
    });
    site.put_object(row, object);
    Ok(())
}

/// The slot's object claims the slot and has its file's owner.
fn match_object(site: &mut Site, place: Place, stripe: Stripe) {
    let Some(row) = site.object_row(stripe.object) else {
        return;
    };
    let object = site.object(row).zip(site.parent(place.row));
    let matched = object.map(|(object, parent)| Object {
        claim: site.claim_on(place),
        owner: parent.owner,
        ..*object
    });
    site.put_object(row, matched);
}

/// The slot names the OST that its object is on. Its generation stays.
fn match_index(site: &mut Site, place: Place, stripe: Stripe) {
    let row = site.object_row(stripe.object);
    if let Some(ost) = row.and_then(|row| Some(site.object(row)?.ost)) {
        set_slot(site, place, Stripe { ost, ..stripe });
    }
}

fn repair_object(site: &mut Site, row: usize, class: Class) -> Result<bool, Stop> {
    match class {
        Class::Empty => site.put_object(row, None),
        Class::Orphan => adopt(site, row)?,
        _ => return Ok(false),
    }
    Ok(true)
}

/// Puts an orphan in the place that it claims.
fn adopt(site: &mut Site, orphan: usize) -> Result<(), Stop> {
    let Some((object, claim)) = site
        .object(orphan)
        .and_then(|object| Some((*object, object.claim?)))
    else {
        return Ok(());
    };
    let slot = claim.index as usize;
    let parent_row = site.parent_row(claim.parent);
    match (way_to(site, claim), parent_row) {
        (Ok(Way::MakeParent), _) => return make_parent(site, object, claim.parent, slot),
        (Ok(Way::Grow), Some(row)) => change_parent(site, row, |parent| {
            parent.layout.slots.resize(slot + 1, None);
        }),
        (Ok(Way::ReplaceFresh), Some(row)) => destroy_named(site, Place { row, slot }),
        _ => (),
    }
    if let Some(row) = parent_row {
        take_place(site, orphan, Place { row, slot });
    }
    Ok(())
}

/// A file that has nothing but the orphan, in its last slot.
fn make_parent(site: &mut Site, orphan: Object, fid: Fid, slot: usize) -> Result<(), Stop> {
    let parents = &site.tables().parents;
    let row = parents
        .iter()
        .position(Option::is_none)
        .ok_or(NO_PARENT_ROW)?;
    let mut slots = vec![None; slot];
    slots.push(Some(stripe_of(orphan)));
    let layout = Layout {
        version: Version::One,
        holes_allowed: true,
        own_id: fid.id.into(),
        own_sequence: fid.sequence,
        stripe_size: 1_048_576,
        generation: 0,
        slots,
    };
    let owner = orphan.owner;
    site.put_parent(row, Parent { fid, owner, layout });
    Ok(())
}

/// The slot names the object that claims it, and the object has its file's owner.
fn take_place(site: &mut Site, row: usize, place: Place) {
    let Some(object) = site.object(row).copied() else {
        return;
    };
    set_slot(site, place, stripe_of(object));
    match_object(site, place, stripe_of(object));
}

fn destroy_named(site: &mut Site, place: Place) {
    let named = site
        .stripe(place)
        .and_then(|stripe| site.object_row(stripe.object));
    if let Some(row) = named {
        site.put_object(row, None);
    }
}

/// A slot for an object where it is.
fn stripe_of(object: Object) -> Stripe {
    Stripe {
        object: object.fid,
        generation: 0,
        ost: object.ost,
    }
}

fn set_slot(site: &mut Site, place: Place, stripe: Stripe) {
    change_parent(site, place.row, |parent| {
        parent.layout.slots[place.slot] = Some(stripe);
    });
}

fn change_parent(site: &mut Site, row: usize, change: impl FnOnce(&mut Parent)) {
    if let Some(mut parent) = site.parent(row).cloned() {
        change(&mut parent);
        site.put_parent(row, parent);
    }
}
