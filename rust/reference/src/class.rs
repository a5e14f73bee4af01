//! The class of a header, a slot and an object.

use crate::fid::Fid;
use crate::layout::{MOST_SLOTS, Stripe};
use crate::position::Position;
use crate::site::{Place, Site};
use crate::tables::{Claim, Object, Parent};

/// What is found at a position.
#[derive(Clone, Copy, Debug, PartialEq, Eq)]
pub enum Class {
    /// A header or a slot with nothing to mend.
    Clean,
    /// A header whose own id or sequence is not the file's.
    SelfId,
    /// A slot of zeros.
    Hole,
    /// A slot that is not the keeper of the object that it names.
    Multiple,
    /// A keeper whose object is absent.
    Dangling,
    /// A keeper whose object claims nothing.
    Blank,
    /// A keeper whose object claims another slot: this one.
    Unmatched(Claim),
    /// A keeper whose object claims it and is on another OST than it names.
    WrongOst,
    /// A keeper whose object claims it, on the OST that it names, and has another owner than the
    /// file.
    Owner,
    /// An object that no slot names and that claims nothing.
    Spare,
    /// A fresh object that no slot names.
    Empty,
    /// An object that no slot names and whose claimed place can be had.
    Orphan,
    /// An object that no slot names and whose claimed place cannot be had.
    Conflict,
    /// An object that a slot names.
    Kept,
    /// A row that is not used.
    Unused,
}

/// How a claimed place can be had.
#[derive(Clone, Copy, Debug, PartialEq, Eq, PartialOrd, Ord)]
pub enum Way {
    /// The file is absent and is made.
    MakeParent,
    /// The slot is a hole and is filled.
    FillHole,
    /// The slot is past the count and the layout grows.
    Grow,
    /// The slot names a fresh object, which is destroyed.
    ReplaceFresh,
}

/// Why a claimed place cannot be had.
#[derive(Clone, Copy, Debug, PartialEq, Eq, PartialOrd, Ord)]
pub enum Denial {
    /// No layout has so many slots.
    Index,
    /// The slot is past the count of a layout without holes.
    Plain,
    /// The slot names an object that is absent.
    Absent,
    /// The slot names an object that may hold data.
    Data,
    /// The slot names a fresh object that claims another slot.
    OtherClaim,
    /// The slot names a fresh object that another slot names as well.
    OtherSlot,
}

impl Class {
    /// The class at a position; the end has none.
    pub fn at(site: &Site, position: Position) -> Option<Class> {
        match position {
            Position::Header { row } => Some(site.parent(row).map_or(Class::Unused, of_header)),
            Position::Slot { row, slot } => Some(of_slot(site, Place { row, slot })),
            Position::Object { row } => Some(
                site.object(row)
                    .map_or(Class::Unused, |object| of_object(site, object)),
            ),
            Position::End => None,
        }
    }

    /// The class's number in the C interface.
    pub fn number(self) -> u64 {
        match self {
            Class::Clean => 0,
            Class::SelfId => 1,
            Class::Hole => 2,
            Class::Multiple => 3,
            Class::Dangling => 4,
            Class::Blank => 5,
            Class::Unmatched(_) => 6,
            Class::Owner => 7,
            Class::Spare => 8,
            Class::Empty => 9,
            Class::Orphan => 10,
            Class::Conflict => 11,
            Class::Kept => 12,
            Class::Unused => 13,
            Class::WrongOst => 14,
        }
    }
}

fn of_header(parent: &Parent) -> Class {
    let own = (parent.layout.own_sequence, parent.layout.own_id);
    if own == (parent.fid.sequence, parent.fid.id.into()) {
        Class::Clean
    } else {
        Class::SelfId
    }
}

fn of_slot(site: &Site, place: Place) -> Class {
    let Some(stripe) = site.stripe(place) else {
        return Class::Hole;
    };
    if !is_keeper(site, place, stripe.object) {
        return Class::Multiple;
    }
    match site
        .object_row(stripe.object)
        .and_then(|row| site.object(row))
    {
        None => Class::Dangling,
        Some(object) => of_kept(site, place, stripe, object),
    }
}

fn is_keeper(site: &Site, place: Place, object: Fid) -> bool {
    site.keeper(object)
        .is_some_and(|(keeper, _)| keeper == place)
}

/// The class of a keeper whose object is there.
fn of_kept(site: &Site, place: Place, stripe: Stripe, object: &Object) -> Class {
    match object.claim {
        None => Class::Blank,
        Some(claim) if site.claim_on(place) != Some(claim) => Class::Unmatched(claim),
        Some(_) if object.ost != stripe.ost => Class::WrongOst,
        Some(_) if site.parent(place.row).map(|parent| parent.owner) != Some(object.owner) => {
            Class::Owner
        }
        Some(_) => Class::Clean,
    }
}

fn of_object(site: &Site, object: &Object) -> Class {
    if site.named_by(object.fid).next().is_some() {
        return Class::Kept;
    }
    match object.claim {
        None => Class::Spare,
        Some(_) if object.fresh => Class::Empty,
        Some(claim) if way_to(site, claim).is_ok() => Class::Orphan,
        Some(_) => Class::Conflict,
    }
}

/// How the claimed place can be had, or why it cannot.
pub fn way_to(site: &Site, claim: Claim) -> Result<Way, Denial> {
    if claim.index as usize >= MOST_SLOTS {
        return Err(Denial::Index);
    }
    let Some(row) = site.parent_row(claim.parent) else {
        return Ok(Way::MakeParent);
    };
    let place = Place {
        row,
        slot: claim.index as usize,
    };
    match site.stripe(place) {
        Some(stripe) => can_replace(site, place, claim, stripe).map(|()| Way::ReplaceFresh),
        None => way_without_stripe(site, place),
    }
}

/// The slot is a hole or past the count.
fn way_without_stripe(site: &Site, place: Place) -> Result<Way, Denial> {
    let layout = site.parent(place.row).map(|parent| &parent.layout);
    match layout {
        Some(layout) if place.slot < layout.slots.len() => Ok(Way::FillHole),
        Some(layout) if layout.holes_allowed => Ok(Way::Grow),
        _ => Err(Denial::Plain),
    }
}

/// The slot names a present fresh object that claims this very slot and is named by no other.
fn can_replace(site: &Site, place: Place, claim: Claim, stripe: Stripe) -> Result<(), Denial> {
    let row = site.object_row(stripe.object).ok_or(Denial::Absent)?;
    let object = site.object(row).ok_or(Denial::Absent)?;
    if !object.fresh {
        Err(Denial::Data)
    } else if object.claim != Some(claim) {
        Err(Denial::OtherClaim)
    } else if site.named_by(stripe.object).any(|other| other != place) {
        Err(Denial::OtherSlot)
    } else {
        Ok(())
    }
}
