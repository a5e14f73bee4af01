//! Slots that keep a present object, by their class, the object's OST index and its owner.

use reference::class::Class;
use reference::position::Position;
use reference::site::{Place, Site};

use crate::Coverage;

/// A class with what stands in slot and object.
#[derive(Clone, Copy, Debug, PartialEq, Eq, PartialOrd, Ord)]
pub enum Indexed {
    /// CLEAN.
    Clean,
    /// OWNER.
    Owner,
    /// WRONG-OST, the object with the file's owner.
    WrongOstRightOwner,
    /// WRONG-OST, the object with another owner.
    WrongOstWrongOwner,
    /// BLANK, the object on the OST that the slot names.
    BlankRightIndex,
    /// BLANK, the object on another OST.
    BlankWrongIndex,
    /// UNMATCHED, the object on the OST that the slot names.
    UnmatchedRightIndex,
    /// UNMATCHED, the object on another OST.
    UnmatchedWrongIndex,
}

use Indexed::*;

impl Indexed {
    /// All of them.
    pub const ALL: [Indexed; 8] = [
        Clean,
        Owner,
        WrongOstRightOwner,
        WrongOstWrongOwner,
        BlankRightIndex,
        BlankWrongIndex,
        UnmatchedRightIndex,
        UnmatchedWrongIndex,
    ];

    /// What stands at a position; none where it is no slot that keeps a present object.
    pub fn at(site: &Site, position: Position) -> Option<Indexed> {
        let Position::Slot { row, slot } = position else {
            return None;
        };
        let stripe = site.stripe(Place { row, slot })?;
        let object = site.object(site.object_row(stripe.object)?)?;
        let right_index = object.ost == stripe.ost;
        let right_owner = object.owner == site.parent(row)?.owner;
        Some(match (Class::at(site, position)?, right_index) {
            (Class::Clean, true) => Clean,
            (Class::Owner, true) => Owner,
            (Class::WrongOst, false) if right_owner => WrongOstRightOwner,
            (Class::WrongOst, false) => WrongOstWrongOwner,
            (Class::Blank, true) => BlankRightIndex,
            (Class::Blank, false) => BlankWrongIndex,
            (Class::Unmatched(_), true) => UnmatchedRightIndex,
            (Class::Unmatched(_), false) => UnmatchedWrongIndex,
            (Class::Multiple, _) => return None,
            other => panic!("{other:?} of a slot that keeps an object"),
        })
    }

    /// Counts each, still at none.
    pub fn none_met(title: &'static str) -> Coverage<Indexed> {
        Coverage::of(title, Indexed::ALL)
    }
}
