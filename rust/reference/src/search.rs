//! The search for an object's keeper, slot by slot, and which slots it compared.

use crate::fid::Fid;
use crate::site::{Place, Reason};
use crate::tables::{Claim, Tables};

/// What there is of the slot that an object claims.
#[derive(Clone, Copy, Debug, PartialEq, Eq, PartialOrd, Ord)]
pub enum Claimed {
    /// There is no such object.
    NoObject,
    /// The object claims nothing.
    NoClaim,
    /// There is no such file.
    NoFile,
    /// The index is the file's number of slots.
    AtCount,
    /// The index is above it.
    PastCount,
    /// The slot is a hole.
    Hole,
    /// The slot names an object, this one or another.
    Named,
}

/// A search that has ended.
#[derive(Clone, Debug, PartialEq, Eq)]
pub struct Search {
    /// Where it began.
    pub claimed: Claimed,
    /// The slots that were compared, one after the other, each with the case that it was compared
    /// in. A slot that was compared before is there again.
    pub compared: Vec<(Reason, Place)>,
    /// The slot that names the object, and the case that found it.
    pub keeper: Option<(Place, Reason)>,
}

impl Search {
    /// Looks for the keeper of an object, present or not: the three cases in turn, each up to the
    /// first slot that names it, and none after that.
    pub fn of(tables: &Tables, object: Fid) -> Search {
        let (claimed, place) = claimed_by(tables, object);
        let mut search = Search {
            claimed,
            compared: Vec::new(),
            keeper: None,
        };
        for case in [
            Reason::ClaimedSlot,
            Reason::ClaimedParent,
            Reason::ScanOrder,
        ] {
            for slot in slots_of(case, tables, place) {
                search.compared.push((case, slot));
                if names(tables, slot, object) {
                    search.keeper = Some((slot, case));
                    return search;
                }
            }
        }
        search
    }
}

/// The place that an object claims in a file that is there, whether or not the file has the slot.
fn claimed_by(tables: &Tables, object: Fid) -> (Claimed, Option<Place>) {
    let mut objects = tables.objects.iter().flatten();
    let Some(object) = objects.find(|row| row.fid == object) else {
        return (Claimed::NoObject, None);
    };
    let Some(Claim { parent, index }) = object.claim else {
        return (Claimed::NoClaim, None);
    };
    let is_file = |row: &usize| {
        let file = &tables.parents[*row];
        file.as_ref().is_some_and(|file| file.fid == parent)
    };
    let Some(row) = (0..tables.parents.len()).find(is_file) else {
        return (Claimed::NoFile, None);
    };
    let slot = index as usize;
    let claimed = match slots_in(tables, row).get(slot).copied() {
        Some(place) if is_hole(tables, place) => Claimed::Hole,
        Some(_) => Claimed::Named,
        None if slot == slots_in(tables, row).len() => Claimed::AtCount,
        None => Claimed::PastCount,
    };
    (claimed, Some(Place { row, slot }))
}

/// The slots of a case in their order. The first two have none where no file that is there is
/// claimed.
fn slots_of(case: Reason, tables: &Tables, claimed: Option<Place>) -> Vec<Place> {
    let in_claimed_file = claimed.map(|claimed| slots_in(tables, claimed.row));
    match case {
        Reason::ClaimedSlot => in_claimed_file
            .into_iter()
            .flatten()
            .filter(|&place| Some(place) == claimed)
            .collect(),
        Reason::ClaimedParent => in_claimed_file.unwrap_or_default(),
        Reason::ScanOrder => (0..tables.parents.len())
            .flat_map(|row| slots_in(tables, row))
            .collect(),
    }
}

/// The slots of a parent row, none where it is unused.
fn slots_in(tables: &Tables, row: usize) -> Vec<Place> {
    let file = tables.parents[row].as_ref();
    let count = file.map_or(0, |file| file.layout.slots.len());
    (0..count).map(|slot| Place { row, slot }).collect()
}

/// Whether a slot names an object; a hole names none.
fn names(tables: &Tables, place: Place, object: Fid) -> bool {
    let file = tables.parents[place.row].as_ref();
    let stripe = file.and_then(|file| file.layout.slots[place.slot]);
    stripe.is_some_and(|stripe| stripe.object == object)
}

/// Whether a slot that is there names nothing.
fn is_hole(tables: &Tables, place: Place) -> bool {
    let file = tables.parents[place.row].as_ref();
    file.is_some_and(|file| file.layout.slots[place.slot].is_none())
}
