//! Both tables, with the rows of every FID and the slots that name it at hand.

use std::collections::{BTreeMap, BTreeSet};

use crate::fid::Fid;
use crate::layout::Stripe;
use crate::tables::{Claim, OBJECT_BYTES, Object, PARENT_BYTES, Parent, Tables};

/// A slot of a parent row. Places are in scan order: parent row, then slot.
#[derive(Clone, Copy, Debug, PartialEq, Eq, PartialOrd, Ord)]
pub struct Place {
    /// The parent row.
    pub row: usize,
    /// The slot of its layout.
    pub slot: usize,
}

/// Why a slot is the keeper.
#[derive(Clone, Copy, Debug, PartialEq, Eq, PartialOrd, Ord)]
pub enum Reason {
    /// The object claims it.
    ClaimedSlot,
    /// It is the first that names the object in the claimed parent.
    ClaimedParent,
    /// It is the first that names the object at all.
    ScanOrder,
}

/// The tables of a site.
#[derive(Clone, Debug)]
pub struct Site {
    tables: Tables,
    parent_rows: BTreeMap<Fid, usize>,
    object_rows: BTreeMap<Fid, usize>,
    named_by: BTreeMap<Fid, BTreeSet<Place>>,
    written_parents: BTreeSet<usize>,
    written_objects: BTreeSet<usize>,
    /// The files in whose place others were put, as they were at first.
    replaced: BTreeMap<usize, Parent>,
}

impl Site {
    /// A site with these tables.
    pub fn new(tables: Tables) -> Site {
        let mut site = Site {
            tables: Tables {
                parents: vec![None; tables.parents.len()],
                objects: vec![None; tables.objects.len()],
            },
            parent_rows: BTreeMap::new(),
            object_rows: BTreeMap::new(),
            named_by: BTreeMap::new(),
            written_parents: BTreeSet::new(),
            written_objects: BTreeSet::new(),
            replaced: BTreeMap::new(),
        };
        for (row, parent) in tables.parents.into_iter().enumerate() {
            if let Some(parent) = parent {
                site.put_parent(row, parent);
            }
        }
        for (row, object) in tables.objects.into_iter().enumerate() {
            site.put_object(row, object);
        }
        site.written_parents.clear();
        site.written_objects.clear();
        site
    }

    /// Puts a file in a row, in place of the one that stands there.
    pub fn put_parent(&mut self, row: usize, parent: Parent) {
        if let Some(before) = self.tables.parents[row].take() {
            self.parent_rows.remove(&before.fid);
            for (place, stripe) in named_in(row, &before) {
                if let Some(places) = self.named_by.get_mut(&stripe.object) {
                    places.remove(&place);
                }
            }
            self.replaced.entry(row).or_insert(before);
        }
        for (place, stripe) in named_in(row, &parent) {
            self.named_by
                .entry(stripe.object)
                .or_default()
                .insert(place);
        }
        self.parent_rows.insert(parent.fid, row);
        self.tables.parents[row] = Some(parent);
        self.written_parents.insert(row);
    }

    /// The files in whose place others were put since this was last asked, by their rows and as
    /// they were then.
    pub fn take_replaced(&mut self) -> BTreeMap<usize, Parent> {
        std::mem::take(&mut self.replaced)
    }

    /// Puts an object in a row, or nothing, in place of the one that stands there.
    pub fn put_object(&mut self, row: usize, object: Option<Object>) {
        if let Some(before) = self.tables.objects[row].take() {
            self.object_rows.remove(&before.fid);
        }
        if let Some(object) = object {
            self.object_rows.insert(object.fid, row);
        }
        self.tables.objects[row] = object;
        self.written_objects.insert(row);
    }

    /// Writes the rows that something was put in. A row without object becomes zero.
    pub fn write_back(&self, parents: &mut [u8], objects: &mut [u8]) {
        for &row in &self.written_parents {
            if let Some(parent) = self.parent(row) {
                parent.write(&mut parents[PARENT_BYTES * row..][..PARENT_BYTES]);
            }
        }
        for &row in &self.written_objects {
            let bytes = &mut objects[OBJECT_BYTES * row..][..OBJECT_BYTES];
            match self.object(row) {
                Some(object) => object.write(bytes),
                None => bytes.fill(0),
            }
        }
    }

    /// The tables as they stand.
    pub fn tables(&self) -> &Tables {
        &self.tables
    }

    /// The file in a row, if it is used.
    pub fn parent(&self, row: usize) -> Option<&Parent> {
        self.tables.parents.get(row)?.as_ref()
    }

    /// The object in a row, if it is used.
    pub fn object(&self, row: usize) -> Option<&Object> {
        self.tables.objects.get(row)?.as_ref()
    }

    /// What stands in a slot: nothing for a hole, and nothing where there is no such slot.
    pub fn stripe(&self, place: Place) -> Option<Stripe> {
        *self.parent(place.row)?.layout.slots.get(place.slot)?
    }

    /// The row of a file.
    pub fn parent_row(&self, fid: Fid) -> Option<usize> {
        self.parent_rows.get(&fid).copied()
    }

    /// The row of an object.
    pub fn object_row(&self, fid: Fid) -> Option<usize> {
        self.object_rows.get(&fid).copied()
    }

    /// The slots that name an object, in scan order.
    pub fn named_by(&self, object: Fid) -> impl Iterator<Item = Place> + '_ {
        self.named_by.get(&object).into_iter().flatten().copied()
    }

    /// The slot that keeps an object, present or not, and why; none where no slot names it.
    pub fn keeper(&self, object: Fid) -> Option<(Place, Reason)> {
        let places = self.named_by.get(&object)?;
        let claim = self
            .object_row(object)
            .and_then(|row| self.object(row)?.claim);
        if let Some(claimed) = claim.and_then(|claim| self.claimed_place(claim)) {
            if places.contains(&claimed) {
                return Some((claimed, Reason::ClaimedSlot));
            }
            if let Some(first) = places.iter().find(|place| place.row == claimed.row) {
                return Some((*first, Reason::ClaimedParent));
            }
        }
        places.first().map(|first| (*first, Reason::ScanOrder))
    }

    /// The place of a claim whose file is there, whether or not it has the slot.
    fn claimed_place(&self, claim: Claim) -> Option<Place> {
        Some(Place {
            row: self.parent_row(claim.parent)?,
            slot: claim.index as usize,
        })
    }

    /// The claim of an object that belongs in a place of a used row.
    pub fn claim_on(&self, place: Place) -> Option<Claim> {
        Some(Claim {
            parent: self.parent(place.row)?.fid,
            index: place.slot as u32,
        })
    }
}

/// The slots of a file that name an object.
fn named_in(row: usize, parent: &Parent) -> impl Iterator<Item = (Place, Stripe)> + '_ {
    let slots = parent.layout.slots.iter().enumerate();
    slots.filter_map(move |(slot, stripe)| Some((Place { row, slot }, (*stripe)?)))
}
