//! What sound tables say, with the rows of every FID and the slots that name it at hand.

use std::collections::HashMap;
use std::fmt;

use crate::fid::{MdtFid, OstFid};
use crate::rows::{Claim, File, Object, Stripe};
use crate::tables::{Table, Tables, Together};

/// A slot of a parent row.
#[derive(Clone, Copy, Debug, PartialEq, Eq, Hash)]
pub struct Place {
    /// The parent row.
    pub row: usize,
    /// The slot of its layout.
    pub slot: usize,
}

/// A slot, as people call it: by its file.
#[derive(Clone, Copy, Debug, PartialEq, Eq)]
pub struct Named {
    /// The file.
    pub file: MdtFid,
    /// The slot of its layout.
    pub slot: usize,
}

/// How many slots name objects.
#[derive(Clone, Copy, Debug, PartialEq, Eq)]
pub struct NamedCounts {
    /// The slots that name one.
    pub slots: usize,
    /// The objects that are named.
    pub objects: usize,
    /// The objects that are named and absent.
    pub absent: usize,
    /// The slots that name an object which another slot keeps.
    pub surplus: usize,
}

/// The files and objects of a case; unused rows are `None`.
pub struct Site {
    /// The parent rows.
    pub files: Vec<Option<File>>,
    /// The object rows.
    pub objects: Vec<Option<Object>>,
    file_rows: HashMap<MdtFid, usize>,
    object_rows: HashMap<OstFid, usize>,
    named_by: HashMap<OstFid, Vec<Place>>,
    first_claimants: HashMap<Claim, OstFid>,
    first_fresh: HashMap<Claim, OstFid>,
    /// How many slots come before each parent row in scan order, and how many there are.
    slots_before: Vec<usize>,
}

impl Site {
    /// What these tables say.
    pub fn new(tables: &Tables) -> Site {
        let mut site = Site {
            files: tables.rows(Table::Parents).map(File::read).collect(),
            objects: tables.rows(Table::Objects).map(Object::read).collect(),
            file_rows: HashMap::new(),
            object_rows: HashMap::new(),
            named_by: HashMap::new(),
            first_claimants: HashMap::new(),
            first_fresh: HashMap::new(),
            slots_before: vec![0],
        };
        site.count_slots();
        site.find_files();
        site.find_objects();
        site
    }

    fn count_slots(&mut self) {
        let mut count = 0;
        for file in &self.files {
            count += file.as_ref().map_or(0, |file| file.slots.len());
            self.slots_before.push(count);
        }
    }

    fn find_objects(&mut self) {
        for (row, object) in self.objects.iter().enumerate() {
            let Some(object) = object else { continue };
            self.object_rows.insert(object.fid, row);
            let unnamed = !self.named_by.contains_key(&object.fid);
            let first = match object.fresh {
                true => &mut self.first_fresh,
                false => &mut self.first_claimants,
            };
            if let Some(claim) = object.claim.filter(|_| unnamed) {
                first.entry(claim).or_insert(object.fid);
            }
        }
    }

    fn find_files(&mut self) {
        for (row, file) in self.files.iter().enumerate() {
            let Some(file) = file else { continue };
            self.file_rows.insert(file.fid, row);
            for (slot, stripe) in file.slots.iter().enumerate() {
                if let Some(stripe) = stripe {
                    let places = self.named_by.entry(stripe.object).or_default();
                    places.push(Place { row, slot });
                }
            }
        }
    }

    /// The file in a row.
    pub fn file(&self, row: usize) -> Option<&File> {
        self.files.get(row)?.as_ref()
    }

    /// The row of a file.
    pub fn file_row(&self, fid: MdtFid) -> Option<usize> {
        self.file_rows.get(&fid).copied()
    }

    /// The row of an object.
    pub fn object_row(&self, fid: OstFid) -> Option<usize> {
        self.object_rows.get(&fid).copied()
    }

    /// The object of a FID.
    pub fn object_of(&self, fid: OstFid) -> Option<&Object> {
        self.objects[self.object_row(fid)?].as_ref()
    }

    /// What stands in a slot; nothing in a hole, and nothing where there is no such slot.
    pub fn stripe(&self, place: Place) -> Option<Stripe> {
        *self.file(place.row)?.slots.get(place.slot)?
    }

    /// The slots that name an object, in scan order.
    pub fn named_by(&self, fid: OstFid) -> &[Place] {
        self.named_by.get(&fid).map_or(&[], Vec::as_slice)
    }

    /// The first slot of a parent row that names an object.
    pub fn first_in_row(&self, fid: OstFid, row: usize) -> Option<Place> {
        let places = self.named_by(fid);
        let first = places.partition_point(|place| place.row < row);
        places.get(first).copied().filter(|place| place.row == row)
    }

    /// How many slots come before a parent row in scan order; after the last row, how many there
    /// are.
    pub fn slots_before(&self, row: usize) -> usize {
        self.slots_before[row]
    }

    /// How many slots name objects, and how many of these are to be made or redirected.
    pub fn named(&self) -> NamedCounts {
        let slots = self.named_by.values().map(Vec::len).sum();
        let is_absent = |fid: &&OstFid| !self.object_rows.contains_key(fid);
        NamedCounts {
            slots,
            objects: self.named_by.len(),
            absent: self.named_by.keys().filter(is_absent).count(),
            surplus: slots - self.named_by.len(),
        }
    }

    /// Of the objects with a claim that no slot names and that may hold data, the first.
    pub fn first_claimant(&self, claim: Claim) -> Option<OstFid> {
        self.first_claimants.get(&claim).copied()
    }

    /// Of the objects with a claim that no slot names and that are fresh, the first.
    pub fn first_fresh(&self, claim: Claim) -> Option<OstFid> {
        self.first_fresh.get(&claim).copied()
    }

    /// What an object claims that belongs in a slot.
    pub fn claim_on(&self, place: Place) -> Option<Claim> {
        Some(Claim {
            file: self.file(place.row)?.fid,
            index: place.slot as u32,
        })
    }

    /// The place of a claim whose file is there, whether or not it has the slot.
    pub fn claimed_place(&self, claim: Claim) -> Option<Place> {
        Some(Place {
            row: self.file_row(claim.file)?,
            slot: claim.index as usize,
        })
    }

    /// The place as people call it.
    pub fn name(&self, place: Place) -> Option<Named> {
        Some(Named {
            file: self.file(place.row)?.fid,
            slot: place.slot,
        })
    }
}

impl fmt::Display for Named {
    fn fmt(&self, out: &mut fmt::Formatter<'_>) -> fmt::Result {
        write!(out, "slot {} of {}", self.slot, self.file)
    }
}
