//! Random tables that pass the check, from few FIDs, so that rows, slots and claims meet.

use std::hint::black_box;

use crate::Random;
use numbers::fid::VERSION_AT;
use numbers::layout::{COUNT_AT, LAST_OST, MOST_SLOTS, POOL_BYTES, STRIPE_SIZE_AT};
use numbers::{object, parent};
use reference::fid::{FIRST_SEQUENCE, Fid, LAST_SEQUENCE};
use reference::layout::{Layout, Stripe, Version};
use reference::tables::{Claim, OBJECT_BYTES, Object, Owner, PARENT_BYTES, Parent, Tables};

/// The FIDs of files, the bounds of a good one among them.
pub const FILES: [Fid; 6] = [
    Fid::new(0x2_0000_0401, 1),
    Fid::new(0x2_0000_0401, 2),
    Fid::new(0x2_0000_0402, 1),
    Fid::new(FIRST_SEQUENCE, 1),
    Fid::new(LAST_SEQUENCE, u32::MAX),
    Fid::new(0x2_4000_0400, 1),
];

/// The FIDs of objects. The last is a file's too: the two kinds are apart.
pub const OBJECTS: [Fid; 10] = [
    Fid::new(0x2_4000_0400, 0x10),
    Fid::new(0x2_4000_0400, 0x11),
    Fid::new(0x2_4000_0401, 0x10),
    Fid::new(FIRST_SEQUENCE, 1),
    Fid::new(FIRST_SEQUENCE, u32::MAX),
    Fid::new(LAST_SEQUENCE, 1),
    Fid::new(LAST_SEQUENCE, u32::MAX),
    Fid::new(0x2_8000_0400, 2),
    Fid::new(0x2_8000_0400, 3),
    Fid::new(0x2_4000_0400, 1),
];

/// The most slots, as an index: that of the first slot that no layout has.
const MOST: u32 = MOST_SLOTS as u32;

/// Indices far past the slots of small layouts, which a longer one can have.
pub const FAR: [u32; 5] = [159, 160, 161, MOST - 2, MOST - 1];

/// Indices that no layout has.
pub const TOO_FAR: [u32; 4] = [MOST, MOST + 1, 65_536, u32::MAX];

/// How large random tables can be: rows, slots of a layout, and FIDs that are drawn from.
#[derive(Clone, Copy, Debug)]
pub struct Shape {
    /// Parent rows.
    pub parents: usize,
    /// Object rows.
    pub objects: usize,
    /// Slots of a layout.
    pub slots: usize,
    /// The first so many of [`FILES`].
    pub files: usize,
    /// The first so many of [`OBJECTS`].
    pub fids: usize,
}

/// Few files and few objects, so that slots, claims and rows name the same ones.
pub const TINY: Shape = Shape {
    parents: 4,
    objects: 6,
    slots: 3,
    files: 3,
    fids: 4,
};

/// Tables within a shape.
pub fn random_tables(shape: Shape, random: &mut Random) -> Tables {
    let mut files = FILES[..shape.files].to_vec();
    let mut fids = OBJECTS[..shape.fids].to_vec();
    random.shuffle(&mut files);
    random.shuffle(&mut fids);
    let parents: Vec<Option<Parent>> = (0..row_count(shape.parents, random))
        .map(|_| draw(&mut files, random).map(|fid| random_parent(fid, shape, random)))
        .collect();
    let objects = (0..row_count(shape.objects, random))
        .map(|_| draw(&mut fids, random).map(|fid| random_object(fid, &parents, shape, random)))
        .collect();
    Tables { parents, objects }
}

/// Tables as redirects may leave them that were cut off: of the objects that no slot names many
/// claim a slot whose object another names too, and most of these are fresh.
pub fn random_cut_tables(shape: Shape, random: &mut Random) -> Tables {
    let mut tables = random_tables(shape, random);
    let named = named_slots(&tables);
    let count = |fid| named.iter().filter(|(named, _)| *named == fid).count();
    let shared = named.iter().filter(|(fid, _)| count(*fid) > 1);
    let shared: Vec<Claim> = shared.map(|(_, claim)| *claim).collect();
    for object in tables.objects.iter_mut().flatten() {
        if count(object.fid) == 0 && !shared.is_empty() && !random.one_in(3) {
            object.claim = Some(random.pick(&shared));
            object.fresh = !random.one_in(3);
        }
    }
    tables
}

/// The objects that slots name, each with the claim on its slot.
fn named_slots(tables: &Tables) -> Vec<(Fid, Claim)> {
    let mut named = Vec::new();
    for parent in tables.parents.iter().flatten() {
        for (index, stripe) in parent.layout.slots.iter().enumerate() {
            let claim = Claim {
                parent: parent.fid,
                index: index as u32,
            };
            named.extend(stripe.map(|stripe| (stripe.object, claim)));
        }
    }
    named
}

/// Rather many than few.
fn row_count(most: usize, random: &mut Random) -> usize {
    random.below(most + 1).max(random.below(most + 1))
}

/// A FID for a row, no other row's; or none, for an unused row.
fn draw(fids: &mut Vec<Fid>, random: &mut Random) -> Option<Fid> {
    if random.one_in(4) { None } else { fids.pop() }
}

fn random_parent(fid: Fid, shape: Shape, random: &mut Random) -> Parent {
    let holes_allowed = random.one_in(2);
    let slots = random.below(shape.slots + 1);
    let own = random.pick(&[fid, fid, fid, FILES[0]]);
    Parent {
        fid,
        owner: random_owner(random),
        layout: Layout {
            version: random_version(random),
            holes_allowed,
            own_id: own.id.into(),
            own_sequence: own.sequence,
            stripe_size: random.stripe_size(),
            generation: random_generation(random),
            slots: (0..slots)
                .map(|_| random_slot(holes_allowed, shape, random))
                .collect(),
        },
    }
}

/// Any generation, one whose low byte is 255, or, as often as these two together, one of the last
/// three.
pub fn random_generation(random: &mut Random) -> u16 {
    let any = random.any();
    match any >> 62 {
        0 => any as u16,
        1 => any as u16 | u16::from(u8::MAX),
        _ => u16::MAX - (any % 3) as u16,
    }
}

fn random_version(random: &mut Random) -> Version {
    if random.one_in(2) {
        Version::One
    } else {
        Version::Three(random.bytes(POOL_BYTES).try_into().expect("a pool name"))
    }
}

fn random_slot(holes_allowed: bool, shape: Shape, random: &mut Random) -> Option<Stripe> {
    (!holes_allowed || !random.one_in(3)).then(|| Stripe {
        object: random.pick(&OBJECTS[..shape.fids]),
        generation: random.below(3) as u32,
        ost: random_ost(random),
    })
}

fn random_object(
    fid: Fid,
    parents: &[Option<Parent>],
    shape: Shape,
    random: &mut Random,
) -> Object {
    let claim = random_claim(fid, parents, shape, random);
    Object {
        fid,
        ost: random_object_ost(fid, claim, parents, random),
        owner: random_owner(random),
        claim,
        fresh: claim.is_some() && random.one_in(3),
    }
}

/// No claim, one on a slot that names the object, one on any slot, or one out of the blue.
fn random_claim(
    fid: Fid,
    parents: &[Option<Parent>],
    shape: Shape,
    random: &mut Random,
) -> Option<Claim> {
    let claims = |wanted: fn(Stripe, Fid) -> bool| {
        let mut claims = Vec::new();
        for parent in parents.iter().flatten() {
            for (index, slot) in parent.layout.slots.iter().enumerate() {
                if slot.is_some_and(|stripe| wanted(stripe, fid)) {
                    claims.push(Claim {
                        parent: parent.fid,
                        index: index as u32,
                    });
                }
            }
        }
        claims
    };
    let among = match random.below(8) {
        0 | 1 => return None,
        2 | 3 => claims(|stripe, fid| stripe.object == fid),
        4 | 5 => claims(|stripe, fid| stripe.object != fid),
        _ => Vec::new(),
    };
    if among.is_empty() {
        return Some(Claim {
            parent: random.pick(&FILES[..shape.files]),
            index: random_index(shape, random),
        });
    }
    Some(random.pick(&among))
}

/// An index that a slot can have, or now and then one far past it, which a slot can have or not.
fn random_index(shape: Shape, random: &mut Random) -> u32 {
    match random.below(32) {
        0 => random.pick(&FAR),
        1 => random.pick(&TOO_FAR),
        _ => random.below(shape.slots + 1) as u32,
    }
}

/// Mostly the OST that the claimed slot names, where that one names the object, or else one of
/// the slots that do; now and then any.
fn random_object_ost(
    fid: Fid,
    claim: Option<Claim>,
    parents: &[Option<Parent>],
    random: &mut Random,
) -> u32 {
    let mut named = Vec::new();
    let mut claimed = None;
    for parent in parents.iter().flatten() {
        for (index, slot) in parent.layout.slots.iter().enumerate() {
            let Some(stripe) = slot.filter(|stripe| stripe.object == fid) else {
                continue;
            };
            named.push(stripe.ost);
            let place = Claim {
                parent: parent.fid,
                index: index as u32,
            };
            claimed = claimed.or((claim == Some(place)).then_some(stripe.ost));
        }
    }
    match claimed {
        _ if named.is_empty() || random.one_in(3) => random_ost(random),
        Some(ost) => ost,
        None => random.pick(&named),
    }
}

fn random_owner(random: &mut Random) -> Owner {
    Owner {
        uid: random.pick(&[0, 0, 0, 1000]),
        gid: random.pick(&[0, 0, 0, u32::MAX]),
    }
}

fn random_ost(random: &mut Random) -> u32 {
    random.pick(&[0, 1, 2, LAST_OST])
}

/// Lets a slot name what another names, and some objects claim it, fresh or with data, named or not.
pub fn crowd(tables: &mut Tables, random: &mut Random) {
    let named = named_slots(tables);
    if named.is_empty() {
        return;
    }
    let ((_, claim), (object, _)) = (random.pick(&named), random.pick(&named));
    let files = tables.parents.iter_mut().flatten();
    for file in files.filter(|file| file.fid == claim.parent) {
        if let Some(stripe) = &mut file.layout.slots[claim.index as usize] {
            stripe.object = object;
        }
    }
    for object in tables.objects.iter_mut().flatten() {
        if random.one_in(3) {
            object.claim = Some(claim);
            object.fresh = !random.one_in(3);
        }
    }
}

/// Both tables as bytes. What no rule speaks of, unused rows and the room past a layout, is
/// filled with anything.
pub fn to_bytes(tables: &Tables, random: &mut Random) -> (Vec<u8>, Vec<u8>) {
    let mut parents = random.bytes(PARENT_BYTES * tables.parents.len());
    for (row, parent) in parents.chunks_mut(PARENT_BYTES).zip(&tables.parents) {
        row[0] = 0;
        if let Some(parent) = parent {
            parent.write(row);
        }
    }
    let mut objects = random.bytes(OBJECT_BYTES * tables.objects.len());
    for (row, object) in objects.chunks_mut(OBJECT_BYTES).zip(&tables.objects) {
        row[0] = 0;
        if let Some(object) = object {
            object.write(row);
        }
    }
    (parents, objects)
}

/// Both tables as bytes, and a copy of them that is lent.
pub struct Lent {
    /// The parent table.
    pub parents: Vec<u8>,
    /// The object table.
    pub objects: Vec<u8>,
    copy: (Vec<u8>, Vec<u8>),
}

impl Lent {
    /// These tables, not lent yet.
    pub fn new(parents: Vec<u8>, objects: Vec<u8>) -> Lent {
        let copy = (parents.clone(), objects.clone());
        Lent {
            parents,
            objects,
            copy,
        }
    }

    /// Puts other objects beside the same files.
    pub fn set_objects(&mut self, objects: Vec<u8>) {
        self.copy.1.clone_from(&objects);
        self.objects = objects;
    }

    /// Lends the copy to a call, which must leave all of it as it was. Gives the call's answer.
    pub fn to<Answer>(&self, call: impl FnOnce(&[u8], &[u8]) -> Answer) -> Answer {
        let (parents, objects) = black_box(&self.copy);
        let answer = call(parents, objects);
        let (parents, objects) = black_box(&self.copy);
        assert!(
            parents == &self.parents && objects == &self.objects,
            "tables changed"
        );
        answer
    }

    /// The tables for a message; large ones only by their lengths.
    pub fn describe(&self) -> String {
        let lengths = [self.parents.len(), self.objects.len()];
        if lengths.iter().sum::<usize>() > 16 * PARENT_BYTES {
            return format!("tables of {lengths:?} bytes");
        }
        describe(&self.parents, &self.objects)
    }
}

/// Now and then damages tables so that most of them no longer pass the check, with any of its
/// answers; tells whether it did.
pub fn damage(parents: &mut Vec<u8>, objects: &mut Vec<u8>, random: &mut Random) -> bool {
    match random.below(16) {
        0 => parents.truncate(parents.len().saturating_sub(1)),
        1 => objects.truncate(objects.len().saturating_sub(1)),
        2 => parents.iter_mut().take(1).for_each(|mark| *mark |= 2),
        // The lengths of all layouts, the versions of all objects.
        3 => parents
            .chunks_mut(PARENT_BYTES)
            .for_each(|row| row[parent::LENGTH_AT] ^= 1),
        4 => objects
            .chunks_mut(OBJECT_BYTES)
            .for_each(|row| row[object::SELF_AT + VERSION_AT] = 1),
        5 => repeat_rows(parents, PARENT_BYTES),
        6 => repeat_rows(objects, OBJECT_BYTES),
        7 => spoil_stripe_sizes(parents, random),
        _ => return false,
    }
    true
}

/// A stripe size that is none in every layout, used or not.
pub fn spoil_stripe_sizes(parents: &mut [u8], random: &mut Random) {
    for row in parents.chunks_exact_mut(PARENT_BYTES) {
        let size = random.bad_stripe_size().to_le_bytes();
        row[parent::LAYOUT_AT..][STRIPE_SIZE_AT..COUNT_AT].copy_from_slice(&size);
    }
}

/// Every row once more.
fn repeat_rows(table: &mut Vec<u8>, size: usize) {
    let whole = table.len() / size * size;
    table.extend_from_within(..whole);
}

/// The tables for a message, read as rows where that can be done.
pub fn describe(parents: &[u8], objects: &[u8]) -> String {
    let (tables, faults) = reference::check::read_tables(parents, objects);
    format!("{tables:#?}, with the faults {faults:?}")
}
