//! The bound, and the most slots that a search can compare, at the limits of the tables.

use std::time::Instant;

use difftest::tables::Lent;
use numbers::call::KEEPER;
use reference::check::{MOST_OBJECTS, MOST_PARENTS};
use reference::fid::Fid;
use reference::layout::{Layout, MOST_SLOTS, Stripe, Version};
use reference::tables::{Claim, OBJECT_BYTES, Object, Owner, PARENT_BYTES, Parent};

use crate::compare;

/// The object that is asked for.
const A: Fid = Fid::new(0x2_8000_0400, 7);
const OWNER: Owner = Owner { uid: 0, gid: 0 };
const SLOTS: u64 = MOST_SLOTS as u64;
const ALL_SLOTS: u64 = MOST_PARENTS as u64 * SLOTS;

fn file_fid(row: usize) -> Fid {
    Fid::new(0x2_0000_0401, row as u32 + 1)
}

/// The file of a row, with so many slots that name objects of their own.
fn file(row: usize, slots: usize) -> Parent {
    let fid = file_fid(row);
    let stripe = |slot| {
        Some(Stripe {
            object: Fid::new(0x2_4000_0400, (MOST_SLOTS * row + slot + 1) as u32),
            generation: 0,
            ost: 0,
        })
    };
    Parent {
        fid,
        owner: OWNER,
        layout: Layout {
            version: Version::Three([0; 16]),
            holes_allowed: false,
            own_id: fid.id.into(),
            own_sequence: fid.sequence,
            stripe_size: 1_048_576,
            generation: 0,
            slots: (0..slots).map(stripe).collect(),
        },
    }
}

/// Names A in a slot.
fn name(file: &mut Parent, slot: usize) {
    file.layout.slots[slot].as_mut().expect("a stripe").object = A;
}

/// These files, and no objects.
fn files_of(files: impl Iterator<Item = Parent>) -> Lent {
    let mut bytes = Vec::new();
    for file in files {
        let start = bytes.len();
        bytes.resize(start + PARENT_BYTES, 0);
        file.write(&mut bytes[start..]);
    }
    Lent::new(bytes, Vec::new())
}

/// A row of an object that claims a slot of the file in a row, or nothing.
fn object(fid: Fid, claim: Option<(usize, u32)>) -> Vec<u8> {
    let mut bytes = vec![0; OBJECT_BYTES];
    let claim = claim.map(|(row, index)| Claim {
        parent: file_fid(row),
        index,
    });
    let object = Object {
        fid,
        ost: 0,
        owner: OWNER,
        claim,
        fresh: false,
    };
    object.write(&mut bytes);
    bytes
}

/// The numbers of A's keeper by both sides, beside these objects.
fn keeper_of_a(lent: &mut Lent, objects: Vec<u8>) -> [u64; KEEPER] {
    lent.set_objects(objects);
    let (answer, out) = compare(lent, [A.sequence, A.id.into()], &[99; KEEPER]);
    assert_eq!(answer, 0);
    out.try_into().expect("so many numbers")
}

/// One file of 2,000 slots and no slot for A: 1, 2,000 and 2,000 are twice all slots plus 1.
#[test]
fn the_bound_is_reached_in_one_file() {
    let mut lent = files_of(std::iter::once(file(0, MOST_SLOTS)));
    let mut told = |claim| keeper_of_a(&mut lent, object(A, claim));
    for index in 0..MOST_SLOTS as u32 {
        assert_eq!(told(Some((0, index))), [0, 0, 0, 4_001]);
    }
    for index in [2_000, 2_001, u32::MAX] {
        assert_eq!(told(Some((0, index))), [0, 0, 0, 4_000]);
    }
    assert_eq!(told(Some((1, 0))), [0, 0, 0, 2_000]);
    assert_eq!(told(None), [0, 0, 0, 2_000]);
    assert_eq!(keeper_of_a(&mut lent, Vec::new()), [0, 0, 0, 2_000]);
}

/// A in each slot of one file in turn, and slots claimed: of some files every one, of the others
/// the first, the one that names it and the one at the count. It is 1 where the claimed slot is the
/// one; else 1, then the slots through the one that names it. A claim at the count is without the 1.
#[test]
fn every_slot_claimed_and_every_slot_named() {
    for slot in 0..MOST_SLOTS {
        let mut file = file(0, MOST_SLOTS);
        name(&mut file, slot);
        let mut lent = files_of(std::iter::once(file));
        let claims: Vec<usize> = match slot {
            0 | 160 | 1_999 => (0..=MOST_SLOTS).collect(),
            _ => vec![0, slot, MOST_SLOTS],
        };
        for index in claims {
            let compared = match index {
                _ if index == slot => 1,
                MOST_SLOTS => slot + 1,
                _ => 1 + slot + 1,
            };
            let told = keeper_of_a(&mut lent, object(A, Some((0, index as u32))));
            assert_eq!(told, [1, 0, slot as u64, compared as u64]);
        }
    }
}

/// With 1,024 files of 2,000 slots the most is 1, the 2,000 of the claimed file and all slots. The
/// bound is reached there only if the other files have no slots.
#[test]
fn the_most_is_compared_in_the_greatest_tables() {
    let started = Instant::now();
    let last = MOST_PARENTS - 1;
    let mut lent = files_of((0..MOST_PARENTS).map(|row| file(row, MOST_SLOTS)));
    let mut told = |claim| keeper_of_a(&mut lent, object(A, claim));
    let most = 1 + SLOTS + ALL_SLOTS;
    assert_eq!(most, 2_050_001);
    for row in [0, last] {
        assert_eq!(told(Some((row, 1_999))), [0, 0, 0, most]);
        assert_eq!(told(Some((row, 2_000))), [0, 0, 0, most - 1]);
    }
    assert_eq!(told(Some((last + 1, 0))), [0, 0, 0, ALL_SLOTS]);
    assert_eq!(keeper_of_a(&mut lent, Vec::new()), [0, 0, 0, ALL_SLOTS]);

    let slots = |row| if row == last { MOST_SLOTS } else { 0 };
    let mut lent = files_of((0..MOST_PARENTS).map(|row| file(row, slots(row))));
    let told = keeper_of_a(&mut lent, object(A, Some((last, 0))));
    assert_eq!(told, [0, 0, 0, 4_001]);
    println!(
        "greatest tables in {:.1} s",
        started.elapsed().as_secs_f64()
    );
}

/// A in the last slot of all: found by each case, and in the last row of as many objects as there
/// may be.
#[test]
fn the_last_slot_of_the_greatest_tables_is_found() {
    let started = Instant::now();
    let last = MOST_PARENTS - 1;
    let mut lent = files_of((0..MOST_PARENTS).map(|row| {
        let mut file = file(row, MOST_SLOTS);
        if row == last {
            name(&mut file, MOST_SLOTS - 1);
        }
        file
    }));
    for (claim, compared) in [
        (Some((last, 1_999)), 1),
        (Some((last, 0)), 1 + SLOTS),
        (Some((last, 2_000)), SLOTS),
        (Some((0, 0)), 1 + SLOTS + ALL_SLOTS),
        (None, ALL_SLOTS),
    ] {
        let told = keeper_of_a(&mut lent, object(A, claim));
        assert_eq!(told, [1, last as u64, 1_999, compared]);
    }
    let others = (1..MOST_OBJECTS as u32).map(|id| Fid::new(0x2_4000_0400, id));
    let mut objects: Vec<u8> = others.flat_map(|fid| object(fid, None)).collect();
    objects.extend(object(A, Some((last, 0))));
    assert_eq!(objects.len(), MOST_OBJECTS * OBJECT_BYTES);
    let told = keeper_of_a(&mut lent, objects);
    assert_eq!(told, [1, last as u64, 1_999, 1 + SLOTS]);
    println!("the last slot in {:.1} s", started.elapsed().as_secs_f64());
}
