//! Tables of a few rows, by the reference.

use reference::fid::Fid;
use reference::layout::{Layout, Stripe, Version};
use reference::tables::{Claim, OBJECT_BYTES, Object, Owner, PARENT_BYTES, Parent};

/// The bytes of a parent row.
pub const PARENT: usize = numbers::parent::BYTES;

/// The owner of everything.
pub const OWNER: Owner = Owner { uid: 500, gid: 600 };

/// A file's FID.
pub const fn file(id: u32) -> Fid {
    Fid::new(0x2_0000_0401, id)
}

/// An object's FID.
pub const fn object(id: u32) -> Fid {
    Fid::new(0x2_4000_0400, id)
}

/// A parent row of a file that names these objects; 0 is a hole.
pub fn parent_row(id: u32, objects: &[u32]) -> Vec<u8> {
    let stripe = |&id: &u32| {
        (id != 0).then_some(Stripe {
            object: object(id),
            generation: 0,
            ost: 3,
        })
    };
    let parent = Parent {
        fid: file(id),
        owner: OWNER,
        layout: Layout {
            version: Version::One,
            holes_allowed: objects.contains(&0),
            own_id: id.into(),
            own_sequence: file(id).sequence,
            stripe_size: 1 << 20,
            generation: 0,
            slots: objects.iter().map(stripe).collect(),
        },
    };
    let mut row = vec![0; PARENT_BYTES];
    parent.write(&mut row);
    row
}

/// An object row of an object that claims a slot.
pub fn object_row(id: u32, claim: (u32, u32)) -> Vec<u8> {
    let object = Object {
        fid: object(id),
        ost: 3,
        owner: OWNER,
        claim: Some(Claim {
            parent: file(claim.0),
            index: claim.1,
        }),
        fresh: false,
    };
    let mut row = vec![0; OBJECT_BYTES];
    object.write(&mut row);
    row
}
