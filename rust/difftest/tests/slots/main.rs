//! Layouts of very many slots: tables of full size, with answers worked out by hand, adoption up to
//! the last slot, and random tables in which one layout is long.

mod adoption;
mod full;
mod long;
mod sides;

use reference::fid::Fid;
use reference::layout::{Layout, Stripe, Version};
use reference::tables::{Claim, Object, Owner, Parent};

/// The owner of every file and object.
const OWNER: Owner = Owner { uid: 7, gid: 8 };

/// The file of a row.
fn file_fid(row: usize) -> Fid {
    Fid::new(0x2_0000_0401, row as u32 + 1)
}

/// An object, by the number that it has here.
fn object_fid(id: u32) -> Fid {
    Fid::new(0x2_4000_0400, id)
}

/// A slot that names an object on OST 3.
fn stripe(id: u32) -> Option<Stripe> {
    Some(Stripe {
        object: object_fid(id),
        generation: 0,
        ost: 3,
    })
}

/// The file of a row, with the hole pattern and these slots.
fn file(row: usize, version: Version, slots: Vec<Option<Stripe>>) -> Parent {
    let fid = file_fid(row);
    Parent {
        fid,
        owner: OWNER,
        layout: Layout {
            version,
            holes_allowed: true,
            own_id: fid.id.into(),
            own_sequence: fid.sequence,
            stripe_size: 1_048_576,
            generation: 0,
            slots,
        },
    }
}

/// An object on OST 3 that claims a slot of the file in a row, or nothing.
fn object(id: u32, claim: Option<(usize, u32)>) -> Object {
    Object {
        fid: object_fid(id),
        ost: 3,
        owner: OWNER,
        claim: claim.map(|(row, index)| Claim {
            parent: file_fid(row),
            index,
        }),
        fresh: false,
    }
}
