//! Files, objects and their parts as JSON values.

use crate::json::Json;
use crate::rows::{Claim, File, Object, OwnFid, Owner, Stripe};

/// The members of a value.
pub type Members = Vec<(&'static str, Json)>;

/// An owner.
pub fn owner(owner: Owner) -> Members {
    vec![
        ("uid", Json::Number(owner.uid.into())),
        ("gid", Json::Number(owner.gid.into())),
    ]
}

/// The FID that a layout says it belongs to.
pub fn own(own: OwnFid) -> Members {
    vec![
        ("own_sequence", Json::text(format!("{:#x}", own.sequence))),
        ("own_id", Json::text(format!("{:#x}", own.id))),
    ]
}

/// A file without its slots.
pub fn file(file: &File) -> Members {
    let header = &file.header;
    let mut members = owner(file.owner);
    members.extend([
        ("version", Json::Number(header.version)),
        ("pattern", Json::Number(header.pattern)),
    ]);
    members.extend(own(header.own));
    members.extend([
        ("stripe_size", Json::Number(header.stripe_size.into())),
        ("generation", Json::Number(header.generation)),
        ("slots", Json::Number(file.slots.len() as u64)),
    ]);
    members
}

/// A slot; nothing where it names no object.
pub fn slot(slot: Option<Stripe>) -> Json {
    slot.map_or(Json::Null, |stripe| {
        Json::Object(vec![
            ("object", Json::text(stripe.object)),
            ("generation", Json::Number(stripe.generation)),
            ("ost", Json::Number(stripe.ost)),
        ])
    })
}

/// A claim, or none.
pub fn claim(claim: Option<Claim>) -> Json {
    claim.map_or(Json::Null, |_| Json::Object(claim_members(claim)))
}

/// The file and the slot of a claim, or nothing under their names.
pub fn claim_members(claim: Option<Claim>) -> Members {
    vec![
        ("claimed_file", Json::maybe(claim.map(|claim| claim.file))),
        (
            "claimed_slot",
            Json::maybe_number(claim.map(|claim| claim.index)),
        ),
    ]
}

/// An object.
pub fn object(object: &Object) -> Members {
    let mut members = vec![("ost", Json::Number(object.ost.into()))];
    members.extend(owner(object.owner));
    members.push(("fresh", Json::Bool(object.fresh)));
    members.extend(claim_members(object.claim));
    members
}
