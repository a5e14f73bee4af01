//! Object rows: used mark, self FID, OST index, owner, claim, fresh mark.

use crate::fid;

/// Where the self FID stands, after the used mark.
pub const SELF_AT: usize = 1;
/// Where the OST index stands.
pub const OST_AT: usize = SELF_AT + fid::BYTES;
/// Where the owner stands: uid and gid.
pub const OWNER_AT: usize = OST_AT + 4;
/// Where the claim stands.
pub const CLAIM_AT: usize = OWNER_AT + 8;
/// Where the fresh mark stands.
pub const FRESH_AT: usize = CLAIM_AT + fid::BYTES;
/// The bytes of a row.
pub const BYTES: usize = FRESH_AT + 1;
/// The most rows.
pub const MOST: usize = 65_536;
