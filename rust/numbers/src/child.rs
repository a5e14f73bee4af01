//! Child rows: self FID, the FID of `..`, length of the linkEA, room for it.

use crate::fid;

/// Where the self FID stands.
pub const SELF_AT: usize = 0;
/// Where the FID of `..` stands.
pub const UP_AT: usize = SELF_AT + fid::BYTES;
/// Where the length of the linkEA stands.
pub const LENGTH_AT: usize = UP_AT + fid::BYTES;
/// Where the linkEA stands.
pub const LINK_AT: usize = LENGTH_AT + 2;
/// The bytes of the room for a linkEA.
pub const ROOM: usize = 4096;
/// The bytes of a row.
pub const BYTES: usize = LINK_AT + ROOM;
/// The most rows.
pub const MOST: usize = 65_536;
