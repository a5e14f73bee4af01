//! Entry rows: the directory's FID, the child's row, the FID-in-dirent, length of the name, room
//! for it.

use crate::fid;

/// Where the directory's FID stands.
pub const PARENT_AT: usize = 0;
/// Where the child's row stands.
pub const CHILD_AT: usize = PARENT_AT + fid::BYTES;
/// Where the FID-in-dirent stands.
pub const FID_AT: usize = CHILD_AT + 4;
/// Where the length of the name stands.
pub const LENGTH_AT: usize = FID_AT + fid::BYTES;
/// Where the name stands.
pub const NAME_AT: usize = LENGTH_AT + 2;
/// The bytes of the room for a name.
pub const ROOM: usize = 255;
/// The bytes of a row.
pub const BYTES: usize = NAME_AT + ROOM;
/// The most rows.
pub const MOST: usize = 65_536;
