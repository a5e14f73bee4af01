//! Parent rows: used mark, self FID, owner, length of the layout, room for it.

use crate::{fid, layout};

/// Where the self FID stands, after the used mark.
pub const SELF_AT: usize = 1;
/// Where the owner stands: uid and gid.
pub const OWNER_AT: usize = SELF_AT + fid::BYTES;
/// Where the length of the layout stands.
pub const LENGTH_AT: usize = OWNER_AT + 8;
/// Where the layout stands.
pub const LAYOUT_AT: usize = LENGTH_AT + 2;
/// The bytes of a row.
pub const BYTES: usize = LAYOUT_AT + layout::MOST_BYTES;
/// The most rows.
pub const MOST: usize = 1024;
