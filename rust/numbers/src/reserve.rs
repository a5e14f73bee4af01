//! The reserve: FIDs alone.

/// The bytes of an entry.
pub const BYTES: usize = crate::fid::BYTES;
/// The most entries.
pub const MOST: usize = 65_536;
