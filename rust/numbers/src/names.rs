//! The namespace check.

/// The sequence of ROOT.
pub const ROOT_SEQUENCE: u64 = 0x2_0000_0007;
/// The object id of ROOT, whose version is 0.
pub const ROOT_ID: u32 = 1;
/// The most levels of a climb.
pub const MOST_LEVELS: usize = 4096;
/// The bytes of index and of room for each row of either table.
pub const WORKING: usize = 16;

/// The mark of a hidden directory.
pub const HIDDEN: u64 = 0;
/// The mark of a visible directory.
pub const VISIBLE: u64 = 1;
/// The mark of a row without self FID.
pub const NO_FID: u64 = 2;

/// FID-in-dirent and self FID are the same.
pub const FID_CONSISTENT: u64 = 0;
/// There is no FID-in-dirent.
pub const FID_NO_DIRENT: u64 = 1;
/// FID-in-dirent and self FID differ.
pub const FID_DIFFERS: u64 = 2;
/// The child has no self FID.
pub const FID_NO_SELF: u64 = 3;
/// There is neither FID-in-dirent nor self FID.
pub const FID_NEITHER: u64 = 4;

/// The child has the record of the entry.
pub const RECORD_CONSISTENT: u64 = 0;
/// The child lacks the record of the entry, or has no linkEA.
pub const RECORD_MISSING: u64 = 1;
