//! FIDs in bytes.

/// Where the sequence stands.
pub const SEQUENCE_AT: usize = 0;
/// Where the object id stands.
pub const ID_AT: usize = SEQUENCE_AT + 8;
/// Where the version stands; of a claim, the stripe index.
pub const VERSION_AT: usize = ID_AT + 4;
/// The bytes of a FID.
pub const BYTES: usize = VERSION_AT + 4;

/// The least good sequence.
pub const FIRST_SEQUENCE: u64 = 0x2_0000_0400;
/// The greatest good sequence.
pub const LAST_SEQUENCE: u64 = u64::MAX - 1;
