//! What a call answers.

/// Done; of a run, the end is reached.
pub const OK: u32 = 0;
/// The steps are used up and the end is not reached.
pub const STEPS_USED: u32 = 1;
/// A table is not whole rows or too long, or a mark is not 0 or 1.
pub const BAD_TABLE: u32 = 11;
/// The policy is none.
pub const BAD_POLICY: u32 = 12;
/// A layout or a slot is against the rules.
pub const BAD_LAYOUT: u32 = 13;
/// A bad FID, OST index or claim, or fresh without claim.
pub const BAD_FID: u32 = 14;
/// A FID twice among used parents, or twice among used objects.
pub const FID_TWICE: u32 = 15;
/// There is no such position or record.
pub const NO_POSITION: u32 = 16;
/// Too few places for what is handed out.
pub const NO_ROOM: u32 = 17;
/// A slot is to be redirected, and no FID of the reserve can be used.
pub const NO_RESERVE: u32 = 21;
/// An object is to be made, and no object row is unused.
pub const NO_OBJECT_ROW: u32 = 22;
/// A file is to be made, and no parent row is unused.
pub const NO_PARENT_ROW: u32 = 23;
/// A linkEA or a record is against the rules.
pub const BAD_LINK: u32 = 31;
/// A bad line of a dump, hex or length, a bad owners line or none, or an unclosed last entry.
pub const BAD_DUMP: u32 = 33;
/// One of the three attributes stands twice in an entry.
pub const ATTRIBUTE_TWICE: u32 = 34;
/// An entry has no self FID.
pub const NO_SELF: u32 = 35;
/// An entry is neither a file nor an object, or both.
pub const NO_KIND: u32 = 36;
/// The row of an entry doesn't fit.
pub const NO_FIT: u32 = 37;
/// A record outgrows the room for its child's linkEA.
pub const LINK_FULL: u32 = 38;
/// A climb from directory to directory is too long, or goes in a circle.
pub const LONG_CLIMB: u32 = 39;
