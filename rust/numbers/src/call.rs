//! What calls of the library are handed, and hand out.

/// The policy that lets a run make objects.
pub const CREATE: u64 = 1;
/// The policy that lets a run adopt and destroy objects.
pub const ADOPT: u64 = 2;
/// The greatest policy: both.
pub const BOTH: u64 = CREATE | ADOPT;

/// The numbers of a position: stage, row and part.
pub const POSITION: usize = 3;
/// The stage of headers and slots.
pub const STAGE_PARENTS: u64 = 1;
/// The stage of objects.
pub const STAGE_OBJECTS: u64 = 2;
/// The stage of the end.
pub const STAGE_END: u64 = 3;
/// The end.
pub const END: [u64; POSITION] = [STAGE_END, 0, 0];

/// The classes that there are.
pub const CLASSES: usize = 15;
/// The numbers of a class: which one, and the claim of an object that claims another slot.
pub const CLASS: usize = 4;
/// The numbers of a keeper: whether there is one, its row and slot, and the slots compared.
pub const KEEPER: usize = 4;
/// The classes whose repairs a run counts.
pub const COUNTED: usize = 9;
/// The numbers of a run's report: the steps and the counts.
pub const REPORT: usize = 1 + COUNTED;
/// The parent table as the table of a write.
pub const TABLE_PARENTS: u64 = 0;
/// The object table as the table of a write.
pub const TABLE_OBJECTS: u64 = 1;
/// The numbers of a row that is written: table and row.
pub const ROW: usize = 2;
/// The most writes of a step.
pub const MOST_WRITES: usize = 3;
/// The numbers of a step's writes: how many, and the rows.
pub const WRITES: usize = 1 + ROW * MOST_WRITES;
/// The numbers of a header that is read.
pub const HEADER_READ: usize = 8;
/// The numbers of a header that is written.
pub const HEADER_WRITTEN: usize = HEADER_READ - 1;
/// The numbers of a slot.
pub const SLOT: usize = 5;
/// The numbers of the header of a linkEA: record count, total length, overflow time, padding.
pub const LINK_HEADER: usize = 4;
/// The numbers of a record that is read: the parent's sequence, id and version, where the name
/// starts, its length, and the next place.
pub const LINK_READ: usize = 6;
/// The numbers of a record that is written.
pub const LINK_WRITTEN: usize = LINK_READ - 1;
/// The numbers of an entry's findings: that of its FID and that of its record.
pub const FINDING: usize = 2;
/// The numbers of a mending's report: self FIDs taken, FID-in-dirents written, records appended and
/// removed, and the entry it stopped in front of or the number of entries.
pub const MENDED: usize = 5;
