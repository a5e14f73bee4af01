//! LinkEAs in bytes: a header of little-endian numbers, then records of big-endian ones.

use crate::fid;

/// The magic.
pub const MAGIC: u32 = 0x11EA_F1DF;

/// Where the magic stands.
pub const MAGIC_AT: usize = 0;
/// Where the record count stands.
pub const COUNT_AT: usize = MAGIC_AT + 4;
/// Where the total length stands.
pub const TOTAL_AT: usize = COUNT_AT + 4;
/// Where the overflow time stands.
pub const TIME_AT: usize = TOTAL_AT + 8;
/// Where the padding stands.
pub const PADDING_AT: usize = TIME_AT + 4;
/// The bytes of the header, and the place of the first record.
pub const HEADER: usize = PADDING_AT + 4;

/// Where the parent's FID stands in a record, after the record's length.
pub const PARENT_AT: usize = 2;
/// Where the name stands in a record.
pub const NAME_AT: usize = PARENT_AT + fid::BYTES;
/// The length of the shortest record: its name has one byte.
pub const LEAST_RECORD: usize = NAME_AT + 1;
/// The length of the longest record.
pub const MOST_RECORD: usize = 65_535;
/// The bytes of the longest name.
pub const MOST_NAME: usize = MOST_RECORD - NAME_AT;
