//! Numbers, FIDs and rows in the lent bytes.

use numbers::fid::{BYTES, FIRST_SEQUENCE, ID_AT, LAST_SEQUENCE, SEQUENCE_AT, VERSION_AT};
use numbers::object::SELF_AT;

/// A FID, or a claim with its index in the place of the version.
#[derive(Clone, Copy, PartialEq, Eq, Hash)]
pub struct Fid {
    pub sequence: u64,
    pub id: u32,
    pub version: u32,
}

/// No claim, and where a namespace has no FID.
pub const NO_FID: Fid = Fid {
    sequence: 0,
    id: 0,
    version: 0,
};

pub fn number16(bytes: &[u8], at: usize) -> u16 {
    u16::from_le_bytes(bytes[at..at + 2].try_into().expect("2 bytes"))
}

pub fn number32(bytes: &[u8], at: usize) -> u32 {
    u32::from_le_bytes(bytes[at..at + 4].try_into().expect("4 bytes"))
}

pub fn number64(bytes: &[u8], at: usize) -> u64 {
    u64::from_le_bytes(bytes[at..at + 8].try_into().expect("8 bytes"))
}

impl Fid {
    pub fn read(bytes: &[u8], at: usize) -> Fid {
        Fid {
            sequence: number64(bytes, at + SEQUENCE_AT),
            id: number32(bytes, at + ID_AT),
            version: number32(bytes, at + VERSION_AT),
        }
    }

    pub fn write(self, bytes: &mut [u8], at: usize) {
        let bytes = &mut bytes[at..at + BYTES];
        bytes[..ID_AT].copy_from_slice(&self.sequence.to_le_bytes());
        bytes[ID_AT..VERSION_AT].copy_from_slice(&self.id.to_le_bytes());
        bytes[VERSION_AT..].copy_from_slice(&self.version.to_le_bytes());
    }

    pub fn is_good_number(self) -> bool {
        (FIRST_SEQUENCE..=LAST_SEQUENCE).contains(&self.sequence) && self.id >= 1
    }

    pub fn is_good(self) -> bool {
        self.is_good_number() && self.version == 0
    }

    /// The file that a claim names.
    pub fn file(self) -> Fid {
        Fid { version: 0, ..self }
    }
}

/// Row `at` of a table.
pub fn row(table: &[u8], size: usize, at: usize) -> &[u8] {
    &table[size * at..size * at + size]
}

/// Row `at` of a table, to be written.
pub fn row_mut(table: &mut [u8], size: usize, at: usize) -> &mut [u8] {
    &mut table[size * at..size * at + size]
}

pub fn is_used(row: &[u8]) -> bool {
    row[0] == 1
}

/// Whether a row is used and has this FID. The id comes first, in which most rows differ.
pub fn has_fid(row: &[u8], fid: Fid) -> bool {
    number32(row, SELF_AT + ID_AT) == fid.id
        && number64(row, SELF_AT + SEQUENCE_AT) == fid.sequence
        && number32(row, SELF_AT + VERSION_AT) == fid.version
        && row[0] == 1
}
