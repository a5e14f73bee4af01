//! File identifiers.

use crate::take;

/// The least good sequence.
pub const FIRST_SEQUENCE: u64 = 0x2_0000_0400;
/// The greatest good sequence.
pub const LAST_SEQUENCE: u64 = 0xffff_ffff_ffff_fffe;

/// A FID of a file or of an object.
#[derive(Clone, Copy, Debug, PartialEq, Eq, PartialOrd, Ord, Hash)]
pub struct Fid {
    /// The sequence.
    pub sequence: u64,
    /// The object id within the sequence.
    pub id: u32,
    /// The version; a claim keeps its stripe index here.
    pub version: u32,
}

/// What keeps a FID from being good.
#[derive(Clone, Copy, Debug, PartialEq, Eq, PartialOrd, Ord)]
pub enum FidFault {
    /// The sequence is below the first good one.
    SequenceLow,
    /// The sequence is above the last good one.
    SequenceHigh,
    /// The id is 0.
    Id,
    /// The version is not 0.
    Version,
}

impl Fid {
    /// A FID with version 0.
    pub const fn new(sequence: u64, id: u32) -> Fid {
        Fid {
            sequence,
            id,
            version: 0,
        }
    }

    /// The FID that 16 bytes stand for, taken from the front of `rest`.
    pub fn take(rest: &mut &[u8]) -> Option<Fid> {
        Some(Fid {
            sequence: take::number64(rest)?,
            id: take::number32(rest)?,
            version: take::number32(rest)?,
        })
    }

    /// The 16 bytes of the FID.
    pub fn to_bytes(self) -> [u8; 16] {
        let mut bytes = [0; 16];
        bytes[..8].copy_from_slice(&self.sequence.to_le_bytes());
        bytes[8..12].copy_from_slice(&self.id.to_le_bytes());
        bytes[12..].copy_from_slice(&self.version.to_le_bytes());
        bytes
    }

    /// A good FID has a sequence within the bounds, an id and version 0.
    pub fn check(self) -> Result<(), FidFault> {
        if self.sequence < FIRST_SEQUENCE {
            Err(FidFault::SequenceLow)
        } else if self.sequence > LAST_SEQUENCE {
            Err(FidFault::SequenceHigh)
        } else if self.id == 0 {
            Err(FidFault::Id)
        } else if self.version != 0 {
            Err(FidFault::Version)
        } else {
            Ok(())
        }
    }
}
