//! File identifiers, written `[0x200000401:0x1:0x0]`.

use std::fmt;

use numbers::fid::{BYTES, FIRST_SEQUENCE, ID_AT, LAST_SEQUENCE, SEQUENCE_AT, VERSION_AT};

/// Sequence, object id and version.
#[derive(Clone, Copy, Debug, PartialEq, Eq, PartialOrd, Ord, Hash)]
pub struct Fid {
    /// The sequence.
    pub sequence: u64,
    /// The object id.
    pub id: u32,
    /// The version; a claim keeps its stripe index here.
    pub version: u32,
}

/// The FID of a file, on an MDT.
#[derive(Clone, Copy, Debug, PartialEq, Eq, PartialOrd, Ord, Hash)]
pub struct MdtFid(pub Fid);

/// The FID of an object, on an OST.
#[derive(Clone, Copy, Debug, PartialEq, Eq, PartialOrd, Ord, Hash)]
pub struct OstFid(pub Fid);

impl Fid {
    /// The FID with version 0.
    pub const fn new(sequence: u64, id: u32) -> Fid {
        Fid {
            sequence,
            id,
            version: 0,
        }
    }

    /// The FID at a place of a row.
    pub fn read(row: &[u8], at: usize) -> Fid {
        Fid {
            sequence: number64(row, at + SEQUENCE_AT),
            id: number32(row, at + ID_AT),
            version: number32(row, at + VERSION_AT),
        }
    }

    /// The bytes of the FID.
    pub fn to_bytes(self) -> [u8; BYTES] {
        let mut bytes = [0; BYTES];
        bytes[..ID_AT].copy_from_slice(&self.sequence.to_le_bytes());
        bytes[ID_AT..VERSION_AT].copy_from_slice(&self.id.to_le_bytes());
        bytes[VERSION_AT..].copy_from_slice(&self.version.to_le_bytes());
        bytes
    }

    /// The FID that a person wrote: three numbers, decimal or hexadecimal, with or without
    /// brackets; without the last number the version is 0.
    pub fn parse(text: &str) -> Option<Fid> {
        let inner = match text.strip_prefix('[') {
            Some(rest) => rest.strip_suffix(']')?,
            None => text,
        };
        let numbers: Option<Vec<u64>> = inner.split(':').map(parse_number).collect();
        let (sequence, id, version) = match numbers?[..] {
            [sequence, id] => (sequence, id, 0),
            [sequence, id, version] => (sequence, id, version),
            _ => return None,
        };
        Some(Fid {
            sequence,
            id: id.try_into().ok()?,
            version: version.try_into().ok()?,
        })
    }

    /// Why sequence or id is not that of a good FID.
    pub fn number_fault(self) -> Option<String> {
        if self.sequence < FIRST_SEQUENCE {
            Some(format!("sequence below {FIRST_SEQUENCE:#x}"))
        } else if self.sequence > LAST_SEQUENCE {
            Some(format!("sequence above {LAST_SEQUENCE:#x}"))
        } else if self.id == 0 {
            Some("object id 0".to_string())
        } else {
            None
        }
    }

    /// Why the FID is not good.
    pub fn fault(self) -> Option<String> {
        let version = (self.version != 0).then(|| "version other than 0".to_string());
        self.number_fault().or(version)
    }
}

fn parse_number(text: &str) -> Option<u64> {
    match text.strip_prefix("0x").or(text.strip_prefix("0X")) {
        Some(digits) if digits.bytes().all(|digit| digit.is_ascii_hexdigit()) => {
            u64::from_str_radix(digits, 16).ok()
        }
        None if text.bytes().all(|digit| digit.is_ascii_digit()) => text.parse().ok(),
        _ => None,
    }
}

impl fmt::Display for Fid {
    fn fmt(&self, out: &mut fmt::Formatter<'_>) -> fmt::Result {
        write!(
            out,
            "[{:#x}:{:#x}:{:#x}]",
            self.sequence, self.id, self.version
        )
    }
}

impl fmt::Display for MdtFid {
    fn fmt(&self, out: &mut fmt::Formatter<'_>) -> fmt::Result {
        self.0.fmt(out)
    }
}

impl fmt::Display for OstFid {
    fn fmt(&self, out: &mut fmt::Formatter<'_>) -> fmt::Result {
        self.0.fmt(out)
    }
}

/// The little-endian number in two bytes at a place.
pub fn number16(row: &[u8], at: usize) -> u16 {
    u16::from_le_bytes([row[at], row[at + 1]])
}

/// The little-endian number in four bytes at a place.
pub fn number32(row: &[u8], at: usize) -> u32 {
    u32::from(number16(row, at)) | u32::from(number16(row, at + 2)) << 16
}

/// The little-endian number in eight bytes at a place.
pub fn number64(row: &[u8], at: usize) -> u64 {
    u64::from(number32(row, at)) | u64::from(number32(row, at + 4)) << 32
}

#[cfg(test)]
mod tests {
    use super::*;

    #[test]
    fn a_fid_is_read_as_people_write_it() {
        let fid = Fid::new(0x2_0000_0401, 17);
        for text in [
            "[0x200000401:0x11:0x0]",
            "0x200000401:0x11:0x0",
            "[0x200000401:17:0]",
            "8589935617:17",
        ] {
            assert_eq!(Fid::parse(text), Some(fid), "{text}");
        }
        assert_eq!(fid.to_string(), "[0x200000401:0x11:0x0]");
        assert_eq!(Fid::read(&fid.to_bytes(), 0), fid);
    }

    #[test]
    fn anything_else_is_no_fid() {
        for text in [
            "",
            "[]",
            "1",
            "1:2:3:4",
            "[1:2:3",
            "1:2:3]",
            "0x:1:0",
            "+1:2:0",
            "0x+1:2:0",
            "1: 2:0",
            "1:0x100000000:0",
            "0x10000000000000000:1:0",
        ] {
            assert_eq!(Fid::parse(text), None, "{text}");
        }
    }
}
