//! The two tables: files with their layouts, and objects.

use crate::fid::Fid;
use crate::layout::{self, Layout};
use crate::take;

/// The bytes of a parent row, its room as long as the longest layout.
pub const PARENT_BYTES: usize = LAYOUT_AT + layout::MOST_BYTES;
/// The bytes of an object row.
pub const OBJECT_BYTES: usize = 46;
/// The bytes of a reserve entry.
pub const RESERVE_BYTES: usize = 16;
/// The bytes of a parent row before its room for the layout.
pub const LAYOUT_AT: usize = 27;

/// Who a file or an object belongs to.
#[derive(Clone, Copy, Debug, PartialEq, Eq)]
pub struct Owner {
    /// The user.
    pub uid: u32,
    /// The group.
    pub gid: u32,
}

/// A file on the MDT.
#[derive(Clone, Debug, PartialEq, Eq)]
pub struct Parent {
    /// Its own FID.
    pub fid: Fid,
    /// Its owner.
    pub owner: Owner,
    /// Where its data is.
    pub layout: Layout,
}

/// The slot that an object says it belongs to.
#[derive(Clone, Copy, Debug, PartialEq, Eq)]
pub struct Claim {
    /// The file, a FID of version 0.
    pub parent: Fid,
    /// The stripe index.
    pub index: u32,
}

/// An object on an OST.
#[derive(Clone, Copy, Debug, PartialEq, Eq)]
pub struct Object {
    /// Its own FID.
    pub fid: Fid,
    /// The index of its OST.
    pub ost: u32,
    /// Its owner.
    pub owner: Owner,
    /// Its claim, if it has one.
    pub claim: Option<Claim>,
    /// Made empty by a repair and not written since.
    pub fresh: bool,
}

/// The rows of both tables; `None` is an unused row.
#[derive(Clone, Debug, Default, PartialEq, Eq)]
pub struct Tables {
    /// The files.
    pub parents: Vec<Option<Parent>>,
    /// The objects.
    pub objects: Vec<Option<Object>>,
}

impl Owner {
    /// The owner that the front of `rest` has.
    pub fn take(rest: &mut &[u8]) -> Option<Owner> {
        Some(Owner {
            uid: take::number32(rest)?,
            gid: take::number32(rest)?,
        })
    }

    fn to_bytes(self) -> [u8; 8] {
        let mut bytes = [0; 8];
        bytes[..4].copy_from_slice(&self.uid.to_le_bytes());
        bytes[4..].copy_from_slice(&self.gid.to_le_bytes());
        bytes
    }
}

impl Claim {
    /// The claim in a FID whose version is the stripe index; zeros are none.
    pub fn of_fid(fid: Fid) -> Option<Claim> {
        (fid != NO_CLAIM).then_some(Claim {
            parent: Fid::new(fid.sequence, fid.id),
            index: fid.version,
        })
    }

    fn to_fid(self) -> Fid {
        Fid {
            version: self.index,
            ..self.parent
        }
    }
}

const NO_CLAIM: Fid = Fid::new(0, 0);

impl Parent {
    /// Writes the file to a row. Bytes past the layout stay.
    pub fn write(&self, row: &mut [u8]) {
        let layout = self.layout.encode();
        let mut bytes = vec![1];
        bytes.extend(self.fid.to_bytes());
        bytes.extend(self.owner.to_bytes());
        bytes.extend((layout.len() as u16).to_le_bytes());
        bytes.extend(layout);
        row[..bytes.len()].copy_from_slice(&bytes);
    }
}

impl Object {
    /// Writes the object to a row, all of it.
    pub fn write(&self, row: &mut [u8]) {
        let claim = self.claim.map_or(NO_CLAIM, Claim::to_fid);
        let mut bytes = vec![1];
        bytes.extend(self.fid.to_bytes());
        bytes.extend(self.ost.to_le_bytes());
        bytes.extend(self.owner.to_bytes());
        bytes.extend(claim.to_bytes());
        bytes.push(self.fresh.into());
        row.copy_from_slice(&bytes);
    }
}

#[cfg(test)]
mod tests {
    use super::*;

    #[test]
    fn a_row_is_as_the_paper_counts_it() {
        assert_eq!(layout::MOST_BYTES, 48_048);
        assert_eq!(PARENT_BYTES, 48_075);
    }
}
