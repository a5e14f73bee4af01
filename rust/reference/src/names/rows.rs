//! Entry rows and child rows.

use crate::fid::Fid;
use crate::link::{Link, Record};

/// The bytes of an entry row before its name.
pub(super) const NAME_AT: usize = 38;
/// The most bytes of a name.
pub const MOST_NAME: usize = 255;
/// The bytes of an entry row.
pub const ENTRY_BYTES: usize = NAME_AT + MOST_NAME;
/// The bytes of a child row before its room for the linkEA.
pub(super) const LINK_AT: usize = 34;
/// The bytes of the room for a linkEA.
pub const LINK_ROOM: usize = 4096;
/// The bytes of a child row.
pub const CHILD_BYTES: usize = LINK_AT + LINK_ROOM;

/// Stands where there is no FID.
const NO_FID: Fid = Fid::new(0, 0);

/// A name in a directory.
#[derive(Clone, Debug, PartialEq, Eq)]
pub struct Entry {
    /// The directory's FID and the name: the record that the child should have.
    pub record: Record,
    /// The row of the child.
    pub child: usize,
    /// The FID-in-dirent, if there is one.
    pub fid: Option<Fid>,
}

/// A file or a directory.
#[derive(Clone, Debug, PartialEq, Eq)]
pub struct Child {
    /// Its self FID, if it has one.
    pub own: Option<Fid>,
    /// The directory that its `..` names, if it has one.
    pub up: Option<Fid>,
    /// Its linkEA, if it has one.
    pub link: Option<Link>,
}

/// The rows of both tables.
#[derive(Clone, Debug, Default, PartialEq, Eq)]
pub struct Namespace {
    /// The entries.
    pub entries: Vec<Entry>,
    /// The children.
    pub children: Vec<Child>,
}

/// The FID, or none where it is zero.
pub(super) fn some(fid: Fid) -> Option<Fid> {
    (fid != NO_FID).then_some(fid)
}

fn to_bytes(fid: Option<Fid>) -> [u8; 16] {
    fid.unwrap_or(NO_FID).to_bytes()
}

impl Entry {
    /// Writes the entry to a row. Bytes past the name stay.
    pub fn write(&self, row: &mut [u8]) {
        let name = &self.record.name;
        let mut bytes = self.record.parent.to_bytes().to_vec();
        bytes.extend((self.child as u32).to_le_bytes());
        bytes.extend(to_bytes(self.fid));
        bytes.extend((name.len() as u16).to_le_bytes());
        bytes.extend(name);
        row[..bytes.len()].copy_from_slice(&bytes);
    }
}

impl Child {
    /// Writes the child to a row. Bytes past the linkEA stay.
    pub fn write(&self, row: &mut [u8]) {
        let link = self.link.as_ref().map_or(Vec::new(), Link::encode);
        let mut bytes = to_bytes(self.own).to_vec();
        bytes.extend(to_bytes(self.up));
        bytes.extend((link.len() as u16).to_le_bytes());
        bytes.extend(link);
        row[..bytes.len()].copy_from_slice(&bytes);
    }

    /// Whether the linkEA has a record.
    pub fn has(&self, record: &Record) -> bool {
        let link = self.link.as_ref();
        link.is_some_and(|link| link.records.contains(record))
    }

    /// The bytes of the linkEA.
    fn link_bytes(&self) -> usize {
        self.link.as_ref().map_or(0, Link::total)
    }
}

impl Namespace {
    /// Writes the entries to their rows.
    pub fn write_entries(&self, entries: &mut [u8]) {
        for (entry, row) in self.entries.iter().zip(entries.chunks_mut(ENTRY_BYTES)) {
            entry.write(row);
        }
    }

    /// Writes the children to their rows.
    pub fn write_children(&self, children: &mut [u8]) {
        for (child, row) in self.children.iter().zip(children.chunks_mut(CHILD_BYTES)) {
            child.write(row);
        }
    }

    /// Writes all rows over those that were read before. The room past a changed linkEA becomes
    /// zero.
    pub fn write_over(&self, before: &Namespace, entries: &mut [u8], children: &mut [u8]) {
        self.write_entries(entries);
        self.write_children(children);
        let rows = children.chunks_mut(CHILD_BYTES);
        for ((child, old), row) in self.children.iter().zip(&before.children).zip(rows) {
            if child.link != old.link {
                row[LINK_AT + child.link_bytes()..].fill(0);
            }
        }
    }
}
