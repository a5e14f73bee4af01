//! What each entry shows, in the tables as lent.

use super::rows::{Entry, Namespace};

/// How the FID-in-dirent of an entry and the self FID of its child stand to each other.
#[derive(Clone, Copy, Debug, PartialEq, Eq, PartialOrd, Ord)]
pub enum FidFinding {
    /// They are the same.
    Consistent,
    /// There is no FID-in-dirent.
    NoEntryFid,
    /// They differ.
    Differs,
    /// There is no self FID.
    NoSelf,
    /// There is neither.
    Neither,
}

impl FidFinding {
    /// All of them, in the order of their numbers.
    pub const ALL: [FidFinding; 5] = [
        FidFinding::Consistent,
        FidFinding::NoEntryFid,
        FidFinding::Differs,
        FidFinding::NoSelf,
        FidFinding::Neither,
    ];

    /// Its number.
    pub fn number(self) -> u64 {
        self as u64
    }
}

/// The finding of an entry, and whether its child has the record.
pub fn find(names: &Namespace, entry: &Entry) -> (FidFinding, bool) {
    let child = &names.children[entry.child];
    let finding = match (entry.fid, child.own) {
        (None, None) => FidFinding::Neither,
        (None, Some(_)) => FidFinding::NoEntryFid,
        (Some(_), None) => FidFinding::NoSelf,
        (Some(fid), Some(own)) if fid != own => FidFinding::Differs,
        (Some(_), Some(_)) => FidFinding::Consistent,
    };
    (finding, child.has(&entry.record))
}
