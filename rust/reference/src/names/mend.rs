//! The mending: four sweeps under marks, each finished before the next.

use std::collections::{BTreeMap, BTreeSet};

use super::judge::{Mark, ROOT};
use super::rows::{Child, LINK_ROOM, Namespace};
use crate::fid::Fid;
use crate::link::{Link, Record};

/// What a mending did.
#[derive(Clone, Copy, Debug, Default, PartialEq, Eq)]
pub struct Mended {
    /// The self FIDs that were taken from an entry.
    pub taken: u64,
    /// The FID-in-dirents that were written.
    pub written: u64,
    /// The records that were appended.
    pub appended: u64,
    /// The records that were removed.
    pub removed: u64,
    /// The entry whose record doesn't fit, where that stopped it.
    pub stopped: Option<usize>,
}

/// The linkEA of a child that has none, before its first record.
const NO_RECORDS: Link = Link {
    time: 0,
    padding: 0,
    records: Vec::new(),
};

/// Mends what entries of visible directories and their children say of each other.
pub fn mend(names: &mut Namespace, marks: &[Mark]) -> Mended {
    let visible = visible_directories(&names.children, marks);
    let taken = take_self_fids(names, &visible);
    let written = write_entry_fids(names, &visible);
    let (appended, stopped) = append_records(names, &visible);
    let removed = match stopped {
        None => remove_records(names, &visible),
        Some(_) => 0,
    };
    Mended {
        taken,
        written,
        appended,
        removed,
        stopped,
    }
}

/// The FIDs of the visible directories: ROOT, and those whose first row is visible. A row that had
/// no self FID when it was judged is no directory, also where it has one since.
pub fn visible_directories(children: &[Child], marks: &[Mark]) -> BTreeSet<Fid> {
    let mut directories = BTreeMap::new();
    for (child, &mark) in children.iter().zip(marks) {
        if let (Some(own), Mark::Hidden | Mark::Visible) = (child.own, mark) {
            directories.entry(own).or_insert(mark);
        }
    }
    directories.insert(ROOT, Mark::Visible);
    let visible = directories
        .into_iter()
        .filter(|(_, mark)| *mark == Mark::Visible);
    visible.map(|(own, _)| own).collect()
}

/// A child without self FID takes that of the first entry that has one.
fn take_self_fids(names: &mut Namespace, visible: &BTreeSet<Fid>) -> u64 {
    let mut taken = 0;
    for entry in &names.entries {
        let own = &mut names.children[entry.child].own;
        if visible.contains(&entry.record.parent) && own.is_none() && entry.fid.is_some() {
            *own = entry.fid;
            taken += 1;
        }
    }
    taken
}

/// An entry gets the self FID of its child.
fn write_entry_fids(names: &mut Namespace, visible: &BTreeSet<Fid>) -> u64 {
    let mut written = 0;
    for entry in &mut names.entries {
        let own = names.children[entry.child].own;
        if visible.contains(&entry.record.parent) && own.is_some() && entry.fid != own {
            entry.fid = own;
            written += 1;
        }
    }
    written
}

/// A child gets the record of each entry that it lacks, at the end. How many were appended, and the
/// entry whose record doesn't fit.
fn append_records(names: &mut Namespace, visible: &BTreeSet<Fid>) -> (u64, Option<usize>) {
    let mut appended = 0;
    for (at, entry) in names.entries.iter().enumerate() {
        let child = &mut names.children[entry.child];
        let is_mended = visible.contains(&entry.record.parent) && child.own.is_some();
        if !is_mended || child.has(&entry.record) {
            continue;
        }
        let mut link = child.link.clone().unwrap_or(NO_RECORDS);
        link.records.push(entry.record.clone());
        if link.total() > LINK_ROOM {
            return (appended, Some(at));
        }
        child.link = Some(link);
        appended += 1;
    }
    (appended, None)
}

/// A child loses each record of a visible directory that is no entry's of that child, or that
/// stands before it already.
fn remove_records(names: &mut Namespace, visible: &BTreeSet<Fid>) -> u64 {
    let of_child = records_of_children(names);
    let mut removed = 0;
    for (child, of_entries) in names.children.iter_mut().zip(of_child) {
        let (Some(_), Some(link)) = (child.own, &mut child.link) else {
            continue;
        };
        let mut before: Vec<Record> = Vec::new();
        let count = link.records.len();
        link.records.retain(|record| {
            let is_first = !before.contains(record);
            before.push(record.clone());
            !visible.contains(&record.parent) || (of_entries.contains(record) && is_first)
        });
        removed += (count - link.records.len()) as u64;
    }
    removed
}

/// The records of the entries of each child.
fn records_of_children(names: &Namespace) -> Vec<Vec<Record>> {
    let mut records = vec![Vec::new(); names.children.len()];
    for entry in &names.entries {
        records[entry.child].push(entry.record.clone());
    }
    records
}
