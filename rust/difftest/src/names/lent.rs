//! What the calls are lent.

use crate::Random;
use numbers::call::{FINDING, MENDED};
use numbers::names::{HIDDEN, NO_FID, VISIBLE, WORKING};
use reference::link::Record;
use reference::names::{CHILD_BYTES, ENTRY_BYTES, Namespace};

/// Both tables, working room, and places for what is handed out; what stands in them is any.
#[derive(Clone, Debug, PartialEq)]
pub struct Lent {
    /// The entries.
    pub entries: Vec<u8>,
    /// The children.
    pub children: Vec<u8>,
    /// The index.
    pub index: Vec<u8>,
    /// The room.
    pub room: Vec<u8>,
    /// Places for marks.
    pub marks: Vec<u64>,
    /// The marks that a mending is handed.
    pub handed: Vec<u64>,
    /// Places for the findings.
    pub findings: Vec<u64>,
    /// Places for the report.
    pub report: Vec<u64>,
}

impl Lent {
    /// Enough of everything for a namespace, and now and then more. The marks that a mending is
    /// handed are any that the rows allow.
    pub fn of(names: &Namespace, random: &mut Random) -> Lent {
        let (entries, children) = to_bytes(names, random);
        let rows = names.entries.len() + names.children.len();
        let working = WORKING * rows;
        let handed = names.children.iter().map(|child| match child.own {
            None => NO_FID,
            Some(_) => random.pick(&[HIDDEN, VISIBLE, VISIBLE, NO_FID]),
        });
        let handed = handed.collect();
        Lent {
            entries,
            children,
            index: vec![random.any() as u8; or_more(working, random)],
            room: vec![random.any() as u8; or_more(working, random)],
            marks: places(names.children.len(), random),
            handed,
            findings: places(FINDING * names.entries.len(), random),
            report: places(MENDED, random),
        }
    }

    /// How many rows there are in all.
    pub fn rows(&self) -> usize {
        self.entries.len() / ENTRY_BYTES + self.children.len() / CHILD_BYTES
    }
}

fn places(count: usize, random: &mut Random) -> Vec<u64> {
    let count = or_more(count, random);
    random.numbers(count)
}

fn or_more(count: usize, random: &mut Random) -> usize {
    count + random.pick(&[0, 0, 0, 1, 2, 17])
}

/// Both tables as bytes. The room past a name and past a linkEA is filled with anything.
pub fn to_bytes(names: &Namespace, random: &mut Random) -> (Vec<u8>, Vec<u8>) {
    let mut entries = random.bytes(ENTRY_BYTES * names.entries.len());
    let mut children = random.bytes(CHILD_BYTES * names.children.len());
    names.write_entries(&mut entries);
    names.write_children(&mut children);
    (entries, children)
}

/// A namespace for a message: a line for each row, long names by their length.
pub fn describe(names: &Namespace) -> String {
    let entries = names.entries.iter().map(|entry| {
        let record = words_of(&entry.record);
        format!(
            "entry {record} of child {}, FID {:x?}",
            entry.child, entry.fid
        )
    });
    let children = names.children.iter().map(|child| {
        let records = child.link.as_ref().map(|link| {
            let records = link.records.iter().map(words_of);
            records.collect::<Vec<_>>().join(", ")
        });
        format!(
            "child {:x?}, up {:x?}, linkEA {records:?}",
            child.own, child.up
        )
    });
    entries.chain(children).collect::<Vec<_>>().join("\n")
}

fn words_of(record: &Record) -> String {
    let name = match record.name.len() {
        0..10 => String::from_utf8_lossy(&record.name).into_owned(),
        length => format!("{length} bytes"),
    };
    format!("{name:?} in {:x?}", record.parent)
}
