//! The names of the sample: every finding, a hidden directory, records to be removed.

use numbers::link::{HEADER, NAME_AT};
use numbers::{child, entry};

use crate::fid::Fid;
use crate::name_rows::ROOT;
use crate::names::Names;

/// A directory and a name in it.
pub type Record<'name> = (Fid, &'name [u8]);

/// The FID of a file or directory of the sample.
pub const fn file(id: u32) -> Fid {
    Fid::new(0x2_0000_0401, id)
}

/// Where there is no FID.
const NONE: Fid = Fid::new(0, 0);
const HOME: Fid = file(0x100);
const DRAFTS: Fid = file(0x101);
/// Its `..` leads out of the table, so it is hidden.
const HIDDEN: Fid = file(0x102);
const OUTSIDE: Fid = file(0x200);

/// The names of the sample's file 1; the last would clear the screen.
pub const NAMES: [Record; 3] = [
    (HOME, b"report.txt"),
    (DRAFTS, b"a \"draft\".txt"),
    (HIDDEN, b"\x1b[2Jgone"),
];

/// Directory, child's row, FID-in-dirent and name.
const ENTRIES: [(Fid, u32, Fid, &[u8]); 11] = [
    (ROOT.0, 0, HOME, b"alice"),
    // Written before there were linkEAs: its children are visible by the directory above it.
    (HOME, 1, DRAFTS, b"drafts"),
    (HOME, 3, file(1), b"report.txt"),
    (DRAFTS, 3, NONE, b"a \"draft\".txt"),
    (HOME, 4, file(0x99), b"plan.txt"),
    (HOME, 5, file(3), b"notes"),
    // The same file twice, and one of the entries has its FID.
    (HOME, 6, NONE, b"data link"),
    (DRAFTS, 6, file(4), b"data.bin"),
    // Nothing has its FID.
    (HOME, 7, NONE, b"lost"),
    (HIDDEN, 8, NONE, b"\x1b[2Jseen?"),
    (DRAFTS, 8, file(5), b"five"),
];

/// Both tables.
pub fn names() -> Names {
    let mut names = Names::default();
    for (directory, row, fid, name) in ENTRIES {
        add_entry(&mut names.entries, directory, row, fid, name);
    }
    let mut add = |own, up, records: &[Record]| add_child(&mut names.children, own, up, records);
    add(HOME, ROOT.0, &[(ROOT.0, b"alice")]);
    add(DRAFTS, HOME, &[]);
    add(HIDDEN, OUTSIDE, &[]);
    add(file(1), NONE, &NAMES);
    // A record without an entry, and one that stands twice.
    add(
        file(2),
        NONE,
        &[(HOME, b"old plan.txt"), (HOME, b"plan.txt")],
    );
    add(file(3), NONE, &[(HOME, b"notes"), (HOME, b"notes")]);
    add(NONE, NONE, &[]);
    add(NONE, NONE, &[]);
    add(file(5), NONE, &[]);
    names
}

fn add_entry(entries: &mut Vec<u8>, directory: Fid, row: u32, fid: Fid, name: &[u8]) {
    let end = entries.len() + entry::BYTES;
    entries.extend(directory.to_bytes());
    entries.extend(row.to_le_bytes());
    entries.extend(fid.to_bytes());
    entries.extend((name.len() as u16).to_le_bytes());
    entries.extend(name);
    entries.resize(end, 0);
}

/// Adds a child; without records it has no linkEA.
fn add_child(children: &mut Vec<u8>, own: Fid, up: Fid, records: &[Record]) {
    let end = children.len() + child::BYTES;
    let link = match records {
        [] => Vec::new(),
        _ => link(records),
    };
    children.extend(own.to_bytes());
    children.extend(up.to_bytes());
    children.extend((link.len() as u16).to_le_bytes());
    children.extend(link);
    children.resize(end, 0);
}

/// A linkEA with these records, written by the library.
pub fn link(list: &[Record]) -> Vec<u8> {
    let (mut records, mut names) = (Vec::new(), Vec::new());
    for (parent, name) in list {
        let (start, length) = (names.len() as u64, name.len() as u64);
        records.extend([parent.sequence, parent.id.into(), 0, start, length]);
        names.extend(*name);
    }
    let total = HEADER + NAME_AT * list.len() + names.len();
    let fields = [list.len() as u64, total as u64, 0, 0];
    let mut bytes = vec![0; total];
    let answer = lfsck_sys::link_write(&fields, &records, &names, &mut bytes, &mut [0]);
    assert_eq!(answer, 0, "the library writes the sample's linkEAs");
    bytes
}
