//! Tables of names of a few rows, by the reference, and what it makes of them.

use reference::fid::Fid;
use reference::interface::{self, Working};
use reference::link::{Link, Record};
use reference::names::{CHILD_BYTES, Child, ENTRY_BYTES, Entry, Namespace};

use crate::tool::{Case, Files};

/// The table of entries.
pub const ENTRIES: &str = "entries.tbl";
/// The table of children.
pub const CHILDREN: &str = "children.tbl";
/// The command that mends.
pub const MEND: [&str; 2] = ["names", "--mend"];

/// The FID of a file or directory.
pub const fn fid(id: u32) -> Fid {
    Fid::new(0x2_0000_0401, id)
}

/// As it is printed.
pub fn text(fid: Fid) -> String {
    format!("[{:#x}:{:#x}:{:#x}]", fid.sequence, fid.id, fid.version)
}

/// A name in a directory.
pub fn record(parent: Fid, name: &[u8]) -> Record {
    Record {
        parent,
        name: name.to_vec(),
    }
}

/// An entry.
pub fn entry(directory: Fid, child: usize, fid: Option<Fid>, name: &[u8]) -> Entry {
    Entry {
        record: record(directory, name),
        child,
        fid,
    }
}

/// A child with a linkEA of these records.
pub fn linked(own: Option<Fid>, records: &[(Fid, &[u8])]) -> Child {
    let records = records.iter().map(|(parent, name)| record(*parent, name));
    Child {
        own,
        up: None,
        link: Some(Link {
            time: 7,
            padding: 8,
            records: records.collect(),
        }),
    }
}

/// A child without linkEA.
pub fn bare(own: Option<Fid>, up: Option<Fid>) -> Child {
    Child {
        own,
        up,
        link: None,
    }
}

/// Both tables; what the rules don't speak of is filled.
pub fn to_bytes(names: &Namespace) -> (Vec<u8>, Vec<u8>) {
    let mut entries = vec![0xab; ENTRY_BYTES * names.entries.len()];
    let mut children = vec![0xcd; CHILD_BYTES * names.children.len()];
    names.write_entries(&mut entries);
    names.write_children(&mut children);
    (entries, children)
}

/// A case with these names and no files.
pub fn case_of(name: &str, names: &Namespace) -> Case {
    let case = Case::with(name, b"", b"", b"");
    put(&case, names);
    case
}

/// Gives a case these names.
pub fn put(case: &Case, names: &Namespace) {
    let (entries, children) = to_bytes(names);
    case.write(ENTRIES, &entries);
    case.write(CHILDREN, &children);
}

/// What the reference makes of the names of a case in a pass.
#[derive(Debug)]
pub struct Passed {
    /// The answer.
    pub answer: u32,
    /// What each sweep did, and the entry that it stopped in front of.
    pub report: [u64; 5],
    /// The entries.
    pub entries: Vec<u8>,
    /// The children.
    pub children: Vec<u8>,
}

/// A pass over the names of a case.
pub fn pass(files: &Files) -> Passed {
    let mut entries = files[ENTRIES].clone();
    let mut children = files[CHILDREN].clone();
    let rows = entries.len() / ENTRY_BYTES + children.len() / CHILD_BYTES;
    let working = Working {
        index: 16 * rows,
        room: 16 * rows,
    };
    let mut marks = vec![0; children.len() / CHILD_BYTES];
    let mut report = [0; 5];
    let answer = interface::names_pass(
        &mut entries,
        &mut children,
        working,
        &mut marks,
        &mut report,
    );
    Passed {
        answer,
        report,
        entries,
        children,
    }
}

impl Passed {
    /// The names of a case are those of this pass.
    pub fn expect_in(&self, case: &Case) {
        assert!(case.read(ENTRIES) == self.entries, "{ENTRIES}");
        assert!(case.read(CHILDREN) == self.children, "{CHILDREN}");
    }
}
