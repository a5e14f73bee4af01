//! What the library finds of an entry, in words.

use std::collections::HashMap;

use numbers::names::{
    FID_CONSISTENT, FID_DIFFERS, FID_NEITHER, FID_NO_DIRENT, FID_NO_SELF, RECORD_CONSISTENT,
    RECORD_MISSING,
};

use crate::fid::MdtFid;
use crate::json::Json;
use crate::name_rows::{Child, Entry, ROOT};
use crate::names::{Mark, Names, Numbers};
use crate::quoted::quoted;
use crate::tables::{Table, Together};

/// A finding: the library's number, its name, and what it means.
pub type Kind = (u64, &'static str, &'static str);

/// What may be found of an entry's FID.
pub const OF_FID: [Kind; 5] = [
    (
        FID_CONSISTENT,
        "consistent",
        "FID-in-dirent and self FID are the same",
    ),
    (
        FID_NO_DIRENT,
        "no FID-in-dirent",
        "the child has a self FID, and the entry has none",
    ),
    (
        FID_DIFFERS,
        "differs",
        "FID-in-dirent and self FID are not the same",
    ),
    (
        FID_NO_SELF,
        "no self FID",
        "the entry has a FID, and the child has none",
    ),
    (FID_NEITHER, "neither", "neither of them has a FID"),
];

/// What may be found of an entry's record.
pub const OF_RECORD: [Kind; 2] = [
    (
        RECORD_CONSISTENT,
        "consistent",
        "the child's linkEA has the record",
    ),
    (
        RECORD_MISSING,
        "missing record",
        "the child's linkEA lacks the record, or there is none",
    ),
];

/// The name of a finding.
fn name_of(kinds: &[Kind], number: u64) -> &'static str {
    let kind = kinds.iter().find(|(known, ..)| *known == number);
    kind.map_or("unknown", |(_, name, _)| name)
}

/// An entry with what was found.
pub struct Finding {
    /// Its row.
    pub row: usize,
    /// What the row says.
    pub entry: Entry,
    /// The self FID of its child.
    pub own: Option<MdtFid>,
    /// Whether its directory is visible; entries of others are left out of a mending.
    pub is_visible: bool,
    numbers: Numbers,
}

/// The findings of all entries; or the number with which the library refuses the tables.
pub fn findings(names: &Names) -> Result<Vec<Finding>, u32> {
    let marks = names.judge()?;
    let numbers = names.find()?;
    let owns: Vec<Option<MdtFid>> = names.rows(Table::Children).map(own).collect();
    let directories = directories(&owns, &marks);
    let rows = names.rows(Table::Entries).zip(numbers).enumerate();
    let list = rows.filter_map(|(row, (bytes, numbers))| {
        let entry = Entry::read(bytes)?;
        Some(Finding {
            row,
            own: owns.get(entry.child).copied().flatten(),
            is_visible: is_visible(entry.at.directory, &directories),
            numbers,
            entry,
        })
    });
    Ok(list.collect())
}

fn own(row: &[u8]) -> Option<MdtFid> {
    Child::read(row)?.own
}

/// The mark of each directory: that of the first row with its FID.
fn directories(owns: &[Option<MdtFid>], marks: &[Mark]) -> HashMap<MdtFid, Mark> {
    let mut directories = HashMap::new();
    for (own, mark) in owns.iter().zip(marks) {
        if let Some(own) = own {
            directories.entry(*own).or_insert(*mark);
        }
    }
    directories
}

/// What has no row is hidden, and ROOT is visible with a row or without.
fn is_visible(directory: MdtFid, directories: &HashMap<MdtFid, Mark>) -> bool {
    directory == ROOT || directories.get(&directory) == Some(&Mark::Visible)
}

impl Finding {
    /// Whether FID and record are both as they should be.
    pub fn is_consistent(&self) -> bool {
        (self.numbers.fid, self.numbers.link) == (FID_CONSISTENT, RECORD_CONSISTENT)
    }

    /// Whether this was found of its FID.
    pub fn is_of_fid(&self, (number, ..): Kind) -> bool {
        self.numbers.fid == number
    }

    /// Whether this was found of its record.
    pub fn is_of_record(&self, (number, ..): Kind) -> bool {
        self.numbers.link == number
    }

    /// What was found of its FID, with the FID-in-dirent where it is another than the child's.
    fn fid_words(&self) -> String {
        let name = name_of(&OF_FID, self.numbers.fid);
        match (self.numbers.fid, self.entry.fid) {
            (FID_DIFFERS | FID_NO_SELF, Some(fid)) => format!("{name}: {fid}"),
            _ => name.to_string(),
        }
    }

    fn link_words(&self) -> &'static str {
        name_of(&OF_RECORD, self.numbers.link)
    }

    /// The columns of its line.
    pub fn columns(&self) -> [String; COLUMNS] {
        let Entry { at, child, .. } = &self.entry;
        [
            self.row.to_string(),
            at.directory.to_string(),
            match self.is_visible {
                true => "visible".to_string(),
                false => "hidden, left out".to_string(),
            },
            child.to_string(),
            self.own.map_or("-".to_string(), |own| own.to_string()),
            self.fid_words(),
            self.link_words().to_string(),
            quoted(&at.name),
        ]
    }

    /// For machines.
    pub fn json(&self) -> Json {
        let Entry { at, child, fid } = &self.entry;
        let mut members = vec![("entry", Json::Number(self.row as u64))];
        members.extend(at.members());
        members.extend([
            ("visible", Json::Bool(self.is_visible)),
            ("child", Json::Number(*child as u64)),
            ("self_fid", Json::maybe(self.own)),
            ("fid_in_dirent", Json::maybe(*fid)),
            (
                "fid_finding",
                Json::text(name_of(&OF_FID, self.numbers.fid)),
            ),
            ("link_finding", Json::text(self.link_words())),
        ]);
        Json::Object(members)
    }
}

/// The columns of a line.
pub const COLUMNS: usize = 8;

/// The names of the columns.
pub const HEADING: [&str; COLUMNS] = [
    "entry",
    "directory",
    "which is",
    "child",
    "self FID",
    "FID finding",
    "link finding",
    "name",
];
