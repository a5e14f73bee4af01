//! The check of both tables: everything that is wrong with them.

use std::collections::BTreeSet;

use super::judge::Mark;
use super::rows::{CHILD_BYTES, Child, ENTRY_BYTES, Entry, MOST_NAME, Namespace, some};
use crate::answer::{BAD_LINK, BAD_TABLE, NO_POSITION};
use crate::fid::Fid;
use crate::link::{self, Link, Record, name_faults};
use crate::take;

/// The most rows of either table.
pub const MOST_ROWS: usize = 65_536;

/// A condition under which the tables, or the marks handed in with them, are refused.
#[derive(Clone, Copy, Debug, PartialEq, Eq, PartialOrd, Ord)]
pub enum Fault {
    /// The entries are not whole rows.
    EntriesCut,
    /// There are too many entries.
    EntriesMany,
    /// The children are not whole rows.
    ChildrenCut,
    /// There are too many children.
    ChildrenMany,
    /// The marks are not one for each child row.
    MarksAmount,
    /// A mark is none of the three.
    MarkAbove,
    /// A mark is that of a directory, and the row has no self FID.
    MarkOfNone,
    /// An entry's child is at or past the child rows.
    ChildRow,
    /// A name is empty.
    NameEmpty,
    /// A name is longer than its room.
    NameLong,
    /// A name has a slash.
    NameSlash,
    /// A name has a zero byte.
    NameZero,
    /// A linkEA is longer than its room.
    LinkLong,
    /// Bytes are no linkEA.
    Link(link::Fault),
}

/// Every condition that holds.
pub type Faults = BTreeSet<Fault>;

impl Fault {
    /// The number that it is refused with.
    pub fn number(self) -> u32 {
        use Fault::*;
        match self {
            EntriesCut | EntriesMany | ChildrenCut | ChildrenMany => BAD_TABLE,
            MarksAmount | MarkAbove | MarkOfNone => BAD_TABLE,
            ChildRow => NO_POSITION,
            NameEmpty | NameLong | NameSlash | NameZero | LinkLong | Link(_) => BAD_LINK,
        }
    }
}

/// The lowest number that applies.
pub fn refusal(faults: &Faults) -> Option<u32> {
    faults.iter().map(|fault| fault.number()).min()
}

/// The rows of both tables, and what is wrong with them. A name or a linkEA that cannot be read is
/// left out.
pub fn read(entries: &[u8], children: &[u8]) -> (Namespace, Faults) {
    let mut faults = Faults::new();
    let cut = [Fault::EntriesCut, Fault::ChildrenCut];
    let many = [Fault::EntriesMany, Fault::ChildrenMany];
    let tables = [(entries, ENTRY_BYTES), (children, CHILD_BYTES)];
    for ((table, bytes), (cut, many)) in tables.into_iter().zip(cut.into_iter().zip(many)) {
        if !table.len().is_multiple_of(bytes) {
            faults.insert(cut);
        }
        if table.len() / bytes > MOST_ROWS {
            faults.insert(many);
        }
    }
    let rows = children.len() / CHILD_BYTES;
    let entries = entries.chunks_exact(ENTRY_BYTES);
    let children = children.chunks_exact(CHILD_BYTES);
    let names = Namespace {
        entries: entries
            .filter_map(|row| read_entry(row, rows, &mut faults))
            .collect(),
        children: children
            .filter_map(|row| read_child(row, &mut faults))
            .collect(),
    };
    (names, faults)
}

fn read_entry(mut row: &[u8], children: usize, faults: &mut Faults) -> Option<Entry> {
    let parent = Fid::take(&mut row)?;
    let child = take::number32(&mut row)? as usize;
    let fid = some(Fid::take(&mut row)?);
    let length = usize::from(take::number16(&mut row)?);
    if child >= children {
        faults.insert(Fault::ChildRow);
    }
    if length == 0 {
        faults.insert(Fault::NameEmpty);
    }
    if length > MOST_NAME {
        faults.insert(Fault::NameLong);
    }
    let name = row.get(..length).unwrap_or_default().to_vec();
    faults.extend(name_faults(&name).map(of_name));
    Some(Entry {
        record: Record { parent, name },
        child,
        fid,
    })
}

fn of_name(fault: link::Fault) -> Fault {
    if fault == link::Fault::Slash {
        Fault::NameSlash
    } else {
        Fault::NameZero
    }
}

fn read_child(mut row: &[u8], faults: &mut Faults) -> Option<Child> {
    let own = some(Fid::take(&mut row)?);
    let up = some(Fid::take(&mut row)?);
    let length = usize::from(take::number16(&mut row)?);
    let link = match row.get(..length) {
        Some([]) => None,
        Some(bytes) => match Link::parse(bytes) {
            Ok(link) => Some(link),
            Err(bad) => {
                faults.extend(bad.into_iter().map(Fault::Link));
                None
            }
        },
        None => {
            faults.insert(Fault::LinkLong);
            None
        }
    };
    Some(Child { own, up, link })
}

/// The marks of the children, and what is wrong with them.
pub fn read_marks(numbers: &[u64], children: &[Child], faults: &mut Faults) -> Vec<Mark> {
    if numbers.len() != children.len() {
        faults.insert(Fault::MarksAmount);
    }
    let mut marks = Vec::new();
    for (&number, child) in numbers.iter().zip(children) {
        let mark = Mark::of_number(number);
        if mark.is_none() {
            faults.insert(Fault::MarkAbove);
        }
        if number < Mark::NoFid.number() && child.own.is_none() {
            faults.insert(Fault::MarkOfNone);
        }
        marks.extend(mark);
    }
    marks
}
