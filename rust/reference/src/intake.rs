//! Intake: what attribute dumps say, and which rows they fill.
//!
//! A dump is read as a whole: a list of lines, each of which ends with its newline. Feeding it in
//! pieces is reading what the pieces make together, so nothing is kept from piece to piece: what
//! stands after some bytes is what the lines say that end within them.

mod attribute;
mod owners;

use std::collections::BTreeMap;

use crate::answer::{ATTRIBUTE_TWICE, BAD_DUMP, NO_FIT, NO_KIND, NO_SELF};
use crate::tables::{LAYOUT_AT, OBJECT_BYTES, PARENT_BYTES};
use attribute::Kind;
use owners::OwnersLine;

/// What the first line of an entry begins with.
const FIRST: &[u8] = b"# file:";
/// What every other line of an entry begins with, but for the empty one that closes it.
const TRUSTED: &[u8] = b"trusted.";
/// The bytes of a layout that a parent row has room for.
pub const ROOM: usize = PARENT_BYTES - LAYOUT_AT;

/// An entry whose closing line is good, as the row that it becomes.
#[derive(Clone, Debug, PartialEq, Eq)]
pub enum Entry {
    /// A file: used mark, self FID, owner, layout length and layout. The room past it stays.
    Parent(Vec<u8>),
    /// An object: a whole row.
    Object(Vec<u8>),
}

/// A line that is good.
#[derive(Clone, Debug, PartialEq, Eq)]
pub struct Line {
    /// How many bytes of the dump end with it.
    pub end: usize,
    /// The first line of the entry that is open after it, if one is.
    pub open: Option<u64>,
    /// The entry that it closes.
    pub closed: Option<Entry>,
    /// How many bytes of the owners file are taken after it.
    pub taken: usize,
}

/// The line at which reading stops.
#[derive(Clone, Debug, PartialEq, Eq)]
pub struct Fault {
    /// Its number, counted from 1.
    pub line: u64,
    /// What is wrong with it: the lowest of 33 to 37 that applies.
    pub answer: u32,
    /// The higher ones that apply to the same line, whatever rows the tables have.
    pub higher: Vec<u32>,
    /// How many bytes of the dump end with it.
    pub end: usize,
}

/// What a dump says with an owners file, whatever the tables hold.
#[derive(Clone, Debug, Default, PartialEq, Eq)]
pub struct Reading {
    /// The lines before the first bad one.
    pub lines: Vec<Line>,
    /// The first bad one.
    pub fault: Option<Fault>,
}

/// An entry that is open.
struct Open {
    first: u64,
    values: BTreeMap<Kind, Vec<u8>>,
}

impl Reading {
    /// Reads the lines that end within a dump, up to the first bad one.
    pub fn of(dump: &[u8], owners: &[u8]) -> Reading {
        let mut reading = Reading::default();
        let (mut open, mut taken) = (None, 0);
        for line in dump.split_inclusive(|&byte| byte == b'\n') {
            let Some(text) = line.strip_suffix(b"\n") else {
                break;
            };
            let number = reading.lines.len() as u64 + 1;
            let end = reading.lines.last().map_or(0, |line| line.end) + line.len();
            match judge(text, number, &mut open, owners, &mut taken) {
                Ok(closed) => reading.lines.push(Line {
                    end,
                    open: open.as_ref().map(|open: &Open| open.first),
                    closed,
                    taken,
                }),
                Err(numbers) => {
                    reading.fault = Some(Fault::of(number, end, numbers));
                    break;
                }
            }
        }
        reading
    }

    /// The fault of a dump that ends after so many bytes, where no line of it is bad: an entry that
    /// is open, at its first line, or else a line that has no newline.
    pub fn unclosed(&self, bytes: usize) -> Option<u64> {
        let whole = self.lines.iter().take_while(|line| line.end <= bytes);
        let last = whole.clone().last();
        let unfinished = bytes > last.map_or(0, |line| line.end);
        let next = whole.count() as u64 + 1;
        last.and_then(|line| line.open)
            .or(unfinished.then_some(next))
    }
}

impl Fault {
    /// A line to which these numbers apply, the lowest first.
    fn of(line: u64, end: usize, mut numbers: Vec<u32>) -> Fault {
        Fault {
            line,
            answer: numbers.remove(0),
            higher: numbers,
            end,
        }
    }
}

/// Judges a line: the entry that it closes is handed out, or all numbers that apply.
fn judge(
    text: &[u8],
    number: u64,
    open: &mut Option<Open>,
    owners: &[u8],
    taken: &mut usize,
) -> Result<Option<Entry>, Vec<u32>> {
    match open {
        None if text.starts_with(FIRST) => {
            *open = Some(Open {
                first: number,
                values: BTreeMap::new(),
            });
            Ok(None)
        }
        None => Err(vec![BAD_DUMP]),
        Some(entry) if text.is_empty() => {
            let line = owners::next(owners, *taken);
            let closed = entry.close(line.map(|(owner, _)| owner))?;
            *taken = line.map_or(*taken, |(_, after)| after);
            *open = None;
            Ok(Some(closed))
        }
        Some(entry) => {
            let named = text.strip_prefix(TRUSTED).ok_or([BAD_DUMP])?;
            entry.add(named).map(|()| None)
        }
    }
}

/// Those of some numbers that apply.
fn applying<const COUNT: usize>(numbers: [(u32, bool); COUNT]) -> Vec<u32> {
    let applying = numbers.into_iter().filter(|(_, applies)| *applies);
    applying.map(|(number, _)| number).collect()
}

impl Open {
    /// Adds the attribute of a line without its `trusted.`, if it is one that is taken.
    fn add(&mut self, named: &[u8]) -> Result<(), Vec<u32>> {
        let Some((kind, value)) = attribute::taken(named) else {
            return Ok(());
        };
        match value {
            Some(value) if !self.values.contains_key(&kind) => {
                self.values.insert(kind, value);
                Ok(())
            }
            value => Err(applying([
                (BAD_DUMP, value.is_none()),
                (ATTRIBUTE_TWICE, self.values.contains_key(&kind)),
            ])),
        }
    }

    /// The entry with its owners line, if it has a good one, as a row.
    fn close(&self, owner: Option<OwnersLine>) -> Result<Entry, Vec<u32>> {
        let [lov, fid, lma] = [Kind::Lov, Kind::Fid, Kind::Lma].map(|kind| self.values.get(&kind));
        let long = lov.is_some_and(|layout| layout.len() > ROOM);
        match (owner, lma, lov, fid) {
            (Some(owner), Some(lma), Some(layout), None) if !long => {
                Ok(Entry::Parent(parent_row(lma, owner, layout)))
            }
            (Some(owner), Some(lma), None, Some(claim)) => {
                Ok(Entry::Object(object_row(lma, owner, claim)))
            }
            _ => Err(applying([
                (BAD_DUMP, owner.is_none()),
                (NO_SELF, lma.is_none()),
                (NO_KIND, lov.is_some() == fid.is_some()),
                (NO_FIT, long),
            ])),
        }
    }
}

/// Compat 4 and incompat 4 stand before the self FID.
const SELF_AT: usize = 8;

fn parent_row(lma: &[u8], owner: OwnersLine, layout: &[u8]) -> Vec<u8> {
    let mut row = vec![1];
    row.extend(&lma[SELF_AT..]);
    row.extend(owner.uid.to_le_bytes());
    row.extend(owner.gid.to_le_bytes());
    row.extend((layout.len() as u16).to_le_bytes());
    row.extend(layout);
    row
}

/// Of the older `trusted.fid`, too, the first 16 bytes are the claim.
fn object_row(lma: &[u8], owner: OwnersLine, claim: &[u8]) -> Vec<u8> {
    let mut row = vec![1];
    row.extend(&lma[SELF_AT..]);
    row.extend(owner.index.to_le_bytes());
    row.extend(owner.uid.to_le_bytes());
    row.extend(owner.gid.to_le_bytes());
    row.extend(&claim[..16]);
    row.push(0);
    row
}

impl Entry {
    /// Fills the first unused row of the entry's table; false where there is none.
    pub fn fill(&self, parents: &mut [u8], objects: &mut [u8]) -> bool {
        let (row, table, size) = match self {
            Entry::Parent(row) => (row, parents, PARENT_BYTES),
            Entry::Object(row) => (row, objects, OBJECT_BYTES),
        };
        let mut unused = table.chunks_exact_mut(size).filter(|row| row[0] == 0);
        match unused.next() {
            Some(place) => {
                place[..row.len()].copy_from_slice(row);
                true
            }
            None => false,
        }
    }
}

/// The first fault of a whole dump, ended, with the rows before it filled.
pub fn read(
    dump: &[u8],
    owners: &[u8],
    parents: &mut [u8],
    objects: &mut [u8],
) -> Result<(), Fault> {
    let reading = Reading::of(dump, owners);
    for (line, number) in reading.lines.iter().zip(1..) {
        let row = line.closed.as_ref();
        if row.is_some_and(|row| !row.fill(parents, objects)) {
            return Err(Fault::of(number, line.end, vec![NO_FIT]));
        }
    }
    let end = dump.len();
    let unclosed = reading.unclosed(end);
    let unclosed = unclosed.map(|line| Fault::of(line, end, vec![BAD_DUMP]));
    reading.fault.or(unclosed).map_or(Ok(()), Err)
}

#[cfg(test)]
mod tests;
