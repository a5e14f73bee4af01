//! The tables of names as bytes, and what the library says of them.

use numbers::answer::{LINK_FULL, OK};
use numbers::call::{FINDING, MENDED};
use numbers::names::{HIDDEN, NO_FID, VISIBLE, WORKING};

use crate::mended::Mended;
use crate::tables::{Table, Together};

/// The contents of both tables. Of a file that is too long there is one byte too many.
#[derive(Clone, Debug, Default, PartialEq, Eq)]
pub struct Names {
    /// The entry rows.
    pub entries: Vec<u8>,
    /// The child rows.
    pub children: Vec<u8>,
}

/// What a child row is as a directory.
#[derive(Clone, Copy, Debug, PartialEq, Eq)]
pub enum Mark {
    /// Hidden.
    Hidden,
    /// Visible.
    Visible,
    /// None, without a self FID.
    NoFid,
}

/// The findings of an entry, as the library numbers them.
#[derive(Clone, Copy, Debug, PartialEq, Eq)]
pub struct Numbers {
    /// That of its FID.
    pub fid: u64,
    /// That of its record.
    pub link: u64,
}

impl Together for Names {
    const ALL: &'static [Table] = &Table::NAMES;
    const CHANGED_BY: &'static str = "mending";

    fn of(&self, table: Table) -> &[u8] {
        match table {
            Table::Entries => &self.entries,
            Table::Children => &self.children,
            Table::Parents | Table::Objects | Table::Reserve => &[],
        }
    }

    fn of_mut(&mut self, table: Table) -> Option<&mut Vec<u8>> {
        match table {
            Table::Entries => Some(&mut self.entries),
            Table::Children => Some(&mut self.children),
            Table::Parents | Table::Objects | Table::Reserve => None,
        }
    }

    fn lengths(&self) -> [usize; 2] {
        [self.entries.len(), self.children.len()]
    }
}

impl Mark {
    fn of_number(number: u64) -> Option<Mark> {
        match number {
            HIDDEN => Some(Mark::Hidden),
            VISIBLE => Some(Mark::Visible),
            NO_FID => Some(Mark::NoFid),
            _ => None,
        }
    }
}

impl Names {
    /// How many rows a table has.
    pub fn count(&self, table: Table) -> usize {
        self.rows(table).count()
    }

    /// Working room for the library.
    fn working(&self) -> Vec<u8> {
        vec![0; WORKING * (self.count(Table::Entries) + self.count(Table::Children))]
    }

    /// The library's number for the tables: 0, 11, 16, 31 or 39.
    pub fn check(&self) -> u32 {
        self.judge().err().unwrap_or(OK)
    }

    /// The marks of the child rows, or the number with which the library refuses the tables.
    pub fn judge(&self) -> Result<Vec<Mark>, u32> {
        let (mut index, mut room) = (self.working(), self.working());
        let mut marks = vec![0; self.count(Table::Children)];
        let answer = lfsck_sys::names_judge(
            &self.entries,
            &self.children,
            &mut index,
            &mut room,
            &mut marks,
        );
        let marks: Option<Vec<Mark>> = marks.into_iter().map(Mark::of_number).collect();
        match answer {
            OK => Ok(marks.expect("a mark is one of three")),
            refusal => Err(refusal),
        }
    }

    /// The findings of the entries, or the number with which the library refuses the tables.
    pub fn find(&self) -> Result<Vec<Numbers>, u32> {
        let mut out = vec![0; FINDING * self.count(Table::Entries)];
        let answer = lfsck_sys::names_find(&self.entries, &self.children, &mut out);
        let (findings, _) = out.as_chunks::<FINDING>();
        let findings = findings.iter().map(|&[fid, link]| Numbers { fid, link });
        match answer {
            OK => Ok(findings.collect()),
            refusal => Err(refusal),
        }
    }

    /// Makes the pass: judges, and mends under the marks. What it did, finished or stopped in front
    /// of an entry; or the number with which the library refuses the tables, and nothing is changed.
    pub fn pass(&mut self) -> Result<Mended, u32> {
        let (mut index, mut room) = (self.working(), self.working());
        let mut marks = vec![0; self.count(Table::Children)];
        let mut report = [0; MENDED];
        let answer = lfsck_sys::names_pass(
            &mut self.entries,
            &mut self.children,
            &mut index,
            &mut room,
            &mut marks,
            &mut report,
        );
        match answer {
            OK | LINK_FULL => Ok(Mended::new(answer, report)),
            refusal => Err(refusal),
        }
    }
}
