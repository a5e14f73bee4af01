//! The namespace check in the lent bytes.

mod mend;
mod rows;

use std::collections::HashMap;

use numbers::answer::{BAD_LINK, BAD_TABLE, LONG_CLIMB, NO_POSITION, OK};
use numbers::call::{FINDING, MENDED};
use numbers::names::{HIDDEN, MOST_LEVELS, NO_FID as UNNAMED, VISIBLE};
use numbers::{child, entry};

use super::bytes::{Fid, NO_FID};
use mend::mend;
use rows::{
    ROOT, child_row, has_record, is_good_child, is_good_entry, link_of, own_of, parent_of, up_of,
};

/// What a climb meets at a row.
#[derive(Clone, Copy)]
enum Above {
    /// The row tells its mark.
    Here(u64),
    /// Its `..` leads to ROOT or out.
    There(u64),
    /// Its `..` is that row's FID.
    Row(usize),
}

/// Marks the child rows.
pub fn names_judge(entries: &[u8], children: &[u8], marks: &mut [u64]) -> u32 {
    match check(entries, children) {
        OK => judge(children, marks),
        refusal => refusal,
    }
}

/// Tells the findings of the entries.
pub fn names_find(entries: &[u8], children: &[u8], out: &mut [u64]) -> u32 {
    let refusal = check(entries, children);
    if refusal != OK {
        return refusal;
    }
    for (row, places) in entries
        .chunks_exact(entry::BYTES)
        .zip(out.chunks_exact_mut(FINDING))
    {
        let child = child_row(children, row);
        let finding = match (Fid::read(row, entry::FID_AT), own_of(child)) {
            (NO_FID, NO_FID) => 4,
            (NO_FID, _) => 1,
            (_, NO_FID) => 3,
            (fid, own) if fid != own => 2,
            _ => 0,
        };
        places[0] = finding;
        places[1] = u64::from(!has_record(link_of(child), row));
    }
    OK
}

/// Mends under marks.
pub fn names_mend(
    entries: &mut [u8],
    children: &mut [u8],
    marks: &[u64],
    report: &mut [u64; MENDED],
) -> u32 {
    let whole = check_whole(entries, children);
    let refusal = if whole == OK && !are_good_marks(marks, children) {
        BAD_TABLE
    } else {
        check(entries, children)
    };
    match refusal {
        OK => mend(entries, children, marks, report),
        refusal => refusal,
    }
}

/// Judges, then mends under the marks.
pub fn names_pass(
    entries: &mut [u8],
    children: &mut [u8],
    marks: &mut [u64],
    report: &mut [u64; MENDED],
) -> u32 {
    match names_judge(entries, children, marks) {
        OK => mend(entries, children, marks, report),
        refusal => refusal,
    }
}

fn check_whole(entries: &[u8], children: &[u8]) -> u32 {
    let tables = [
        (entries.len(), entry::BYTES, entry::MOST),
        (children.len(), child::BYTES, child::MOST),
    ];
    let whole = |(length, bytes, most): &(usize, usize, usize)| {
        length.is_multiple_of(*bytes) && length / bytes <= *most
    };
    if tables.iter().all(whole) {
        OK
    } else {
        BAD_TABLE
    }
}

fn check(entries: &[u8], children: &[u8]) -> u32 {
    if check_whole(entries, children) != OK {
        return BAD_TABLE;
    }
    let rows = children.len() / child::BYTES;
    let mut entries = entries.chunks_exact(entry::BYTES);
    if entries.clone().any(|row| rows::child_of(row) >= rows) {
        return NO_POSITION;
    }
    let mut children = children.chunks_exact(child::BYTES);
    if entries.all(is_good_entry) && children.all(is_good_child) {
        OK
    } else {
        BAD_LINK
    }
}

fn are_good_marks(marks: &[u64], children: &[u8]) -> bool {
    let mut rows = children.chunks_exact(child::BYTES).zip(marks);
    let is_good =
        |(row, &mark): (&[u8], &u64)| mark == UNNAMED || (mark < UNNAMED && own_of(row) != NO_FID);
    marks.len() == children.len() / child::BYTES && rows.all(is_good)
}

/// The marks are written where every climb has an end.
fn judge(children: &[u8], marks: &mut [u64]) -> u32 {
    let first = first_rows(children);
    let rows = children.chunks_exact(child::BYTES);
    let mut climbs = Climbs::of(rows.clone().map(|row| above_of(row, &first)).collect());
    let judged: Option<Vec<u64>> = rows
        .map(|row| match own_of(row) {
            NO_FID => Some(UNNAMED),
            own => climbs.mark(first[&own]),
        })
        .collect();
    match judged {
        Some(judged) => {
            marks[..judged.len()].copy_from_slice(&judged);
            OK
        }
        None => LONG_CLIMB,
    }
}

/// The first row of each self FID.
fn first_rows(children: &[u8]) -> HashMap<Fid, usize> {
    let mut first = HashMap::new();
    for (at, row) in children.chunks_exact(child::BYTES).enumerate() {
        first.entry(own_of(row)).or_insert(at);
    }
    first.remove(&NO_FID);
    first
}

fn above_of(row: &[u8], first: &HashMap<Fid, usize>) -> Above {
    let up = up_of(row);
    if own_of(row) == ROOT || !link_of(row).is_empty() {
        Above::Here(VISIBLE)
    } else if up == NO_FID {
        Above::Here(HIDDEN)
    } else if up == ROOT {
        Above::There(VISIBLE)
    } else {
        first
            .get(&up)
            .map_or(Above::There(HIDDEN), |&at| Above::Row(at))
    }
}

/// How a climb ends: its mark, and the levels that it takes.
#[derive(Clone, Copy)]
struct End {
    mark: u64,
    levels: usize,
}

/// Climbs, each of which goes on to where an earlier one has been.
struct Climbs {
    above: Vec<Above>,
    known: Vec<Option<End>>,
    /// The rows that the climb has left behind.
    path: Vec<usize>,
}

impl Climbs {
    fn of(above: Vec<Above>) -> Climbs {
        let known = vec![None; above.len()];
        let path = Vec::new();
        Climbs { above, known, path }
    }

    /// The mark of a row; none where the climb has no end.
    fn mark(&mut self, from: usize) -> Option<u64> {
        let mut end = self.climb(from)?;
        for &row in self.path.iter().rev() {
            end.levels += 1;
            self.known[row] = Some(end);
        }
        (end.levels <= MOST_LEVELS).then_some(end.mark)
    }

    /// The end of the climb from a row that is known, or tells its mark.
    fn climb(&mut self, from: usize) -> Option<End> {
        self.path.clear();
        let mut at = from;
        while self.path.len() <= MOST_LEVELS {
            let end = self.known[at].or(match self.above[at] {
                Above::Here(mark) => Some(End { mark, levels: 0 }),
                Above::There(mark) => Some(End { mark, levels: 1 }),
                Above::Row(_) => None,
            });
            if end.is_some() {
                return end;
            }
            self.path.push(at);
            if let Above::Row(row) = self.above[at] {
                at = row;
            }
        }
        None
    }
}

/// The visible directories: whether the first row that was judged is visible, by FID.
fn directories(children: &[u8], marks: &[u64]) -> HashMap<Fid, bool> {
    let mut visible = HashMap::new();
    for (row, &mark) in children.chunks_exact(child::BYTES).zip(marks) {
        if mark != UNNAMED {
            visible.entry(own_of(row)).or_insert(mark == VISIBLE);
        }
    }
    visible.insert(ROOT, true);
    visible
}

/// Whether a record's or an entry's directory is visible.
fn is_visible(directory: Fid, visible: &HashMap<Fid, bool>) -> bool {
    visible.get(&directory).copied().unwrap_or(false)
}

/// Whether each entry's directory is visible.
fn visible_entries(entries: &[u8], visible: &HashMap<Fid, bool>) -> Vec<bool> {
    let rows = entries.chunks_exact(entry::BYTES);
    rows.map(|row| is_visible(parent_of(row), visible))
        .collect()
}
