//! The namespace check on numbers and bytes.

use super::hand_out;
use crate::answer::{DONE, LINK_FULL, LONG_CLIMB, NO_ROOM};
use crate::names::{Mark, Mended, Namespace, find, judge, mend, read, read_marks, refusal};

/// The numbers of a mending's report.
const MENDED_NUMBERS: usize = 5;
/// The bytes of either working room for a row of either table.
const WORKING_BYTES: usize = 16;

/// The lengths of index and room, which a call may fill as it likes.
#[derive(Clone, Copy, Debug)]
pub struct Working {
    /// The bytes of the index.
    pub index: usize,
    /// The bytes of the room.
    pub room: usize,
}

impl Working {
    fn is_enough(self, names: &Namespace) -> bool {
        let rows = names.entries.len() + names.children.len();
        self.index.min(self.room) >= WORKING_BYTES * rows
    }
}

/// Hands out the marks of the child rows.
pub fn names_judge(entries: &[u8], children: &[u8], working: Working, marks: &mut [u64]) -> u32 {
    let (names, faults) = read(entries, children);
    if let Some(refusal) = refusal(&faults) {
        return refusal;
    }
    if !working.is_enough(&names) || marks.len() < names.children.len() {
        return NO_ROOM;
    }
    match judge(&names) {
        Some(judged) => hand_out(&numbers_of_marks(&judged), marks),
        None => LONG_CLIMB,
    }
}

/// Hands out the findings of the entries, 2 numbers each.
pub fn names_find(entries: &[u8], children: &[u8], out: &mut [u64]) -> u32 {
    let (names, faults) = read(entries, children);
    if let Some(refusal) = refusal(&faults) {
        return refusal;
    }
    let findings = names.entries.iter().flat_map(|entry| {
        let (fid, has_record) = find(&names, entry);
        [fid.number(), u64::from(!has_record)]
    });
    let findings: Vec<u64> = findings.collect();
    hand_out(&findings, out)
}

/// Mends in place under marks, and hands out the report.
pub fn names_mend(
    entries: &mut [u8],
    children: &mut [u8],
    working: Working,
    marks: &[u64],
    report: &mut [u64],
) -> u32 {
    let (names, mut faults) = read(entries, children);
    let marks = read_marks(marks, &names.children, &mut faults);
    if let Some(refusal) = refusal(&faults) {
        return refusal;
    }
    if !working.is_enough(&names) || report.len() < MENDED_NUMBERS {
        return NO_ROOM;
    }
    mend_rows(&names, &marks, entries, children, report)
}

/// Judges, hands out the marks, and mends in place under them.
pub fn names_pass(
    entries: &mut [u8],
    children: &mut [u8],
    working: Working,
    marks: &mut [u64],
    report: &mut [u64],
) -> u32 {
    let (names, faults) = read(entries, children);
    if let Some(refusal) = refusal(&faults) {
        return refusal;
    }
    let is_short = marks.len() < names.children.len() || report.len() < MENDED_NUMBERS;
    if !working.is_enough(&names) || is_short {
        return NO_ROOM;
    }
    let Some(judged) = judge(&names) else {
        return LONG_CLIMB;
    };
    hand_out(&numbers_of_marks(&judged), marks);
    mend_rows(&names, &judged, entries, children, report)
}

fn mend_rows(
    names: &Namespace,
    marks: &[Mark],
    entries: &mut [u8],
    children: &mut [u8],
    report: &mut [u64],
) -> u32 {
    let mut after = names.clone();
    let mended = mend(&mut after, marks);
    after.write_over(names, entries, children);
    hand_out(&numbers_of_mended(mended, names.entries.len()), report);
    match mended.stopped {
        None => DONE,
        Some(_) => LINK_FULL,
    }
}

fn numbers_of_marks(marks: &[Mark]) -> Vec<u64> {
    marks.iter().map(|mark| mark.number()).collect()
}

fn numbers_of_mended(mended: Mended, entries: usize) -> [u64; MENDED_NUMBERS] {
    [
        mended.taken,
        mended.written,
        mended.appended,
        mended.removed,
        mended.stopped.unwrap_or(entries) as u64,
    ]
}
