//! What is promised of a mending, held to its tables.

use std::collections::BTreeSet;

use difftest::names::describe;
use reference::fid::Fid;
use reference::link::Record;
use reference::names::{
    CHILD_BYTES, Faults, FidFinding, Mark, Namespace, find, read, visible_directories,
};

use crate::calls::Mended;

/// The marks of so many rows.
pub fn marks_of(numbers: &[u64], rows: usize) -> Vec<Mark> {
    let marks = numbers[..rows]
        .iter()
        .map(|&number| Mark::of_number(number));
    marks.map(|mark| mark.expect("a mark")).collect()
}

/// The tables of a mending, which pass the check.
pub fn tables_of(mended: &Mended) -> Namespace {
    let (names, faults) = read(&mended.entries, &mended.children);
    assert_eq!(faults, Faults::new());
    names
}

/// After a mending that was finished, each entry of a visible directory and its child agree, unless
/// there is no self FID; and no record is to go.
pub fn mended(before: &Namespace, marks: &[u64], mended: &Mended) {
    let after = tables_of(mended);
    if mended.answer != 0 {
        assert_eq!(mended.answer, 38, "{}", describe(before));
        return;
    }
    let visible = visible_directories(&before.children, &marks_of(marks, before.children.len()));
    for entry in &after.entries {
        let child = &after.children[entry.child];
        if visible.contains(&entry.record.parent) && child.own.is_some() {
            let found = find(&after, entry);
            assert_eq!(
                found,
                (FidFinding::Consistent, true),
                "{}",
                describe(before)
            );
        }
    }
    assert!(!has_stray(&after, &visible), "{}", describe(before));
}

/// Whether a record of a visible directory stands without entry, or twice, in a child that is
/// mended.
pub fn has_stray(names: &Namespace, visible: &BTreeSet<Fid>) -> bool {
    let mut rows = names.children.iter().enumerate();
    rows.any(|(row, child)| {
        let records = child.link.iter().flat_map(|link| &link.records);
        let records: Vec<&Record> = records.collect();
        let is_stray = |(at, record): (usize, &&Record)| {
            let mut entries = names.entries.iter().filter(|entry| entry.child == row);
            let has_entry = entries.any(|entry| entry.record == **record);
            let again = records[..at].contains(record);
            visible.contains(&record.parent) && (!has_entry || again)
        };
        child.own.is_some() && records.iter().enumerate().any(is_stray)
    })
}

/// Both did the same.
pub fn same(mended: &Mended, passed: &Mended) {
    assert_eq!(mended.answer, passed.answer);
    assert!(mended.entries == passed.entries && mended.children == passed.children);
    assert_eq!(mended.report, passed.report);
}

/// A second mending under the same marks found nothing to do.
pub fn unchanged(before: &Namespace, first: &Mended, again: &Mended) {
    assert_eq!(again.answer, 0, "{}", describe(before));
    assert!(again.entries == first.entries, "{}", describe(before));
    assert!(again.children == first.children, "{}", describe(before));
    let entries = before.entries.len() as u64;
    assert_eq!(
        again.report[..5],
        [0, 0, 0, 0, entries],
        "{}",
        describe(before)
    );
}

/// The rows of children that differ.
pub fn changed_children(lent: &[u8], mended: &Mended) -> usize {
    let rows = lent
        .chunks(CHILD_BYTES)
        .zip(mended.children.chunks(CHILD_BYTES));
    rows.filter(|(before, after)| before != after).count()
}
