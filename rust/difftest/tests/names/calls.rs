//! The four functions on what is lent, by the library and by the reference. Every buffer but
//! working room is compared after each call.

use std::hint::black_box;

use difftest::names::{Call, Lent};
use reference::interface::{self, Working};

/// What a mending or a pass answered, and what it was lent to change afterwards.
#[derive(Clone, Debug, PartialEq)]
pub struct Mended {
    pub answer: u32,
    pub entries: Vec<u8>,
    pub children: Vec<u8>,
    pub report: Vec<u64>,
}

impl Mended {
    /// Nothing was done yet.
    fn of(lent: &Lent) -> Mended {
        Mended {
            answer: 0,
            entries: lent.entries.clone(),
            children: lent.children.clone(),
            report: lent.report.clone(),
        }
    }

    /// The same to be lent again, as it stands.
    pub fn lent_again(&self, lent: &Lent) -> Lent {
        Lent {
            entries: self.entries.clone(),
            children: self.children.clone(),
            ..lent.clone()
        }
    }

    /// Whether it is as it was lent.
    fn is_unwritten(&self, lent: &Lent) -> bool {
        self.entries == lent.entries && self.children == lent.children && self.report == lent.report
    }
}

fn working(lent: &Lent) -> Working {
    Working {
        index: lent.index.len(),
        room: lent.room.len(),
    }
}

/// The answer, and the places for the marks.
pub fn judge(lent: &Lent) -> (u32, Vec<u64>) {
    let (mut ours, mut theirs) = (lent.marks.clone(), lent.marks.clone());
    let (entries, children) = (lent.entries.clone(), lent.children.clone());
    let (mut index, mut room) = (lent.index.clone(), lent.room.clone());
    let answer = lfsck_sys::names_judge(
        black_box(&entries),
        black_box(&children),
        &mut index,
        &mut room,
        &mut theirs,
    );
    let expected = interface::names_judge(&lent.entries, &lent.children, working(lent), &mut ours);
    assert!((answer, &theirs) == (expected, &ours), "{}", words(lent));
    require_same(lent, black_box(&entries), black_box(&children));
    assert!(answer == 0 || theirs == lent.marks, "{answer} and written");
    (answer, theirs)
}

/// The answer, and the places for the findings.
pub fn find(lent: &Lent) -> (u32, Vec<u64>) {
    let (mut ours, mut theirs) = (lent.findings.clone(), lent.findings.clone());
    let (entries, children) = (lent.entries.clone(), lent.children.clone());
    let answer = lfsck_sys::names_find(black_box(&entries), black_box(&children), &mut theirs);
    let expected = interface::names_find(&lent.entries, &lent.children, &mut ours);
    assert!((answer, &theirs) == (expected, &ours), "{}", words(lent));
    require_same(lent, black_box(&entries), black_box(&children));
    let is_unwritten = theirs == lent.findings;
    assert!(answer == 0 || is_unwritten, "{answer} and written");
    (answer, theirs)
}

/// Mends under the marks that are handed in.
pub fn mend(lent: &Lent) -> Mended {
    let (mut ours, mut theirs) = (Mended::of(lent), Mended::of(lent));
    let (mut index, mut room) = (lent.index.clone(), lent.room.clone());
    let marks = lent.handed.clone();
    theirs.answer = lfsck_sys::names_mend(
        &mut theirs.entries,
        &mut theirs.children,
        &mut index,
        &mut room,
        black_box(&marks),
        &mut theirs.report,
    );
    ours.answer = interface::names_mend(
        &mut ours.entries,
        &mut ours.children,
        working(lent),
        &lent.handed,
        &mut ours.report,
    );
    assert!(theirs == ours, "{}", words(lent));
    assert!(black_box(&marks) == &lent.handed, "marks changed");
    require_refusal_unwritten(lent, &theirs);
    theirs
}

/// Judges and mends. The marks are those of the judging.
pub fn pass(lent: &Lent) -> Mended {
    let (mut ours, mut theirs) = (Mended::of(lent), Mended::of(lent));
    let (mut index, mut room) = (lent.index.clone(), lent.room.clone());
    let (mut our_marks, mut marks) = (lent.marks.clone(), lent.marks.clone());
    theirs.answer = lfsck_sys::names_pass(
        &mut theirs.entries,
        &mut theirs.children,
        &mut index,
        &mut room,
        &mut marks,
        &mut theirs.report,
    );
    ours.answer = interface::names_pass(
        &mut ours.entries,
        &mut ours.children,
        working(lent),
        &mut our_marks,
        &mut ours.report,
    );
    assert!(theirs == ours && marks == our_marks, "{}", words(lent));
    require_refusal_unwritten(lent, &theirs);
    match theirs.answer {
        0 | 38 => assert_eq!(judge(lent), (0, marks)),
        _ => assert_eq!(marks, lent.marks),
    }
    theirs
}

/// A function that only reads has changed no table.
fn require_same(lent: &Lent, entries: &[u8], children: &[u8]) {
    let same = entries == lent.entries && children == lent.children;
    assert!(same, "tables changed: {}", words(lent));
}

fn require_refusal_unwritten(lent: &Lent, after: &Mended) {
    let written = matches!(after.answer, 0 | 38);
    let answer = after.answer;
    assert!(written || after.is_unwritten(lent), "{answer} and written");
}

/// What was lent, for a message; large tables only by their lengths.
fn words(lent: &Lent) -> String {
    let lengths = [lent.entries.len(), lent.children.len()];
    if lengths.iter().sum::<usize>() > 100_000 {
        return format!("tables of {lengths:?} bytes");
    }
    let (names, faults) = reference::names::read(&lent.entries, &lent.children);
    format!("{names:#?}, with the faults {faults:?}")
}

/// The answer of a function.
pub fn answer(call: Call, lent: &Lent) -> u32 {
    match call {
        Call::Judge => judge(lent).0,
        Call::Find => find(lent).0,
        Call::Mend => mend(lent).answer,
        Call::Pass => pass(lent).answer,
    }
}
