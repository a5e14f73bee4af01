//! What is lent: the order of refusals, and what each buffer holds afterwards.

use super::*;
use crate::interface::{Working, names_find, names_judge, names_mend, names_pass};

/// Enough for so many rows.
fn working(rows: usize) -> Working {
    Working {
        index: 16 * rows,
        room: 16 * rows,
    }
}

/// Two entries of a child that has a record too many, and a child without self FID. Row 2 is a
/// circle where that is asked for.
fn sample(circle: bool) -> Namespace {
    let up = if circle { C } else { ROOT };
    names(
        &[entry(ROOT, 0, B, b"a"), entry(ROOT, 1, B, b"b")],
        &[
            child(A, NO_FID, link(&[(ROOT, b"gone")])),
            child(NO_FID, NO_FID, None),
            child(C, up, None),
        ],
    )
}

/// The sample, and the second child's linkEA full.
fn full() -> Namespace {
    let mut names = sample(false);
    names.children[1] = child(B, NO_FID, filled(4096, &[], OUTSIDE));
    names
}

#[test]
fn marks_are_handed_out_and_the_rest_stays() {
    let (entries, children) = to_bytes(&sample(false));
    let mut marks = [9; 4];
    assert_eq!(names_judge(&entries, &children, working(5), &mut marks), 0);
    assert_eq!(marks, [1, 2, 1, 9]);
}

#[test]
fn a_pass_is_judging_and_mending_under_the_marks() {
    let (mut entries, mut children) = to_bytes(&sample(false));
    let (mut ours, mut our_children) = (entries.clone(), children.clone());
    let (mut marks, mut report) = ([9; 4], [9; 6]);
    let answer = names_pass(
        &mut entries,
        &mut children,
        working(5),
        &mut marks,
        &mut report,
    );
    assert_eq!((answer, marks), (0, [1, 2, 1, 9]));
    assert_eq!(report, [1, 1, 2, 1, 2, 9]);
    let mut again = [9; 6];
    let answer = names_mend(
        &mut ours,
        &mut our_children,
        working(5),
        &marks[..3],
        &mut again,
    );
    assert_eq!((answer, again), (0, report));
    assert!(ours == entries && our_children == children);
}

/// A second mending under the same marks; the row that took a self FID has 2 still.
#[test]
fn a_second_mending_reports_nothing() {
    let (mut entries, mut children) = to_bytes(&sample(false));
    let (marks, mut report) = ([1, 2, 1], [9; 5]);
    let mut mend = |entries: &mut [u8], children: &mut [u8]| {
        let answer = names_mend(entries, children, working(5), &marks, &mut report);
        (answer, report)
    };
    assert_eq!(mend(&mut entries, &mut children), (0, [1, 1, 2, 1, 2]));
    let (after, children_after) = (entries.clone(), children.clone());
    assert_eq!(mend(&mut entries, &mut children), (0, [0, 0, 0, 0, 2]));
    assert!(after == entries && children_after == children);
}

/// Past a changed linkEA it is zero, past an unchanged one and past a name it stays.
#[test]
fn the_room_past_a_changed_linkea_is_zero() {
    let (mut entries, mut children) = to_bytes(&sample(false));
    let before = entries.clone();
    let (mut marks, mut report) = ([0; 3], [0; 5]);
    let answer = names_pass(
        &mut entries,
        &mut children,
        working(5),
        &mut marks,
        &mut report,
    );
    assert_eq!(answer, 0);
    assert_eq!(entries[39..ENTRY_BYTES], before[39..ENTRY_BYTES]);
    let rows: Vec<&[u8]> = children.chunks(CHILD_BYTES).collect();
    let length = 24 + 19;
    for row in &rows[..2] {
        assert_eq!(row[32..34], [length as u8, 0]);
        assert!(row[34 + length..].iter().all(|&byte| byte == 0));
    }
    assert!(rows[2][34..].iter().all(|&byte| byte == 0xcd));
}

/// With 38 too; the linkEA that was not to be outgrown is as it was, and so is what lies past it.
#[test]
fn with_38_tables_marks_and_report_are_written() {
    let mut rows = full();
    let link = filled(4095, &[], OUTSIDE);
    rows.children[1] = child(B, NO_FID, link);
    let (mut entries, mut children) = to_bytes(&rows);
    let before = children.clone();
    let (mut marks, mut report) = ([9; 3], [9; 5]);
    let answer = names_pass(
        &mut entries,
        &mut children,
        working(5),
        &mut marks,
        &mut report,
    );
    assert_eq!((answer, marks, report), (38, [1; 3], [0, 1, 1, 0, 1]));
    assert_eq!(entries[20..36], A.to_bytes());
    let (first, rest) = children.split_at(CHILD_BYTES);
    assert_eq!(first[32..34], [24 + 22 + 19, 0]);
    assert!(first[34 + 65..].iter().all(|&byte| byte == 0));
    assert_eq!(rest, &before[CHILD_BYTES..]);
}

/// The answer of a mending of the sample under marks, without working room: 17 where they are good.
fn mend_under(marks: &[u64]) -> u32 {
    let (mut entries, mut children) = to_bytes(&sample(false));
    names_mend(&mut entries, &mut children, working(0), marks, &mut [0; 5])
}

/// The marks that a mending is handed are one for each row, at most 2, and 2 where there is no self
/// FID.
#[test]
fn marks_that_are_none_are_11() {
    for bad in [
        &[1, 2][..],
        &[1, 2, 1, 1],
        &[],
        &[3, 2, 1],
        &[1, 2, u64::MAX],
        &[1, 1, 1],
        &[1, 0, 1],
    ] {
        assert_eq!(mend_under(bad), 11, "{bad:?}");
    }
}

/// It may have had none when it was judged.
#[test]
fn a_row_with_self_fid_may_be_marked_as_one_without() {
    for good in [[0, 2, 0], [2, 2, 2], [1, 2, 0]] {
        assert_eq!(mend_under(&good), 17, "{good:?}");
    }
}

/// What is wrong with a call, from the number that comes first to the one that comes last.
const WRONG: [(&str, u32); 6] = [
    ("table", 11),
    ("row", 16),
    ("name", 31),
    ("places", 17),
    ("circle", 39),
    ("full", 38),
];

/// The tables with those of the six things that are asked for.
fn wrong(things: u32) -> (Vec<u8>, Vec<u8>) {
    let has = |thing: &str| {
        let at = WRONG.iter().position(|(name, _)| *name == thing);
        at.is_some_and(|at| things & 1 << at != 0)
    };
    let mut rows = if has("full") { full() } else { sample(false) };
    if has("circle") {
        rows.children[2] = sample(true).children[2].clone();
    }
    if has("name") {
        rows.entries[1].record.name = b"a/b".to_vec();
    }
    let (mut entries, children) = to_bytes(&rows);
    if has("row") {
        entries[16] = 3;
    }
    entries.extend(has("table").then_some(0));
    (entries, children)
}

/// The number that comes first, of those that a function gives.
fn first_of(things: u32, given: &[u32]) -> u32 {
    let wrong = WRONG.iter().enumerate();
    let mut numbers = wrong.filter(|(at, _)| things & 1 << at != 0);
    let first = numbers.find(|(_, (_, number))| given.contains(number));
    first.map_or(0, |(_, (_, number))| *number)
}

#[test]
fn refusals_of_the_readers_come_in_their_order() {
    for things in 0..1 << WRONG.len() {
        let (entries, children) = wrong(things);
        let places = if things & 8 == 0 { 4 } else { 3 };
        let mut out = [9; 4];
        let answer = names_find(&entries, &children, &mut out[..places]);
        assert_eq!(answer, first_of(things, &[11, 16, 31, 17]), "{things:06b}");
        assert_eq!(answer == 0, out != [9; 4]);
        let mut marks = [9; 3];
        let rows = if things & 8 == 0 { 5 } else { 4 };
        let answer = names_judge(&entries, &children, working(rows), &mut marks);
        let expected = first_of(things, &[11, 16, 31, 17, 39]);
        assert_eq!(answer, expected, "{things:06b}");
        assert_eq!(answer == 0, marks != [9; 3]);
    }
}

#[test]
fn refusals_of_the_writers_come_in_their_order() {
    for things in 0..1 << WRONG.len() {
        let rows = if things & 8 == 0 { 5 } else { 4 };
        let second = if things & 32 == 0 { 2 } else { 1 };
        let given = [11, 16, 31, 17, 38];
        expect_written(
            things,
            first_of(things, &given),
            |entries, children, report| {
                let marks = [1, second, 1];
                names_mend(entries, children, working(rows), &marks, report)
            },
        );
        let given = [11, 16, 31, 17, 39, 38];
        let mut marks = [9; 3];
        expect_written(
            things,
            first_of(things, &given),
            |entries, children, report| {
                names_pass(entries, children, working(rows), &mut marks, report)
            },
        );
        let written = matches!(first_of(things, &given), 0 | 38);
        assert_eq!(written, marks != [9; 3], "{things:06b}");
    }
}

/// A call answers so, and changes tables and report with 0 and 38 alone.
fn expect_written(
    things: u32,
    expected: u32,
    call: impl FnOnce(&mut [u8], &mut [u8], &mut [u64]) -> u32,
) {
    let before = wrong(things);
    let (mut entries, mut children) = before.clone();
    let mut report = [9; 5];
    let answer = call(&mut entries, &mut children, &mut report);
    assert_eq!(answer, expected, "{things:06b}");
    let written = matches!(answer, 0 | 38);
    assert_eq!(written, (entries, children) != before, "{things:06b}");
    assert_eq!(written, report != [9; 5], "{things:06b}");
}

/// Index, room, marks, report and findings, each with a place too few.
#[test]
fn too_few_places_are_17() {
    let (entries, children) = to_bytes(&sample(false));
    let (mut marks, mut report) = ([9; 3], [9; 5]);
    let enough = working(5);
    let short = [
        Working {
            index: 79,
            ..enough
        },
        Working { room: 79, ..enough },
    ];
    for working in short {
        assert_eq!(names_judge(&entries, &children, working, &mut marks), 17);
        let (entries, children) = (&mut entries.clone(), &mut children.clone());
        let answer = names_mend(entries, children, working, &[1, 2, 1], &mut report);
        assert_eq!(answer, 17);
        let answer = names_pass(entries, children, working, &mut marks, &mut report);
        assert_eq!(answer, 17);
    }
    assert_eq!(
        names_judge(&entries, &children, enough, &mut marks[..2]),
        17
    );
    assert_eq!(names_find(&entries, &children, &mut report[..3]), 17);
    let (entries, children) = (&mut entries.clone(), &mut children.clone());
    let answer = names_mend(entries, children, enough, &[1, 2, 1], &mut report[..4]);
    assert_eq!(answer, 17);
    let answer = names_pass(entries, children, enough, &mut marks[..2], &mut report);
    assert_eq!(answer, 17);
    let answer = names_pass(entries, children, enough, &mut marks, &mut report[..4]);
    assert_eq!((answer, marks, report), (17, [9; 3], [9; 5]));
}

#[test]
fn no_rows_are_good() {
    let (mut marks, mut report) = ([9; 1], [9; 5]);
    assert_eq!(names_find(&[], &[], &mut []), 0);
    assert_eq!(names_judge(&[], &[], working(0), &mut []), 0);
    let answer = names_pass(&mut [], &mut [], working(0), &mut marks, &mut report);
    assert_eq!((answer, marks, report), (0, [9], [0; 5]));
}
