//! The four sweeps.

use super::*;

// Sweep 1.

#[test]
fn a_self_fid_is_taken_from_the_first_entry_that_has_one() {
    let before = names(
        &[
            entry(ROOT, 0, NO_FID, b"a"),
            entry(ROOT, 1, C, b"other"),
            entry(ROOT, 0, B, b"b"),
            entry(ROOT, 0, A, b"c"),
        ],
        &[child(NO_FID, NO_FID, None), child(C, NO_FID, None)],
    );
    let (after, mended) = passed(&before);
    assert_eq!(after.children[0].own, Some(B));
    assert_eq!(after.children[1].own, Some(C));
    assert_eq!(mended.taken, 1);
    // Then the self FID wins.
    let fids: Vec<_> = after.entries.iter().map(|entry| entry.fid).collect();
    assert_eq!(fids, [Some(B), Some(C), Some(B), Some(B)]);
    assert_eq!(mended.written, 2);
}

#[test]
fn an_entry_of_a_hidden_directory_gives_no_self_fid() {
    let hidden = entry(A, 1, B, b"a");
    let directory = child(A, NO_FID, None);
    let nameless = child(NO_FID, NO_FID, None);
    expect_unchanged(&names(
        std::slice::from_ref(&hidden),
        &[directory.clone(), nameless.clone()],
    ));
    let second = names(&[hidden, entry(ROOT, 1, C, b"c")], &[directory, nameless]);
    let (after, _) = passed(&second);
    assert_eq!(after.children[1].own, Some(C));
    assert_eq!(after.entries[0], second.entries[0]);
}

/// Its entries and its linkEA stay too.
#[test]
fn a_child_without_self_fid_stays_as_it_is() {
    let repeated = link(&[(ROOT, b"x"), (ROOT, b"x")]);
    expect_unchanged(&names(
        &[entry(ROOT, 0, NO_FID, b"a"), entry(ROOT, 0, NO_FID, b"b")],
        &[child(NO_FID, NO_FID, repeated)],
    ));
}

// Sweep 2.

#[test]
fn an_entry_gets_the_self_fid_of_its_child() {
    let records = link(&[(ROOT, b"a"), (ROOT, b"b"), (ROOT, b"c")]);
    let before = names(
        &[
            entry(ROOT, 0, NO_FID, b"a"),
            entry(ROOT, 0, B, b"b"),
            entry(ROOT, 0, A, b"c"),
        ],
        &[child(A, NO_FID, records)],
    );
    let (after, mended) = passed(&before);
    assert!(after.entries.iter().all(|entry| entry.fid == Some(A)));
    assert_eq!(after.children, before.children);
    assert_eq!((mended.written, mended.appended), (2, 0));
}

#[test]
fn an_entry_of_a_hidden_directory_stays() {
    expect_unchanged(&names(
        &[
            entry(A, 0, B, b"a"),
            entry(OUTSIDE, 0, NO_FID, b"a"),
            entry(NO_FID, 0, C, b"a"),
        ],
        &[child(A, NO_FID, None)],
    ));
}

// Sweep 3.

#[test]
fn missing_records_are_appended_in_entry_order() {
    let before = names(
        &[
            entry(ROOT, 0, A, b"c"),
            entry(ROOT, 1, B, b"x"),
            entry(ROOT, 0, A, b"a"),
            entry(ROOT, 0, A, b"b"),
        ],
        &[
            child(A, NO_FID, link(&[(ROOT, b"a")])),
            child(B, NO_FID, None),
        ],
    );
    let (after, mended) = passed(&before);
    let records = [(ROOT, &b"a"[..]), (ROOT, b"c"), (ROOT, b"b")];
    assert_eq!(after.children[0].link, link(&records));
    assert_eq!(after.children[1].link, made(&[(ROOT, b"x")]));
    assert_eq!((mended.appended, mended.removed), (3, 0));
}

/// Two entries of a child with one record: it is appended once.
#[test]
fn a_record_that_was_appended_is_there() {
    let before = names(
        &[entry(ROOT, 0, A, b"a"), entry(ROOT, 0, B, b"a")],
        &[child(A, NO_FID, None)],
    );
    let (after, mended) = passed(&before);
    assert_eq!(after.children[0].link, made(&[(ROOT, b"a")]));
    assert_eq!((mended.appended, mended.written), (1, 1));
}

#[test]
fn a_linkea_without_records_keeps_its_time_and_padding() {
    let before = names(&[entry(ROOT, 0, A, b"a")], &[child(A, NO_FID, link(&[]))]);
    let (after, _) = passed(&before);
    assert_eq!(after.children[0].link, link(&[(ROOT, b"a")]));
}

/// Row 0 takes A, which row 1 has as lent, hidden: A stays a hidden directory, and the entry in it
/// is left out.
#[test]
fn the_first_row_with_a_fid_is_that_as_lent() {
    let hidden = child(A, NO_FID, None);
    let before = names(
        &[entry(ROOT, 0, A, b"a"), entry(A, 2, NO_FID, b"x")],
        &[
            child(NO_FID, ROOT, None),
            hidden.clone(),
            child(C, NO_FID, None),
        ],
    );
    let (after, mended) = passed(&before);
    let taken = child(A, ROOT, made(&[(ROOT, b"a")]));
    assert_eq!(after.children, [taken, hidden, before.children[2].clone()]);
    assert_eq!(after.entries, before.entries);
    assert_eq!((mended.taken, mended.appended), (1, 1));
}

/// The other way round: A is visible as lent by row 1, and stays so though row 0 takes it.
#[test]
fn a_directory_stays_visible_when_an_earlier_row_takes_its_fid() {
    let before = names(
        &[entry(ROOT, 0, A, b"a"), entry(A, 2, C, b"x")],
        &[
            child(NO_FID, NO_FID, None),
            child(A, NO_FID, link(&[])),
            child(C, NO_FID, None),
        ],
    );
    let (after, _) = passed(&before);
    assert_eq!(after.children[2].link, made(&[(A, b"x")]));
}

#[test]
fn a_record_may_fill_the_room() {
    let length = record(ROOT, b"name").length();
    let children = |bytes| [child(A, NO_FID, filled(bytes, &[], OUTSIDE))];
    let entries = [entry(ROOT, 0, A, b"name")];
    let (after, mended) = passed(&names(&entries, &children(4096 - length)));
    let link = after.children[0].link.as_ref();
    assert_eq!(link.map(Link::total), Some(4096));
    assert_eq!((mended.appended, mended.stopped), (1, None));
    let before = names(&entries, &children(4096 - length + 1));
    let (after, mended) = passed(&before);
    assert_eq!((after, mended.stopped), (before, Some(0)));
}

/// Sweeps 1 and 2 are done for later entries too, earlier records stand, later ones are not looked
/// at though they would fit, and none is removed, though that would have made room.
#[test]
fn a_record_that_outgrows_the_room_stops_the_pass() {
    let full = filled(4096, &[(ROOT, b"gone"), (ROOT, b"gone")], ROOT);
    let before = names(
        &[
            entry(ROOT, 1, B, b"b"),
            entry(ROOT, 0, A, b"a"),
            entry(ROOT, 2, C, b"c"),
            entry(ROOT, 0, B, b"d"),
        ],
        &[
            child(A, NO_FID, full.clone()),
            child(B, NO_FID, link(&[(ROOT, b"gone")])),
            child(NO_FID, NO_FID, None),
        ],
    );
    let (after, mended) = passed(&before);
    let expected = Mended {
        taken: 1,
        written: 1,
        appended: 1,
        removed: 0,
        stopped: Some(1),
    };
    assert_eq!(mended, expected);
    assert_eq!(after.children[0].link, full);
    assert_eq!(
        after.children[1].link,
        link(&[(ROOT, b"gone"), (ROOT, b"b")])
    );
    assert_eq!(after.children[2], child(C, NO_FID, None));
    assert_eq!(after.entries[3].fid, Some(A));
}

// Sweep 4.

#[test]
fn records_without_entry_and_later_repeats_are_removed() {
    let records = [
        (ROOT, &b"gone"[..]),
        (ROOT, b"a"),
        (ROOT, b"b"),
        (ROOT, b"a"),
        (ROOT, b"gone"),
        (ROOT, b"a"),
    ];
    let before = names(
        &[entry(ROOT, 0, A, b"b"), entry(ROOT, 0, A, b"a")],
        &[child(A, NO_FID, link(&records))],
    );
    let (after, mended) = passed(&before);
    assert_eq!(after.children[0].link, link(&[(ROOT, b"a"), (ROOT, b"b")]));
    assert_eq!((mended.appended, mended.removed), (0, 4));
}

/// Another child's entry doesn't keep it.
#[test]
fn a_record_needs_an_entry_of_that_child() {
    let before = names(
        &[entry(ROOT, 1, B, b"a")],
        &[
            child(A, NO_FID, link(&[(ROOT, b"a")])),
            child(B, NO_FID, link(&[(ROOT, b"a")])),
        ],
    );
    let (after, _) = passed(&before);
    assert_eq!(after.children[0].link, link(&[]));
    assert_eq!(after.children[1], before.children[1]);
}

/// Repeats too, of one that is a row's and of one that is nowhere.
#[test]
fn records_of_a_hidden_directory_stay() {
    let records = [
        (A, &b"x"[..]),
        (A, b"x"),
        (OUTSIDE, b"y"),
        (NO_FID, b"z"),
        (OUTSIDE, b"y"),
        (NO_FID, b"z"),
    ];
    expect_unchanged(&names(
        &[],
        &[child(A, NO_FID, None), child(B, NO_FID, link(&records))],
    ));
}

#[test]
fn a_child_without_entries_loses_its_visible_records() {
    let records = link(&[(ROOT, b"a"), (OUTSIDE, b"b"), (A, b"c")]);
    let before = names(
        &[],
        &[child(A, NO_FID, link(&[])), child(B, NO_FID, records)],
    );
    let (after, mended) = passed(&before);
    assert_eq!(after.children[1].link, link(&[(OUTSIDE, b"b")]));
    assert_eq!(mended.removed, 2);
}

#[test]
fn an_emptied_linkea_stays() {
    let before = names(&[], &[child(A, NO_FID, link(&[(ROOT, b"a")]))]);
    let (after, _) = passed(&before);
    assert_eq!(after.children[0].link, link(&[]));
}

/// Each sweep is finished before the next: the record that is appended is behind the one that goes,
/// and a full linkEA whose records all go is full all the same.
#[test]
fn records_are_appended_before_any_is_removed() {
    let before = names(
        &[entry(ROOT, 0, A, b"a")],
        &[child(A, NO_FID, filled(4096, &[], ROOT))],
    );
    let (after, mended) = passed(&before);
    assert_eq!((after, mended.stopped), (before, Some(0)));
}

// Visibility is judged once.

#[test]
fn a_second_pass_under_the_marks_changes_nothing_and_judged_anew_it_may() {
    let before = names(
        &[entry(ROOT, 0, A, b"d"), entry(A, 1, B, b"x")],
        &[child(NO_FID, ROOT, None), child(B, NO_FID, None)],
    );
    let marks = judge(&before).expect("no climb is too long");
    assert_eq!(marks, [Mark::NoFid, Mark::Hidden]);
    let mut after = before;
    let first = mend(&mut after, &marks);
    assert_eq!((first.taken, first.appended), (1, 1));
    let mut again = after.clone();
    assert_eq!(mend(&mut again, &marks), Mended::default());
    assert_eq!(again, after);
    let (anew, mended) = passed(&after);
    assert_eq!(mended.appended, 1);
    assert_eq!(anew.children[1].link, made(&[(A, b"x")]));
}

/// The child gets the linkEA that would have made it visible.
#[test]
fn a_directory_that_was_hidden_stays_hidden_in_the_pass() {
    let before = names(
        &[entry(ROOT, 0, A, b"d"), entry(A, 1, NO_FID, b"x")],
        &[child(A, NO_FID, None), child(B, NO_FID, None)],
    );
    let (after, mended) = passed(&before);
    assert_eq!(after.children[0].link, made(&[(ROOT, b"d")]));
    assert_eq!(after.entries[1], before.entries[1]);
    assert_eq!(after.children[1], before.children[1]);
    assert_eq!(mended.appended, 1);
}

/// ROOT is visible, whatever its row is marked; of other directories the marks decide.
#[test]
fn marks_decide_and_root_needs_none() {
    let rows = names(
        &[entry(ROOT, 1, NO_FID, b"a"), entry(A, 2, NO_FID, b"b")],
        &[
            child(ROOT, NO_FID, None),
            child(A, NO_FID, None),
            child(B, NO_FID, None),
            child(A, NO_FID, link(&[])),
        ],
    );
    use Mark::{Hidden, NoFid, Visible};
    for (marks, written) in [
        ([Hidden, Hidden, Hidden, Visible], 1),
        ([NoFid, Visible, Hidden, Hidden], 2),
        ([NoFid, NoFid, NoFid, Visible], 2),
        ([Visible, NoFid, Visible, Hidden], 1),
        ([Visible, NoFid, Visible, NoFid], 1),
    ] {
        let mended = mend(&mut rows.clone(), &marks);
        assert_eq!(mended.written, written, "{marks:?}");
    }
}
