//! Visibility.

use super::Mark::{Hidden, NoFid, Visible};
use super::*;

fn marks(children: &[Child]) -> Option<Vec<Mark>> {
    judge(&names(&[], children))
}

#[test]
fn marks_have_their_numbers() {
    assert_eq!([Hidden, Visible, NoFid].map(Mark::number), [0, 1, 2]);
    assert_eq!([Hidden, Visible, NoFid], Mark::ALL);
    assert_eq!(Mark::of_number(2), Some(NoFid));
    assert_eq!(Mark::of_number(3), None);
}

/// Without linkEA, without `..`, and in a circle with itself.
#[test]
fn the_row_of_root_is_not_examined() {
    for up in [NO_FID, ROOT, OUTSIDE] {
        assert_eq!(marks(&[child(ROOT, up, None)]), Some(vec![Visible]));
    }
}

#[test]
fn root_needs_no_row() {
    assert_eq!(marks(&[child(A, ROOT, None)]), Some(vec![Visible]));
}

/// A FID that is not quite ROOT's.
#[test]
fn root_is_one_fid() {
    for other in [
        Fid { version: 1, ..ROOT },
        Fid { id: 2, ..ROOT },
        Fid {
            sequence: 0x2_0000_0006,
            ..ROOT
        },
    ] {
        assert_eq!(marks(&[child(A, other, None)]), Some(vec![Hidden]));
    }
}

#[test]
fn a_directory_without_row_is_hidden() {
    assert_eq!(marks(&[child(A, OUTSIDE, None)]), Some(vec![Hidden]));
}

#[test]
fn a_linkea_makes_visible_also_without_records() {
    for link in [link(&[]), link(&[(OUTSIDE, b"a")])] {
        assert_eq!(
            marks(&[child(A, NO_FID, link.clone())]),
            Some(vec![Visible])
        );
        // What is above it is not looked at.
        assert_eq!(marks(&[child(A, A, link)]), Some(vec![Visible]));
    }
}

#[test]
fn without_linkea_and_dotdot_it_is_hidden() {
    assert_eq!(marks(&[child(A, NO_FID, None)]), Some(vec![Hidden]));
}

#[test]
fn an_ancestor_with_linkea_makes_visible() {
    let children = [
        child(A, B, None),
        child(B, C, None),
        child(C, OUTSIDE, link(&[])),
    ];
    assert_eq!(marks(&children), Some(vec![Visible; 3]));
    let hidden = [children[0].clone(), children[1].clone()];
    assert_eq!(marks(&hidden), Some(vec![Hidden; 2]));
}

#[test]
fn a_row_without_self_fid_is_no_directory() {
    let children = [
        child(NO_FID, NO_FID, link(&[])),
        child(A, NO_FID, None),
        child(NO_FID, B, None),
        child(B, B, link(&[])),
    ];
    assert_eq!(marks(&children), Some(vec![NoFid, Hidden, NoFid, Visible]));
}

/// Of two rows with a FID the first is the directory, and the second has its mark.
#[test]
fn the_first_row_with_a_fid_is_the_directory() {
    let first = [child(A, NO_FID, None), child(A, ROOT, link(&[]))];
    assert_eq!(marks(&first), Some(vec![Hidden; 2]));
    let second = [child(A, ROOT, None), child(A, NO_FID, None)];
    assert_eq!(marks(&second), Some(vec![Visible; 2]));
    // The circle of the second row is no directory's.
    let circle = [child(A, NO_FID, None), child(A, A, None)];
    assert_eq!(marks(&circle), Some(vec![Hidden; 2]));
}

#[test]
fn a_circle_is_39() {
    assert_eq!(marks(&[child(A, A, None)]), None);
    assert_eq!(marks(&[child(A, B, None), child(B, A, None)]), None);
    let above = [child(C, A, None), child(A, B, None), child(B, A, None)];
    assert_eq!(marks(&above), None);
}

/// No entry names a row of the circle, and another directory is visible.
#[test]
fn a_circle_is_39_also_where_no_entry_leads() {
    let rows = names(
        &[entry(ROOT, 0, C, b"c")],
        &[child(C, ROOT, None), child(A, B, None), child(B, A, None)],
    );
    assert_eq!(judge(&rows), None);
}

#[test]
fn a_linkea_ends_a_circle() {
    let children = [child(A, B, None), child(B, A, link(&[]))];
    assert_eq!(marks(&children), Some(vec![Visible; 2]));
}

/// Directories of which each has the next above it, the last this `..`; the first climbs as many
/// levels as there are rows.
fn chain(rows: usize, up: Fid) -> Vec<Child> {
    let fid = |row: usize| Fid::new(0x2_0000_0400, row as u32 + 1);
    let ups = (1..rows).map(fid).chain([up]);
    let rows = ups.enumerate();
    rows.map(|(row, up)| child(fid(row), up, None)).collect()
}

#[test]
fn so_many_levels_are_good_and_one_more_is_39() {
    for (up, mark) in [(ROOT, Visible), (OUTSIDE, Hidden)] {
        assert_eq!(marks(&chain(4096, up)), Some(vec![mark; 4096]));
        assert_eq!(marks(&chain(4097, up)), None);
    }
}

/// The last level leads to a row that tells, and so is not climbed from.
#[test]
fn the_last_level_may_end_at_a_row() {
    for (last, mark) in [
        (child(A, NO_FID, None), Hidden),
        (child(A, A, link(&[])), Visible),
        (child(A, NO_FID, link(&[])), Visible),
    ] {
        let below = |levels| [chain(levels, A), vec![last.clone()]].concat();
        assert_eq!(marks(&below(4096)), Some(vec![mark; 4097]));
        assert_eq!(marks(&below(4097)), None);
    }
}
