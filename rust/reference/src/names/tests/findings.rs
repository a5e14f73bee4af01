//! What each entry shows.

use super::FidFinding::*;
use super::*;

/// The findings of all entries.
fn findings(names: &Namespace) -> Vec<(FidFinding, bool)> {
    names
        .entries
        .iter()
        .map(|entry| find(names, entry))
        .collect()
}

#[test]
fn each_fid_finding_has_its_case() {
    let rows = names(
        &[
            entry(ROOT, 0, A, b"a"),
            entry(ROOT, 0, NO_FID, b"a"),
            entry(ROOT, 0, B, b"a"),
            entry(ROOT, 1, A, b"a"),
            entry(ROOT, 1, NO_FID, b"a"),
        ],
        &[child(A, NO_FID, None), child(NO_FID, NO_FID, None)],
    );
    let found = [Consistent, NoEntryFid, Differs, NoSelf, Neither];
    assert_eq!(findings(&rows), found.map(|finding| (finding, false)));
    assert_eq!(found, FidFinding::ALL);
    assert_eq!(found.map(FidFinding::number), [0, 1, 2, 3, 4]);
}

/// Every field counts.
#[test]
fn fids_differ_in_any_field() {
    let other = [
        Fid { sequence: 1, ..A },
        Fid { id: 9, ..A },
        Fid { version: 1, ..A },
    ];
    for fid in other {
        let rows = names(&[entry(ROOT, 0, fid, b"a")], &[child(A, NO_FID, None)]);
        assert_eq!(findings(&rows), [(Differs, false)]);
        let records = link(&[(fid, b"a")]);
        let rows = names(&[entry(A, 0, A, b"a")], &[child(A, NO_FID, records)]);
        assert_eq!(findings(&rows), [(Consistent, false)]);
    }
}

/// An entry belongs to the child of its row number, not to one with the FID that it has.
#[test]
fn an_entry_belongs_to_the_child_of_its_row() {
    let records = link(&[(ROOT, b"a")]);
    let rows = names(
        &[entry(ROOT, 1, A, b"a")],
        &[child(A, NO_FID, records), child(B, NO_FID, None)],
    );
    assert_eq!(findings(&rows), [(Differs, false)]);
}

#[test]
fn a_record_is_its_entrys_by_parent_and_name() {
    let records = link(&[(A, b"x"), (ROOT, b"ab"), (B, b"a")]);
    let rows = names(
        &[
            entry(A, 0, C, b"x"),
            entry(ROOT, 0, C, b"a"),
            entry(B, 0, C, b"ab"),
            entry(B, 0, C, b"a"),
        ],
        &[child(C, NO_FID, records)],
    );
    let has: Vec<bool> = findings(&rows).into_iter().map(|(_, has)| has).collect();
    assert_eq!(has, [true, false, false, true]);
}

#[test]
fn without_a_linkea_or_a_record_it_is_missing() {
    for link in [None, link(&[])] {
        let rows = names(&[entry(ROOT, 0, A, b"a")], &[child(A, NO_FID, link)]);
        assert_eq!(findings(&rows), [(Consistent, false)]);
    }
}

/// Of a hidden directory, of one that is nowhere, of a zero FID, and in a circle.
#[test]
fn every_entry_has_findings() {
    let rows = names(
        &[
            entry(A, 1, NO_FID, b"a"),
            entry(OUTSIDE, 1, A, b"a"),
            entry(NO_FID, 1, B, b"a"),
        ],
        &[child(A, B, None), child(B, A, link(&[(NO_FID, b"a")]))],
    );
    assert_eq!(
        findings(&rows),
        [(NoEntryFid, false), (Differs, false), (Consistent, true)]
    );
    let (entries, children) = to_bytes(&names(
        &rows.entries,
        &[child(A, B, None), child(B, A, None)],
    ));
    let mut out = [9; 7];
    let answer = crate::interface::names_find(&entries, &children, &mut out);
    assert_eq!((answer, out), (0, [1, 1, 2, 1, 0, 1, 9]));
}
