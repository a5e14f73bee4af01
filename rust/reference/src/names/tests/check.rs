//! Rows there and back, and the numbers 11, 16 and 31.

use super::*;
use crate::link;

/// Two entries and two children whose fields show each byte.
fn sample() -> Namespace {
    let odd = Fid {
        sequence: 0x0123_4567_89ab_cdef,
        id: 0x0102_0304,
        version: 0x0506_0708,
    };
    names(
        &[
            entry(odd, 1, A, b"name"),
            entry(ROOT, 0, NO_FID, &[b'n'; 255]),
        ],
        &[
            child(A, odd, None),
            child(NO_FID, NO_FID, super::link(&[(odd, b"name")])),
        ],
    )
}

/// What is wrong with the sample after a change to its bytes.
fn changed(change: impl FnOnce(&mut Vec<u8>, &mut Vec<u8>)) -> Vec<Fault> {
    let (mut entries, mut children) = to_bytes(&sample());
    change(&mut entries, &mut children);
    read(&entries, &children).1.into_iter().collect()
}

#[test]
fn rows_have_their_bytes() {
    assert_eq!((ENTRY_BYTES, CHILD_BYTES), (293, 4130));
    let (entries, children) = to_bytes(&sample());
    let (parent, rest) = entries.split_at(16);
    assert_eq!(parent[..8], 0x0123_4567_89ab_cdef_u64.to_le_bytes());
    assert_eq!(parent[8..], [4, 3, 2, 1, 8, 7, 6, 5]);
    assert_eq!(rest[..4], [1, 0, 0, 0]);
    assert_eq!(rest[4..20], A.to_bytes());
    assert_eq!(rest[20..26], *b"\x04\0name");
    assert_eq!(children[..16], A.to_bytes());
    assert_eq!(children[16..32], *parent);
    assert_eq!(children[32..34], [0, 0]);
    let second = &children[CHILD_BYTES..];
    assert_eq!(second[..32], [0; 32]);
    assert_eq!(second[32..34], [46, 0]);
    assert_eq!(second[34..38], [0xdf, 0xf1, 0xea, 0x11]);
}

#[test]
fn rows_are_read_and_written_back() {
    let (entries, children) = to_bytes(&sample());
    let (names, faults) = read(&entries, &children);
    assert_eq!((&names, faults), (&sample(), Faults::new()));
    let (mut again, mut children_again) = (entries.clone(), children.clone());
    names.write_over(&names, &mut again, &mut children_again);
    assert!(again == entries && children_again == children);
}

#[test]
fn rows_that_are_not_whole_are_11() {
    assert_eq!(changed(|_, _| ()), []);
    assert_eq!(changed(|entries, _| entries.push(0)), [Fault::EntriesCut]);
    assert_eq!(
        changed(|_, children| children.push(0)),
        [Fault::ChildrenCut]
    );
    assert_eq!(Fault::EntriesCut.number(), 11);
    assert_eq!(Fault::ChildrenCut.number(), 11);
}

#[test]
fn more_than_65_536_entries_are_11() {
    let (row, children) = to_bytes(&names(
        &[entry(ROOT, 0, A, b"a")],
        &[child(A, NO_FID, None)],
    ));
    let most = row.repeat(65_536);
    assert_eq!(read(&most, &children).1, Faults::new());
    let many = row.repeat(65_537);
    let faults = Faults::from([Fault::EntriesMany]);
    assert_eq!(read(&many, &children).1, faults);
    assert_eq!(refusal(&faults), Some(11));
}

#[test]
fn more_than_65_536_children_are_11() {
    let mut children = vec![0; 65_536 * CHILD_BYTES];
    assert_eq!(read(&[], &children).1, Faults::new());
    children.resize(65_537 * CHILD_BYTES, 0);
    let faults = Faults::from([Fault::ChildrenMany]);
    assert_eq!(read(&[], &children).1, faults);
    assert_eq!(refusal(&faults), Some(11));
}

/// There is no 14.
#[test]
fn no_fid_is_bad() {
    let most = Fid {
        sequence: u64::MAX,
        id: u32::MAX,
        version: u32::MAX,
    };
    for fid in [most, Fid::new(0, 1), Fid::new(1, 0), NO_FID] {
        let rows = names(&[entry(fid, 0, fid, b"a")], &[child(fid, fid, None)]);
        let (entries, children) = to_bytes(&rows);
        assert_eq!(read(&entries, &children), (rows, Faults::new()));
    }
}

#[test]
fn a_child_at_or_past_the_rows_is_16() {
    for row in [2_u32, 3, 65_536, u32::MAX] {
        let put = |entries: &mut Vec<u8>, _: &mut Vec<u8>| {
            entries[16..20].copy_from_slice(&row.to_le_bytes());
        };
        assert_eq!(changed(put), [Fault::ChildRow], "{row}");
    }
    assert_eq!(Fault::ChildRow.number(), 16);
}

#[test]
fn a_bad_name_is_31() {
    let length = |bytes: u16| {
        changed(move |entries, _| entries[36..38].copy_from_slice(&bytes.to_le_bytes()))
    };
    assert_eq!(length(0), [Fault::NameEmpty]);
    assert_eq!(length(256), [Fault::NameLong]);
    assert_eq!(length(u16::MAX), [Fault::NameLong]);
    assert_eq!(length(255), []);
    let byte = |at: usize, byte| changed(move |entries, _| entries[38 + at] = byte);
    assert_eq!(byte(0, b'/'), [Fault::NameSlash]);
    assert_eq!(byte(3, 0), [Fault::NameZero]);
    // Past the name.
    assert_eq!(byte(4, b'/'), []);
    for fault in [Fault::NameEmpty, Fault::NameLong, Fault::NameSlash] {
        assert_eq!(fault.number(), 31);
    }
    assert_eq!(Fault::NameZero.number(), 31);
}

#[test]
fn a_bad_linkea_is_31() {
    let length = |bytes: u16| {
        changed(move |_, children| {
            children[CHILD_BYTES + 32..CHILD_BYTES + 34].copy_from_slice(&bytes.to_le_bytes());
        })
    };
    assert_eq!(length(4097), [Fault::LinkLong]);
    assert_eq!(length(u16::MAX), [Fault::LinkLong]);
    assert_eq!(length(0), []);
    assert_eq!(length(1), [Fault::Link(link::Fault::ShortHeader)]);
    let magic = changed(|_, children| children[CHILD_BYTES + 34] ^= 1);
    assert_eq!(magic, [Fault::Link(link::Fault::Magic)]);
    assert_eq!(Fault::LinkLong.number(), 31);
    assert_eq!(magic[0].number(), 31);
}

/// The room past a linkEA is free, and a linkEA may be as long as the room.
#[test]
fn a_linkea_may_fill_its_room() {
    let rows = names(&[], &[child(A, NO_FID, filled(4096, &[], B))]);
    let (entries, children) = to_bytes(&rows);
    assert_eq!(children[32..34], 4096_u16.to_le_bytes());
    assert_eq!(read(&entries, &children), (rows, Faults::new()));
}
