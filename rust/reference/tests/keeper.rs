//! The keeper and the slots compared, on the reference alone: small tables with counts worked out
//! by hand, as a sum over the three cases.

use reference::answer::{BAD_FID, BAD_LAYOUT, BAD_TABLE, DONE, FID_TWICE, NO_ROOM};
use reference::fid::{FIRST_SEQUENCE, Fid, LAST_SEQUENCE};
use reference::interface;
use reference::layout::{Layout, Stripe, Version};
use reference::search::{Claimed, Search};
use reference::site::{Place, Reason, Site};
use reference::tables::{Claim, OBJECT_BYTES, Object, Owner, PARENT_BYTES, Parent, Tables};

const P: Fid = Fid::new(0x2_0000_0401, 1);
const Q: Fid = Fid::new(0x2_0000_0401, 2);
const R: Fid = Fid::new(0x2_0000_0401, 3);
const A: Fid = Fid::new(0x2_4000_0400, 0x10);
const B: Fid = Fid::new(0x2_4000_0400, 0x11);
const C: Fid = Fid::new(0x2_4000_0400, 0x12);
const N: Fid = Fid::new(0x2_4000_0400, 0x20);
const OWNER: Owner = Owner { uid: 500, gid: 600 };

/// A file whose slots name these objects, or are holes.
fn file(fid: Fid, objects: &[Option<Fid>]) -> Option<Parent> {
    let stripe = |object| Stripe {
        object,
        generation: 0,
        ost: 3,
    };
    Some(Parent {
        fid,
        owner: OWNER,
        layout: Layout {
            version: Version::One,
            holes_allowed: true,
            own_id: fid.id.into(),
            own_sequence: fid.sequence,
            stripe_size: 1_048_576,
            generation: 0,
            slots: objects.iter().map(|slot| slot.map(stripe)).collect(),
        },
    })
}

fn object(fid: Fid, claim: Option<(Fid, u32)>) -> Option<Object> {
    Some(Object {
        fid,
        ost: 3,
        owner: OWNER,
        claim: claim.map(|(parent, index)| Claim { parent, index }),
        fresh: false,
    })
}

fn tables(parents: Vec<Option<Parent>>, objects: Vec<Option<Object>>) -> Tables {
    Tables { parents, objects }
}

/// Both tables as bytes, unused rows zero.
fn bytes_of(tables: &Tables) -> (Vec<u8>, Vec<u8>) {
    let mut parents = vec![0; PARENT_BYTES * tables.parents.len()];
    for (row, file) in parents.chunks_mut(PARENT_BYTES).zip(&tables.parents) {
        file.iter().for_each(|file| file.write(row));
    }
    let mut objects = vec![0; OBJECT_BYTES * tables.objects.len()];
    for (row, object) in objects.chunks_mut(OBJECT_BYTES).zip(&tables.objects) {
        object.iter().for_each(|object| object.write(row));
    }
    (parents, objects)
}

/// Where the search began, how many slots each case compared, and the case and place of the hit.
type Found = (Claimed, [usize; 3], Option<(Reason, usize, usize)>);

/// Searches, by the interface too, and holds the keeper to the one that the site knows.
fn found(tables: &Tables, object: Fid) -> Found {
    let search = Search::of(tables, object);
    assert_eq!(search.keeper, Site::new(tables.clone()).keeper(object));
    let in_case = |case| search.compared.iter().filter(|(of, _)| *of == case).count();
    let counts = [
        Reason::ClaimedSlot,
        Reason::ClaimedParent,
        Reason::ScanOrder,
    ]
    .map(in_case);
    let (parents, objects) = bytes_of(tables);
    let mut out = [9; 5];
    let answer = interface::keeper(
        &parents,
        &objects,
        object.sequence,
        object.id.into(),
        &mut out,
    );
    let hit = search
        .keeper
        .map(|(Place { row, slot }, case)| (case, row, slot));
    let place = hit.map_or([0; 3], |(_, row, slot)| [1, row as u64, slot as u64]);
    assert_eq!((answer, &out[..3]), (DONE, &place[..]));
    assert_eq!(out[3..], [counts.iter().sum::<usize>() as u64, 9]);
    (search.claimed, counts, hit)
}

/// E11: rows Q[A], P[B,A]; A claims (P,0), B claims (P,0).
fn e11() -> Tables {
    tables(
        vec![file(Q, &[Some(A)]), file(P, &[Some(B), Some(A)])],
        vec![object(A, Some((P, 0))), object(B, Some((P, 0)))],
    )
}

/// A: slot (P,0), which names B; (P,0) again and (P,1). B: (P,0). N, which is absent: all three.
#[test]
fn e11_is_counted() {
    let second = (Reason::ClaimedParent, 1, 1);
    assert_eq!(found(&e11(), A), (Claimed::Named, [1, 2, 0], Some(second)));
    let claimed = (Reason::ClaimedSlot, 1, 0);
    assert_eq!(found(&e11(), B), (Claimed::Named, [1, 0, 0], Some(claimed)));
    assert_eq!(found(&e11(), N), (Claimed::NoObject, [0, 0, 3], None));
}

/// The slots are compared one after the other, those of case 1 and 2 again.
#[test]
fn a_slot_that_was_compared_counts_again() {
    let tables = tables(
        vec![file(Q, &[Some(B), Some(A)]), file(P, &[Some(C), None])],
        vec![object(A, Some((P, 1)))],
    );
    let [q0, q1, p0, p1] = [(0, 0), (0, 1), (1, 0), (1, 1)].map(|(row, slot)| Place { row, slot });
    let search = Search::of(&tables, A);
    assert_eq!(
        search.compared,
        [
            (Reason::ClaimedSlot, p1),
            (Reason::ClaimedParent, p0),
            (Reason::ClaimedParent, p1),
            (Reason::ScanOrder, q0),
            (Reason::ScanOrder, q1),
        ]
    );
    assert_eq!(search.keeper, Some((q1, Reason::ScanOrder)));
    assert_eq!(search.claimed, Claimed::Hole);
}

/// Without object, claim or claimed file all slots in scan order, an unused row between them: B, a
/// hole, A.
#[test]
fn without_claimed_file_there_is_the_last_case_alone() {
    let files = || {
        vec![
            file(Q, &[Some(B), None]),
            None,
            file(P, &[Some(A), Some(A)]),
        ]
    };
    let hit = Some((Reason::ScanOrder, 2, 0));
    let absent = tables(files(), vec![None, object(B, Some((P, 0)))]);
    assert_eq!(found(&absent, A), (Claimed::NoObject, [0, 0, 3], hit));
    let unclaimed = tables(files(), vec![None, object(A, None)]);
    assert_eq!(found(&unclaimed, A), (Claimed::NoClaim, [0, 0, 3], hit));
    let elsewhere = tables(files(), vec![None, object(A, Some((R, 0)))]);
    assert_eq!(found(&elsewhere, A), (Claimed::NoFile, [0, 0, 3], hit));
    assert_eq!(found(&absent, N), (Claimed::NoObject, [0, 0, 4], None));
}

/// P[B,A] has slots 0 and 1: a claim on slot 1 is a hit; one on slot 2 or above compares nothing in
/// case 1, and both slots in case 2.
#[test]
fn an_index_at_the_count_has_no_slot() {
    let claiming = |index| {
        tables(
            vec![file(Q, &[Some(A)]), file(P, &[Some(B), Some(A)])],
            vec![object(A, Some((P, index)))],
        )
    };
    let last = (Reason::ClaimedSlot, 1, 1);
    assert_eq!(
        found(&claiming(1), A),
        (Claimed::Named, [1, 0, 0], Some(last))
    );
    let second = Some((Reason::ClaimedParent, 1, 1));
    assert_eq!(
        found(&claiming(2), A),
        (Claimed::AtCount, [0, 2, 0], second)
    );
    for index in [3, 1_999, 2_000, u32::MAX] {
        let expected = (Claimed::PastCount, [0, 2, 0], second);
        assert_eq!(found(&claiming(index), A), expected);
    }
}

/// The claimed file has no slots: only Q's two are compared, in the last case.
#[test]
fn a_file_without_slots_adds_nothing() {
    let tables = tables(
        vec![file(P, &[]), file(Q, &[Some(B), Some(A)])],
        vec![object(A, Some((P, 0)))],
    );
    let hit = Some((Reason::ScanOrder, 1, 1));
    assert_eq!(found(&tables, A), (Claimed::AtCount, [0, 0, 2], hit));
}

/// All slots in the claimed file, and none names A: 1, then 3 and 3, which is twice 3 plus 1. Past
/// the count it is twice 3. With a second file of one slot it is 1, 3 and 4, less than twice 4 plus 1.
#[test]
fn the_bound_is_reached() {
    let p = || file(P, &[Some(B), None, Some(C)]);
    let one = |index| tables(vec![None, p()], vec![object(A, Some((P, index)))]);
    assert_eq!(found(&one(2), A), (Claimed::Named, [1, 3, 3], None));
    assert_eq!(found(&one(1), A), (Claimed::Hole, [1, 3, 3], None));
    assert_eq!(found(&one(3), A), (Claimed::AtCount, [0, 3, 3], None));
    let two = tables(
        vec![p(), file(Q, &[Some(B)])],
        vec![object(A, Some((P, 0)))],
    );
    assert_eq!(found(&two, A), (Claimed::Named, [1, 3, 4], None));
}

/// Asks of these bytes, with so many places; nothing may be written.
fn refused(parents: &[u8], objects: &[u8], [sequence, id]: [u64; 2], places: usize) -> u32 {
    let mut out = vec![9; places];
    let answer = interface::keeper(parents, objects, sequence, id, &mut out);
    assert_eq!(out, vec![9; places], "written with {answer}");
    answer
}

/// FIDs that are not good, the last two with A's id in their low 32 bits.
const BAD: [[u64; 2]; 6] = [
    [FIRST_SEQUENCE - 1, 0x10],
    [LAST_SEQUENCE + 1, 0x10],
    [0x2_4000_0400, 0],
    [0x2_4000_0400, 1 << 32],
    [0x2_4000_0400, 0x1_0000_0010],
    [0x2_4000_0400, 0xffff_ffff_0000_0010],
];

/// 11, 13, 14, 15, 17, the FID that is asked for among the 14.
#[test]
fn the_lowest_refusal_is_given() {
    const GOOD: [u64; 2] = [0x2_4000_0400, 0x10];
    let (parents, objects) = bytes_of(&e11());
    let mut mark = parents.clone();
    mark[0] = 2;
    let mut layout = parents.clone();
    layout[25] ^= 1;
    let mut version = objects.clone();
    version[13] = 1;
    let twice = [&objects[..], &objects[..OBJECT_BYTES]].concat();
    for (parents, objects, good, bad) in [
        (&mark, &objects, BAD_TABLE, BAD_TABLE),
        (&layout, &objects, BAD_LAYOUT, BAD_LAYOUT),
        (&parents, &version, BAD_FID, BAD_FID),
        (&parents, &twice, FID_TWICE, BAD_FID),
    ] {
        for places in [3, 4] {
            assert_eq!(refused(parents, objects, GOOD, places), good);
            for fid in BAD {
                assert_eq!(refused(parents, objects, fid, places), bad, "{fid:x?}");
            }
        }
    }
    for places in 0..4 {
        assert_eq!(refused(&parents, &objects, GOOD, places), NO_ROOM);
    }
    for (fid, places) in BAD.into_iter().flat_map(|fid| [(fid, 3), (fid, 4)]) {
        assert_eq!(
            refused(&parents, &objects, fid, places),
            BAD_FID,
            "{fid:x?}"
        );
    }
}

/// The bounds of a good FID are asked for, and name nothing: all three slots of E11.
#[test]
fn the_bounds_of_a_good_fid_are_good() {
    for fid in [
        Fid::new(FIRST_SEQUENCE, 1),
        Fid::new(LAST_SEQUENCE, u32::MAX),
    ] {
        assert_eq!(found(&e11(), fid), (Claimed::NoObject, [0, 0, 3], None));
    }
}
