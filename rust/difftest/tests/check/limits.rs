//! The limits of the tables, at full size.

use std::time::Instant;

use super::damage::put;
use super::{Case, OfTables, compare_check, compare_tables};
use difftest::tables::OBJECTS;
use reference::check::{MOST_OBJECTS, MOST_PARENTS, MOST_RESERVE};
use reference::fid::Fid;
use reference::interface;
use reference::layout::{Layout, MOST_SLOTS, SLOT_BYTES, Stripe, Version};
use reference::tables::{
    LAYOUT_AT, OBJECT_BYTES, Object, Owner, PARENT_BYTES, Parent, RESERVE_BYTES,
};

#[test]
fn full_tables_are_checked_alike() {
    let started = Instant::now();
    let full = full_case();
    assert_eq!(full.parents.len(), 1024 * 48_075);
    assert_eq!(full.objects.len(), 65_536 * 46);
    assert_eq!(full.reserve.len(), 65_536 * 16);
    expect_answer(&full, 0, "full tables");
    compare_start_and_steps(&full, 0);
    let mut steps = [0];
    assert_eq!(
        lfsck_sys::steps(&full.parents, &full.objects, &mut steps),
        0
    );
    assert_eq!(steps, [1024 * 2_001 + 65_536]);

    expect_bad_last_file(&full);

    let mut last = full.clone();
    put(&mut last.objects, 65_535 * 46 + 17, &[255; 4]);
    expect_answer(&last, 14, "bad OST index in the last object row");

    let mut last = full.clone();
    put(&mut last.reserve, 65_535 * 16, &[0; 16]);
    expect_answer(&last, 14, "bad FID in the last reserve entry");

    let mut last = full.clone();
    last.objects.copy_within(1..17, 65_535 * 46 + 1);
    expect_answer(&last, 15, "the first object's FID in the last row");

    let mut last = full.clone();
    last.position = [2, 65_536, 0];
    expect_answer(&last, 16, "a position past the last object row");
    println!("full tables in {:.1} s", started.elapsed().as_secs_f64());
}

/// The last parent row with a bad layout, a bad last slot and the FID of the first.
fn expect_bad_last_file(full: &Case) {
    let mut last = full.clone();
    put(&mut last.parents, 1023 * PARENT_BYTES + LAYOUT_AT, &[0; 4]);
    expect_answer(&last, 13, "bad layout in the last parent row");

    let mut last = full.clone();
    let slot = last.parents.len() - SLOT_BYTES;
    put(&mut last.parents, slot + 20, &[255; 4]);
    expect_answer(
        &last,
        13,
        "bad OST index in the last slot of the last parent row",
    );

    let mut last = full.clone();
    last.parents.copy_within(1..17, 1023 * PARENT_BYTES + 1);
    expect_answer(&last, 15, "the first parent's FID in the last row");
}

#[test]
fn one_row_too_many_is_refused_alike() {
    let full = full_case();
    let mut more = full.clone();
    more.parents.extend_from_slice(&[0; PARENT_BYTES]);
    expect_answer(&more, 11, "1,025 parent rows");
    compare_start_and_steps(&more, 11);

    let mut more = full.clone();
    more.objects.extend_from_slice(&[0; OBJECT_BYTES]);
    expect_answer(&more, 11, "65,537 object rows");
    compare_start_and_steps(&more, 11);

    let mut more = full;
    more.reserve.extend(OBJECTS[0].to_bytes());
    expect_answer(&more, 11, "65,537 reserve entries");
}

#[test]
fn tables_without_rows_are_checked_alike() {
    let full = full_case();
    let without = |parents: bool, objects: bool, reserve: bool, position| Case {
        parents: if parents {
            Vec::new()
        } else {
            full.parents[..PARENT_BYTES].to_vec()
        },
        objects: if objects {
            Vec::new()
        } else {
            full.objects[..OBJECT_BYTES].to_vec()
        },
        reserve: if reserve {
            Vec::new()
        } else {
            full.reserve[..RESERVE_BYTES].to_vec()
        },
        policy: 3,
        position,
    };
    for reserve in [false, true] {
        expect_answer(&without(true, false, reserve, [2, 0, 0]), 0, "no parents");
        expect_answer(&without(true, false, reserve, [1, 0, 0]), 16, "no parents");
        expect_answer(&without(false, true, reserve, [1, 0, 0]), 0, "no objects");
        expect_answer(&without(false, true, reserve, [2, 0, 0]), 16, "no objects");
        expect_answer(&without(true, true, reserve, [3, 0, 0]), 0, "no rows");
        expect_answer(&without(true, true, reserve, [1, 0, 0]), 16, "no rows");
        compare_start_and_steps(&without(true, true, reserve, [3, 0, 0]), 0);
        compare_start_and_steps(&without(true, false, reserve, [3, 0, 0]), 0);
        compare_start_and_steps(&without(false, true, reserve, [3, 0, 0]), 0);
    }
}

/// Library and reference answer what the paper says.
fn expect_answer(case: &Case, answer: u32, what: &str) {
    assert_eq!(compare_check(case, &case.clone()), answer, "{what}");
}

fn compare_start_and_steps(case: &Case, answer: u32) {
    let lent = case.clone();
    let both = (case, &lent);
    for (needed, library, reference) in [
        (
            3,
            lfsck_sys::start as OfTables,
            interface::start as OfTables,
        ),
        (1, lfsck_sys::steps, interface::steps),
    ] {
        let got = compare_tables(both, &[7; 4], needed, library, reference);
        assert_eq!(got, answer, "{needed} numbers of {}", case.describe());
    }
}

/// As many rows and entries as there may be, all used and none like another.
fn full_case() -> Case {
    let mut parents = vec![0; MOST_PARENTS * PARENT_BYTES];
    for (row, at) in parents.chunks_mut(PARENT_BYTES).enumerate() {
        full_parent(row as u32).write(at);
    }
    let mut objects = vec![0; MOST_OBJECTS * OBJECT_BYTES];
    for (row, at) in objects.chunks_mut(OBJECT_BYTES).enumerate() {
        full_object(row as u32).write(at);
    }
    let reserve =
        (0..MOST_RESERVE as u32).flat_map(|id| Fid::new(0x2_8000_0400, id + 1).to_bytes());
    Case {
        parents,
        objects,
        reserve: reserve.collect(),
        policy: 3,
        position: [2, 65_535, 0],
    }
}

fn full_parent(row: u32) -> Parent {
    let fid = Fid::new(0x2_0000_0401, row + 1);
    let stripe = |slot| {
        Some(Stripe {
            object: Fid::new(0x2_4000_0400, MOST_SLOTS as u32 * row + slot + 1),
            generation: 0,
            ost: slot,
        })
    };
    Parent {
        fid,
        owner: Owner { uid: 0, gid: 0 },
        layout: Layout {
            version: Version::Three([0; 16]),
            holes_allowed: false,
            own_id: fid.id.into(),
            own_sequence: fid.sequence,
            stripe_size: 1_048_576,
            generation: 0,
            slots: (0..MOST_SLOTS as u32).map(stripe).collect(),
        },
    }
}

fn full_object(row: u32) -> Object {
    Object {
        fid: Fid::new(0x2_4000_0400, row + 1),
        ost: row % MOST_SLOTS as u32,
        owner: Owner { uid: 0, gid: 0 },
        claim: None,
        fresh: false,
    }
}
