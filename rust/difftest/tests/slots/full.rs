//! Tables of full size: 1,024 files of 2,000 slots, all in version 3, so that each room is filled
//! to its last byte. Only the first and the last slot of a file name an object.

use std::time::Instant;

use difftest::tables::Lent;
use numbers::call::{BOTH, END, REPORT};
use numbers::layout::{GENERATION_AT, HEADER_THREE, SLOT_BYTES, SLOT_OST_AT};
use numbers::parent::LAYOUT_AT;
use reference::class::Class;
use reference::layout::Version;
use reference::tables::{OBJECT_BYTES, PARENT_BYTES};

use crate::{file, file_fid, object, object_fid, sides, stripe};

const FILES: usize = 1_024;
const SLOTS: usize = 2_000;
const LAST: usize = FILES - 1;
/// Objects that no slot names: one that can be had, one past the last slot, and a fresh one.
const ORPHAN: u32 = 100_001;
const BEYOND: u32 = 100_002;
const FRESH: u32 = 100_003;

/// The object of a file's first slot, or of its last.
fn id(row: usize, last: bool) -> u32 {
    2 * row as u32 + u32::from(last) + 1
}

/// The files, and nine object rows: those of the first and the last file, the three that no slot
/// names, and two unused rows.
fn full() -> Lent {
    let mut parents = vec![0; FILES * PARENT_BYTES];
    for (row, bytes) in parents.chunks_mut(PARENT_BYTES).enumerate() {
        let mut slots = vec![None; SLOTS];
        slots[0] = stripe(id(row, false));
        slots[SLOTS - 1] = stripe(id(row, true));
        file(row, Version::Three([b'p'; 16]), slots).write(bytes);
    }
    let fresh = reference::tables::Object {
        fresh: true,
        ..object(FRESH, Some((LAST - 1, 1)))
    };
    let rows = [
        object(id(0, false), Some((0, 0))),
        object(id(0, true), Some((0, 1_999))),
        object(id(LAST, false), None),
        object(id(LAST, true), Some((LAST, 1_999))),
        object(ORPHAN, Some((LAST - 1, 1_998))),
        object(BEYOND, Some((LAST - 1, 2_000))),
        fresh,
    ];
    let mut objects = vec![0; (rows.len() + 2) * OBJECT_BYTES];
    for (row, bytes) in rows.iter().zip(objects.chunks_mut(OBJECT_BYTES)) {
        row.write(bytes);
    }
    Lent::new(parents, objects)
}

/// The tables with some bytes of the parents changed.
fn changed(full: &Lent, change: impl FnOnce(&mut [u8])) -> Lent {
    let mut parents = full.parents.clone();
    change(&mut parents);
    Lent::new(parents, full.objects.clone())
}

#[test]
fn full_tables_are_checked() {
    let started = Instant::now();
    let full = full();
    assert_eq!(full.parents.len(), 49_228_800);
    assert_eq!(sides::check(&full, BOTH, [1, 1_023, 2_000]), 0);
    assert_eq!(sides::check(&full, BOTH, [1, 1_023, 2_001]), 16);
    let (start, steps) = sides::start_and_steps(&full);
    assert_eq!(start, [1, 0, 0]);
    assert_eq!(steps, 1_024 * 2_001 + 9);

    let spoilt = changed(&full, |parents| {
        let last = parents.len() - SLOT_BYTES;
        parents[last + SLOT_OST_AT + 2] = 1;
    });
    assert_eq!(sides::check(&spoilt, 0, [1, 0, 0]), 13, "the last slot");
    let twice = changed(&full, |parents| {
        parents.copy_within(1..17, LAST * PARENT_BYTES + 1);
    });
    assert_eq!(sides::check(&twice, 0, [1, 0, 0]), 15, "first and last FID");
    println!("checked in {:.1} s", started.elapsed().as_secs_f64());
}

#[test]
fn classes_and_keepers_in_full_tables() {
    let started = Instant::now();
    let mut full = full();
    for (position, class) in [
        ([1, 0, 0], Class::Clean),
        ([1, 0, 1], Class::Clean),
        ([1, 0, 2_000], Class::Clean),
        ([1, 1, 1], Class::Dangling),
        ([1, 512, 1_000], Class::Hole),
        ([1, 1_023, 1], Class::Blank),
        ([1, 1_023, 1_999], Class::Hole),
        ([1, 1_023, 2_000], Class::Clean),
        ([2, 3, 0], Class::Kept),
        ([2, 4, 0], Class::Orphan),
        ([2, 5, 0], Class::Conflict),
        ([2, 6, 0], Class::Empty),
        ([2, 8, 0], Class::Unused),
    ] {
        let told = sides::class(&full, position)[0];
        assert_eq!(told, class.number(), "{position:?}");
    }
    let last = object_fid(id(LAST, true));
    assert_eq!(sides::keeper(&full, last), [1, 1_023, 1_999, 1]);
    full.set_objects(Vec::new());
    let all = 1_024 * 2_000;
    assert_eq!(sides::keeper(&full, last), [1, 1_023, 1_999, all]);
    assert_eq!(sides::keeper(&full, file_fid(0)), [0, 0, 0, all]);
    println!("classed in {:.1} s", started.elapsed().as_secs_f64());
}

#[test]
fn the_last_positions_of_full_tables_are_listed() {
    use Class::*;
    let full = full();
    let (classes, end) = sides::classes(&full, [1, 1_023, 1_998], 20);
    let expected = [
        Hole, Hole, Clean, Kept, Kept, Kept, Kept, Orphan, Conflict, Empty, Unused, Unused,
    ];
    assert_eq!(classes, expected.map(Class::number));
    assert_eq!(end, END);
    let (classes, next) = sides::classes(&full, [1, 1_022, 2_000], 2);
    assert_eq!(classes, [Dangling, Clean].map(Class::number));
    assert_eq!(next, [1, 1_023, 1]);
}

/// A report with these counts.
fn report(steps: u64, counts: &[(Class, u64)]) -> [u64; REPORT] {
    let mut report = [0; REPORT];
    report[0] = steps;
    for (class, count) in counts {
        let at = match class {
            Class::Dangling => 3,
            Class::Blank => 4,
            Class::Empty => 7,
            Class::Orphan => 8,
            other => panic!("{other:?} is not counted here"),
        };
        report[at] = *count;
    }
    report
}

/// From the last file's header to the end: its first slot is BLANK, and with adopt an orphan gets
/// the hole before the last slot of the file before it.
#[test]
fn runs_to_the_end_of_full_tables() {
    let started = Instant::now();
    let full = full();
    for policy in 0..=BOTH {
        let adopts = u64::from(policy & 2 != 0);
        let ran = sides::run(&full, policy, [1, 1_023, 0], u64::MAX);
        assert_eq!((ran.answer, ran.position), (0, END));
        let counts = [
            (Class::Blank, 1),
            (Class::Orphan, adopts),
            (Class::Empty, adopts),
        ];
        assert_eq!(ran.report, report(2_001 + 9, &counts));
        let mut expected = full.parents.clone();
        let layout = (LAST - 1) * PARENT_BYTES + LAYOUT_AT;
        if adopts == 1 {
            expected[layout + GENERATION_AT] = 1;
            let slot = layout + HEADER_THREE + SLOT_BYTES * 1_998;
            expected[slot..slot + 16].copy_from_slice(&object_fid(ORPHAN).to_bytes());
            expected[slot + SLOT_OST_AT] = 3;
        }
        assert!(ran.parents == expected, "policy {policy}");
    }
    println!("run to the end in {:.1} s", started.elapsed().as_secs_f64());
}

/// From the start: the first file is CLEAN; with create the second one gets its two objects in the
/// unused rows, and the third finds none.
#[test]
fn runs_from_the_start_of_full_tables() {
    let started = Instant::now();
    let full = full();
    for policy in 0..=BOTH {
        let ran = sides::run(&full, policy, [1, 0, 0], 4_004);
        let made = [(Class::Dangling, 2)];
        let expected = match policy & 1 {
            0 => (1, [1, 2, 2], report(4_004, &[])),
            _ => (22, [1, 2, 1], report(4_003, &made)),
        };
        assert_eq!((ran.answer, ran.position, ran.report), expected);
        assert!(ran.parents == full.parents, "policy {policy}");
    }
    println!(
        "run from the start in {:.1} s",
        started.elapsed().as_secs_f64()
    );
}
