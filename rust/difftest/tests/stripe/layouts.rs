//! The functions on one layout.

use crate::seen::{Case, Seen};
use crate::{all_layouts, both};
use difftest::Random;
use numbers::call::{HEADER_READ, SLOT};
use reference::interface::numbers_of_slot;
use reference::layout::{Layout, Version};

const READ: &str = "lfsck_layout_read";
const READ_SLOT: &str = "lfsck_layout_slot";
const WRITE: &str = "lfsck_layout_write";
const REWRITE: &str = "lfsck_slot_rewrite";

/// What each is lent.
const CASES: [Case<&str>; 16] = [
    (READ, "room", 0, 13),
    (READ, "too little room", 17, 13),
    (READ_SLOT, "an index below the count", 0, 13),
    (READ_SLOT, "too little room", 17, 13),
    (READ_SLOT, "at the count", 16, 13),
    (READ_SLOT, "past the count", 16, 13),
    (READ_SLOT, "past the count, too little room", 16, 13),
    (WRITE, "room", 0, 13),
    (WRITE, "a byte too little", 17, 13),
    (WRITE, "no room", 17, 13),
    (WRITE, "no place for the length", 17, 13),
    (REWRITE, "an equal slot", 0, 13),
    (REWRITE, "another slot", 0, 13),
    (REWRITE, "a bad slot", 13, 13),
    (REWRITE, "at the count", 16, 13),
    (REWRITE, "past the count", 16, 13),
];

#[test]
fn layouts_are_held_to_the_rule_alike() {
    let mut random = Random::for_test("stripe sizes of layouts");
    let mut seen = Seen::nothing(CASES.to_vec());
    for layout in all_layouts(&mut random) {
        read(&layout, &mut random, &mut seen);
        read_slots(&layout, &mut random, &mut seen);
        write(&layout, &mut random, &mut seen);
        rewrite(&layout, &mut seen);
    }
    seen.require();
}

fn read(layout: &Layout, random: &mut Random, seen: &mut Seen<&str>) {
    let rooms = [
        ("room", HEADER_READ),
        ("room", HEADER_READ + 1),
        ("too little room", HEADER_READ - 1),
        ("too little room", 0),
    ];
    for (what, room) in rooms {
        let lent = (layout.encode(), random.numbers(room));
        let (answer, (_, fields)) = both!(lent, |lent| layout_read(&lent.0, &mut lent.1));
        if answer == 0 {
            assert_eq!(fields[4], layout.stripe_size.into());
        }
        seen.hold((READ, what), layout, answer);
    }
}

/// Indices past the count of a layout.
fn past(layout: &Layout) -> [u64; 3] {
    [layout.slots.len() as u64 + 1, 1 << 32, u64::MAX]
}

fn read_slots(layout: &Layout, random: &mut Random, seen: &mut Seen<&str>) {
    let mut read = |index: u64, room, what| {
        let lent = (layout.encode(), random.numbers(room));
        let (answer, _) = both!(lent, |lent| layout_slot(&lent.0, index, &mut lent.1));
        seen.hold((READ_SLOT, what), layout, answer);
    };
    let count = layout.slots.len() as u64;
    for index in (0..count.min(2)).chain(count.checked_sub(1)) {
        read(index, SLOT, "an index below the count");
        read(index, SLOT - 1, "too little room");
    }
    read(count, SLOT, "at the count");
    for index in past(layout) {
        read(index, SLOT, "past the count");
        read(index, SLOT - 1, "past the count, too little room");
    }
}

/// The fields, the pool and the slots that the writer takes.
fn numbers_of(layout: &Layout) -> (Vec<u64>, Vec<u8>, Vec<u64>) {
    let (version, pool) = match layout.version {
        Version::One => (1, Vec::new()),
        Version::Three(pool) => (3, pool.to_vec()),
    };
    let fields = vec![
        version,
        layout.pattern().into(),
        layout.own_id,
        layout.own_sequence,
        layout.stripe_size.into(),
        layout.slots.len() as u64,
        layout.generation.into(),
    ];
    let slots = layout.slots.iter().copied().flat_map(numbers_of_slot);
    (fields, pool, slots.collect())
}

fn write(layout: &Layout, random: &mut Random, seen: &mut Seen<&str>) {
    let input = numbers_of(layout);
    let bytes = layout.encode();
    let rooms = [
        ("room", bytes.len(), 1),
        ("room", bytes.len() + 5, 2),
        ("a byte too little", bytes.len() - 1, 1),
        ("no room", 0, 0),
        ("no place for the length", bytes.len(), 0),
    ];
    for (what, room, places) in rooms {
        let lent = (input.clone(), random.bytes(room), random.numbers(places));
        let (answer, (_, written, length)) = both!(lent, |lent| layout_write(
            &lent.0.0,
            &lent.0.1,
            &lent.0.2,
            &mut lent.1,
            &mut lent.2
        ));
        if answer == 0 {
            assert_eq!(
                (&written[..bytes.len()], length[0]),
                (&bytes[..], bytes.len() as u64)
            );
        }
        seen.hold((WRITE, what), layout, answer);
    }
}

/// A slot that no layout here has.
const OTHER: [u64; SLOT] = [1, 0x2_8000_0400, 5, 6, 7];
/// One that no layout can have: it has neither sequence nor id.
const NO_SLOT: [u64; SLOT] = [1, 0, 0, 6, 7];

fn rewrite(layout: &Layout, seen: &mut Seen<&str>) {
    let mut rewrite = |index: u64, slot: [u64; SLOT], what| {
        let lent = (layout.encode(), slot);
        let (answer, (after, _)) = both!(lent, |lent| slot_rewrite(&mut lent.0, index, &lent.1));
        assert_eq!(after != lent.0, answer == 0 && what == "another slot");
        seen.hold((REWRITE, what), layout, answer);
    };
    let count = layout.slots.len();
    for index in (0..count.min(2)).chain(count.checked_sub(1)) {
        let equal = numbers_of_slot(layout.slots[index]);
        rewrite(index as u64, equal, "an equal slot");
        rewrite(index as u64, OTHER, "another slot");
        rewrite(index as u64, NO_SLOT, "a bad slot");
    }
    rewrite(count as u64, OTHER, "at the count");
    rewrite(count as u64, NO_SLOT, "a bad slot");
    for index in past(layout) {
        rewrite(index, OTHER, "past the count");
    }
}
