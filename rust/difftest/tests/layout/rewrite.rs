//! The rewrite of a slot: what it may change, and which rewrites are met.

use std::hint::black_box;

use crate::seen::Seen;
use crate::{random_index, random_slot_numbers};
use difftest::Random;
use numbers::call::{HEADER_READ, SLOT};
use numbers::layout::{GENERATION_AT, HEADER_ONE, HEADER_THREE, MOST_SLOTS};
use reference::interface;
use reference::layout::{Layout, SLOT_BYTES, Stripe};

/// The slot of a rewrite beside the one that it replaces.
pub const REWRITES: [&str; 9] = [
    "equal, a hole",
    "equal, named",
    "a hole for a named slot",
    "a named slot for a hole",
    "another sequence",
    "another id",
    "another generation",
    "another OST index",
    "several other numbers",
];

/// Where the slots of a layout begin with one that a rewrite changes, and whether that is the last
/// slot that a layout can have.
pub const PLACES: [(usize, bool); 4] = [
    (HEADER_ONE, false),
    (HEADER_ONE, true),
    (HEADER_THREE, false),
    (HEADER_THREE, true),
];

/// What a rewrite does to the generation.
pub const GENERATIONS: [&str; 5] = [
    "left",
    "65,535 left",
    "raised",
    "raised in both bytes",
    "65,535 to 0",
];

/// Lends the same to both sides, and compares the answers and what was lent.
pub fn compare_rewrite(bytes: &[u8], layout: &Layout, random: &mut Random, seen: &mut Seen) {
    let index = random_index(bytes, random);
    let slot = random_rewrite(layout, index, random);
    let (mut ours, mut theirs) = (bytes.to_vec(), bytes.to_vec());
    let input = slot.clone();
    let answer = lfsck_sys::slot_rewrite(&mut theirs, index, black_box(&input));
    let expected = interface::slot_rewrite(&mut ours, index, &slot);
    assert_eq!(
        (answer, &theirs),
        (expected, &ours),
        "rewrite {index} of {bytes:02x?} with {slot:x?}"
    );
    assert_eq!(
        black_box(&input),
        &slot,
        "rewrite changed the slot's numbers"
    );
    seen.rewrite.met(answer);
    if answer == 0 {
        check_rewritten(bytes, &theirs, index, &slot);
        let was = slot_of(bytes, index);
        seen.rewrites.met(kind_of_rewrite(&was, &slot));
        let raise = kind_of_raise(generation_of(bytes), was == slot);
        seen.generations.met(raise);
        if was != slot {
            let is_last = index as usize + 1 == MOST_SLOTS;
            seen.places.met((slots_at(bytes), is_last));
        }
    }
    note_refusal(bytes, index, &slot, seen);
}

/// The numbers of a slot, as the library reads them.
fn slot_of(bytes: &[u8], index: u64) -> Vec<u64> {
    let mut slot = vec![0; SLOT];
    assert_eq!(lfsck_sys::layout_slot(bytes, index, &mut slot), 0);
    slot
}

/// Where the slots begin, as the library reads it.
fn slots_at(bytes: &[u8]) -> usize {
    let mut fields = [0; HEADER_READ];
    assert_eq!(lfsck_sys::layout_read(bytes, &mut fields), 0);
    fields[HEADER_READ - 1] as usize
}

/// The generation of a layout.
fn generation_of(bytes: &[u8]) -> u16 {
    u16::from_le_bytes([bytes[GENERATION_AT], bytes[GENERATION_AT + 1]])
}

/// A rewrite changes no byte but the slot's and the generation's, which goes up by one, and not even
/// these where the slot is equal.
fn check_rewritten(before: &[u8], after: &[u8], index: u64, slot: &[u64]) {
    assert_eq!(slot_of(after, index), slot);
    let mut restored = after.to_vec();
    if slot_of(before, index) != slot {
        let raised = generation_of(before).wrapping_add(1);
        assert_eq!(generation_of(after), raised, "rewrite {index}");
        let start = slots_at(before) + SLOT_BYTES * index as usize;
        for part in [GENERATION_AT..HEADER_ONE, start..start + SLOT_BYTES] {
            restored[part.clone()].copy_from_slice(&before[part]);
        }
    }
    assert_eq!(restored, before, "rewrite {index} changed another byte");
}

/// How the numbers of a slot differ from those that were there.
fn kind_of_rewrite(was: &[u64], slot: &[u64]) -> &'static str {
    let other = (0..SLOT).filter(|&number| was[number] != slot[number]);
    match (was[0], slot[0], &other.collect::<Vec<_>>()[..]) {
        (0, 0, _) => "equal, a hole",
        (0, _, _) => "a named slot for a hole",
        (_, 0, _) => "a hole for a named slot",
        (_, _, []) => "equal, named",
        (_, _, [1]) => "another sequence",
        (_, _, [2]) => "another id",
        (_, _, [3]) => "another generation",
        (_, _, [4]) => "another OST index",
        _ => "several other numbers",
    }
}

/// What a rewrite does to the generation that was there.
fn kind_of_raise(generation: u16, equal: bool) -> &'static str {
    match (generation, equal) {
        (u16::MAX, true) => "65,535 left",
        (_, true) => "left",
        (u16::MAX, false) => "65,535 to 0",
        (_, false) if generation as u8 == u8::MAX => "raised in both bytes",
        (_, false) => "raised",
    }
}

/// Which rule refused a rewrite, and whether an index past the count was refused with it.
fn note_refusal(bytes: &[u8], index: u64, slot: &[u64], seen: &mut Seen) {
    let Ok(layout) = Layout::parse(bytes) else {
        if index > MOST_SLOTS as u64 {
            seen.rewrite_order.met("bad layout");
        }
        return;
    };
    let allowed = |slot| reference::layout::check_slot(slot, layout.holes_allowed);
    if let Err(rule) = interface::slot_of_numbers(slot).and_then(allowed) {
        seen.rewrite_rules.met(rule);
        if index >= layout.slots.len() as u64 {
            seen.rewrite_order.met("bad slot");
        }
    }
}

/// The slot that is there, one that differs from it in one number, or any.
fn random_rewrite(layout: &Layout, index: u64, random: &mut Random) -> Vec<u64> {
    let at = usize::try_from(index).expect("64 bits");
    match (layout.slots.get(at), random.below(4)) {
        (Some(&slot), 0) => interface::numbers_of_slot(slot).to_vec(),
        (Some(&Some(stripe)), 1) => {
            interface::numbers_of_slot(Some(neighbour(stripe, random))).to_vec()
        }
        _ => random_slot_numbers(layout.holes_allowed, random),
    }
}

/// A stripe with one bit turned in one of its numbers.
fn neighbour(mut stripe: Stripe, random: &mut Random) -> Stripe {
    match random.below(4) {
        0 => stripe.object.sequence ^= 1 << random.below(64),
        1 => stripe.object.id ^= 1 << random.below(32),
        2 => stripe.generation ^= 1 << random.below(32),
        _ => stripe.ost ^= 1 << random.below(16),
    }
    stripe
}
