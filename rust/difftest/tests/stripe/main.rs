//! Stripe sizes at the bounds of their rule, in every function that reads, writes or checks a
//! layout: with no slots, few and as many as there may be, of both versions.

mod intake;
mod layouts;
mod seen;
mod tables;

use std::hint::black_box;

use difftest::Random;
use numbers::layout::{MOST_SLOTS, POOL_BYTES};
use reference::fid::Fid;
use reference::layout::{Layout, Stripe, Version};

/// Stripe sizes, and whether they are good.
const SIZES: [(u32, bool); 8] = [
    (0, false),
    (1, false),
    (65_535, false),
    (65_536, true),
    (65_537, false),
    (131_072, true),
    (4_294_901_760, true),
    (4_294_967_295, false),
];

/// How many slots the layouts have.
const COUNTS: [usize; 4] = [0, 1, 3, MOST_SLOTS];

/// Makes the same call on both sides.
macro_rules! both {
    ($lent:expr, |$case:ident| $call:ident($($argument:expr),* $(,)?)) => {
        crate::compare(
            &$lent,
            |$case| lfsck_sys::$call($($argument),*),
            |$case| reference::interface::$call($($argument),*),
        )
    };
}
use both;

/// Lends the same to both sides, and compares the answers and all that was lent. Gives the answer
/// and what was lent, as it is after the call. With 11 to 17 it is as it was before.
fn compare<Lent: Clone + PartialEq>(
    lent: &Lent,
    library: impl FnOnce(&mut Lent) -> u32,
    reference: impl FnOnce(&mut Lent) -> u32,
) -> (u32, Lent) {
    let (mut ours, mut theirs) = (lent.clone(), lent.clone());
    let answer = library(black_box(&mut theirs));
    let expected = reference(&mut ours);
    assert_eq!(answer, expected);
    assert!(black_box(&theirs) == &ours, "{answer}, and another content");
    if (11..=17).contains(&answer) {
        assert!(&theirs == lent, "{answer}, and changed");
    }
    (answer, theirs)
}

/// A layout of every size, version and number of slots.
fn all_layouts(random: &mut Random) -> Vec<Layout> {
    let mut layouts = Vec::new();
    for (size, _) in SIZES {
        let pool = random.bytes(POOL_BYTES).try_into().expect("a pool name");
        for version in [Version::One, Version::Three(pool)] {
            layouts.extend(COUNTS.map(|count| layout_of(size, version, count)));
        }
    }
    layouts
}

/// A layout of [`FILE`] with these; where it has several slots, slot 1 is a hole.
fn layout_of(stripe_size: u32, version: Version, count: usize) -> Layout {
    let slot = |index| {
        (index != 1).then_some(Stripe {
            object: Fid::new(OBJECTS, 1 + index as u32),
            generation: 0,
            ost: 3,
        })
    };
    Layout {
        version,
        holes_allowed: count > 1,
        own_id: FILE.id.into(),
        own_sequence: FILE.sequence,
        stripe_size,
        generation: 7,
        slots: (0..count).map(slot).collect(),
    }
}

/// The file of the layouts.
const FILE: Fid = Fid::new(0x2_0000_0401, 1);
/// The sequence of the objects that slots name.
const OBJECTS: u64 = 0x2_4000_0400;
