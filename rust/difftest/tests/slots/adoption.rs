//! Adoption up to the last slot that a layout can have, byte for byte.

use difftest::tables::Lent;
use difftest::{Coverage, Random};
use numbers::call::{ADOPT, END};
use numbers::layout::{MOST_BYTES, MOST_SLOTS, SLOT_BYTES};
use numbers::parent::LENGTH_AT;
use reference::class::Class;
use reference::layout::{Layout, Version};
use reference::tables::{LAYOUT_AT, OBJECT_BYTES, PARENT_BYTES};

use crate::{file, object, sides, stripe};

/// The orphan's number.
const ORPHAN: u32 = 1_000_000;

/// Two rows, the second unused and both full of other bytes, with a file of so many slots, the first
/// of which names an object that is not there; and an orphan that claims an index of it.
fn growing(version: Version, slots: usize, index: u32) -> Lent {
    let mut random = Random::new(slots as u64 + 1);
    let mut parents = random.bytes(2 * PARENT_BYTES);
    parents[PARENT_BYTES] = 0;
    let mut named = vec![None; slots];
    named.iter_mut().take(1).for_each(|slot| *slot = stripe(1));
    file(0, version, named).write(&mut parents);
    let mut objects = vec![0; OBJECT_BYTES];
    object(ORPHAN, Some((0, index))).write(&mut objects);
    Lent::new(parents, objects)
}

/// The layout in the first row, by the length that stands there.
fn layout(parents: &[u8]) -> &[u8] {
    let length = u16::from_le_bytes([parents[LENGTH_AT], parents[LENGTH_AT + 1]]);
    &parents[LAYOUT_AT..][..length.into()]
}

/// A layout grows to a last slot, with holes between; in version 3 and with 2,000 slots it fills the
/// room, and nothing past it changes.
#[test]
fn layouts_grow_to_the_last_slot() {
    let counts = [0, 1, 159, 160, 161, 1_998, 1_999];
    let to = [160, 161, 162, 1_999, 2_000];
    let pairs = counts.map(|from| to.map(move |to| (from, to)));
    let pairs = pairs.into_iter().flatten().filter(|(from, to)| from < to);
    let mut lengths = Coverage::of("lengths of grown layouts at the bound", [48_032, 48_048]);
    for (from, to) in pairs {
        for version in [Version::One, Version::Three([9; 16])] {
            let lent = growing(version, from, to as u32 - 1);
            assert_eq!(sides::class(&lent, [2, 0, 0])[0], Class::Orphan.number());
            let ran = sides::run(&lent, ADOPT, [2, 0, 0], u64::MAX);
            assert_eq!((ran.answer, ran.position, ran.report[8]), (0, END, 1));
            let mut expected = Layout::parse(layout(&lent.parents)).expect("a layout");
            expected.slots.resize(to - 1, None);
            expected.slots.push(stripe(ORPHAN));
            expected.generation = 1;
            assert_eq!(layout(&ran.parents), expected.encode());
            let end = LAYOUT_AT + version.header_bytes() + SLOT_BYTES * to;
            assert!(ran.parents[end..] == lent.parents[end..], "past the layout");
            if to == MOST_SLOTS {
                lengths.met(layout(&ran.parents).len());
            }
            assert!(end <= PARENT_BYTES);
        }
    }
    lengths.require(5);
}

/// The first index that no layout has, and those after it.
#[test]
fn no_layout_grows_past_the_last_slot() {
    for slots in [0, 1, 160, 1_999, 2_000] {
        for version in [Version::One, Version::Three([9; 16])] {
            for index in [2_000, 2_001, 65_535, 65_536, u32::MAX] {
                let lent = growing(version, slots, index);
                let class = sides::class(&lent, [2, 0, 0])[0];
                assert_eq!(class, Class::Conflict.number());
                let ran = sides::run(&lent, ADOPT, [2, 0, 0], u64::MAX);
                assert_eq!((ran.answer, ran.report[8]), (0, 0));
                assert!(ran.parents == lent.parents && ran.objects == lent.objects);
            }
        }
    }
}

/// In a used row that its layout fills: it is read, its last slot is rewritten, and what is written
/// from its numbers is the same.
#[test]
fn a_layout_that_fills_its_row() {
    let lent = growing(Version::Three([9; 16]), MOST_SLOTS, 0);
    let bytes = layout(&lent.parents);
    assert_eq!(
        (bytes.len(), LAYOUT_AT + bytes.len()),
        (MOST_BYTES, PARENT_BYTES)
    );
    let mut fields = [0; 8];
    assert_eq!(lfsck_sys::layout_read(bytes, &mut fields), 0);
    assert_eq!((fields[0], fields[5], fields[7]), (3, 2_000, 48));
    let mut slots = vec![0; 5 * MOST_SLOTS];
    for (index, slot) in slots.chunks_mut(5).enumerate() {
        assert_eq!(lfsck_sys::layout_slot(bytes, index as u64, slot), 0);
    }
    let (mut room, mut out) = (vec![0; PARENT_BYTES], [0]);
    let answer = lfsck_sys::layout_write(&fields[..7], &[9; 16], &slots, &mut room, &mut out);
    assert_eq!((answer, out), (0, [48_048]));
    assert_eq!(room[..MOST_BYTES], *bytes);
    assert!(room[MOST_BYTES..].iter().all(|&byte| byte == 0));

    let mut row = lent.parents.clone();
    let slot = [1, 0x2_4000_0400, 77, 5, 6];
    let place = &mut row[LAYOUT_AT..PARENT_BYTES];
    assert_eq!(lfsck_sys::slot_rewrite(place, 1_999, &slot), 0);
    assert_eq!(lfsck_sys::slot_rewrite(place, 2_000, &slot), 16);
    let mut expected = Layout::parse(bytes).expect("a layout");
    let mut last = stripe(77).expect("a stripe");
    (last.generation, last.ost) = (5, 6);
    expected.slots[1_999] = Some(last);
    expected.generation = 1;
    assert_eq!(layout(&row), expected.encode());
    assert!(row[PARENT_BYTES..] == lent.parents[PARENT_BYTES..]);
    assert!(row[..LAYOUT_AT] == lent.parents[..LAYOUT_AT]);
}
