//! Stripe sizes, on the reference alone: which are refused, in each function that reads, writes or
//! checks a layout, and what the refusal comes before.

use reference::answer::{BAD_LAYOUT, DONE, NO_POSITION, NO_ROOM, STEPS_USED};
use reference::fid::Fid;
use reference::interface::{
    check, class, classes, keeper, layout_read, layout_slot, layout_write, numbers_of_slot, run,
    slot_rewrite, start, steps,
};
use reference::layout::{Layout, Stripe, Version};
use reference::tables::{Claim, OBJECT_BYTES, Object, Owner, PARENT_BYTES, Parent};

const P: Fid = Fid::new(0x2_0000_0401, 1);
const A: Fid = Fid::new(0x2_4000_0400, 0x10);
const OWNER: Owner = Owner { uid: 500, gid: 600 };
const END: [u64; 3] = [3, 0, 0];

/// Stripe sizes, and the answer where nothing else is wrong.
const SIZES: [(u32, u32); 8] = [
    (0, BAD_LAYOUT),
    (1, BAD_LAYOUT),
    (65_535, BAD_LAYOUT),
    (65_536, DONE),
    (65_537, BAD_LAYOUT),
    (131_072, DONE),
    (4_294_901_760, DONE),
    (4_294_967_295, BAD_LAYOUT),
];

/// Layouts of each size, of both versions, with no slots and with one, and the answer to them.
fn layouts() -> impl Iterator<Item = (Layout, u32)> {
    let stripe = Stripe {
        object: A,
        generation: 0,
        ost: 3,
    };
    SIZES.into_iter().flat_map(move |(stripe_size, answer)| {
        let shapes = [(Version::One, 0), (Version::One, 1)];
        let pooled = [0, 1].map(|count| (Version::Three([7; 16]), count));
        shapes
            .into_iter()
            .chain(pooled)
            .map(move |(version, count)| {
                let layout = Layout {
                    version,
                    holes_allowed: false,
                    own_id: P.id.into(),
                    own_sequence: P.sequence,
                    stripe_size,
                    generation: 0,
                    slots: vec![Some(stripe); count],
                };
                (layout, answer)
            })
    })
}

/// The answer of the stripe size, or this one where it is good.
fn or_else(answer: u32, good: u32) -> u32 {
    if answer == DONE { good } else { answer }
}

#[test]
fn readers_refuse_before_16_and_17() {
    for (layout, answer) in layouts() {
        let bytes = layout.encode();
        let (mut fields, mut slot) = ([9; 8], [9; 5]);
        assert_eq!(layout_read(&bytes, &mut []), or_else(answer, NO_ROOM));
        let past = layout_slot(&bytes, 1, &mut slot);
        assert_eq!(past, or_else(answer, NO_POSITION));
        assert_eq!(slot, [9; 5]);
        assert_eq!(layout_read(&bytes, &mut fields), answer);
        assert_eq!(fields == [9; 8], answer != DONE);
        if !layout.slots.is_empty() {
            assert_eq!(layout_slot(&bytes, 0, &mut []), or_else(answer, NO_ROOM));
            assert_eq!(layout_slot(&bytes, 0, &mut slot), answer);
            assert_eq!(slot == [9; 5], answer != DONE);
        }
    }
}

#[test]
fn the_writer_refuses_before_17() {
    for (layout, answer) in layouts() {
        let (version, pool) = match &layout.version {
            Version::One => (1, &[][..]),
            Version::Three(pool) => (3, &pool[..]),
        };
        let fields = [
            version,
            1,
            layout.own_id,
            layout.own_sequence,
            layout.stripe_size.into(),
            layout.slots.len() as u64,
            0,
        ];
        let slots: Vec<u64> = layout
            .slots
            .iter()
            .copied()
            .flat_map(numbers_of_slot)
            .collect();
        let bytes = layout.encode();
        let (mut to, mut length) = (vec![9; bytes.len()], [9]);
        let short = &mut to[1..];
        let refused = layout_write(&fields, pool, &slots, short, &mut length);
        assert_eq!(refused, or_else(answer, NO_ROOM));
        let written = layout_write(&fields, pool, &slots, &mut to, &mut length);
        assert_eq!(written, answer);
        let is_written = (to == bytes, length == [bytes.len() as u64]);
        assert_eq!(is_written, (answer == DONE, answer == DONE));
    }
}

#[test]
fn the_rewrite_refuses_before_16() {
    for (layout, answer) in layouts() {
        let mut bytes = layout.encode();
        let other = [1, A.sequence, 0x11, 0, 3];
        let past = slot_rewrite(&mut bytes, 1, &other);
        assert_eq!(past, or_else(answer, NO_POSITION));
        assert_eq!(bytes, layout.encode());
        if let [slot] = layout.slots[..] {
            let equal = slot_rewrite(&mut bytes, 0, &numbers_of_slot(slot));
            assert_eq!(equal, answer);
            assert_eq!(bytes, layout.encode());
            assert_eq!(slot_rewrite(&mut bytes, 0, &other), answer);
            assert_eq!(bytes == layout.encode(), answer != DONE);
        }
    }
}

/// P in a row with this mark, and A, which claims a slot of it.
fn tables(layout: &Layout, used: bool) -> (Vec<u8>, Vec<u8>) {
    let (mut parents, mut objects) = (vec![0; PARENT_BYTES], vec![0; OBJECT_BYTES]);
    let parent = Parent {
        fid: P,
        owner: OWNER,
        layout: layout.clone(),
    };
    let claim = Some(Claim {
        parent: P,
        index: 0,
    });
    let object = Object {
        fid: A,
        ost: 3,
        owner: OWNER,
        claim,
        fresh: false,
    };
    parent.write(&mut parents);
    parents[0] = used.into();
    object.write(&mut objects);
    (parents, objects)
}

#[test]
fn tables_are_refused_for_a_used_row_alone() {
    for (layout, answer) in layouts() {
        for used in [true, false] {
            let answer = if used { answer } else { DONE };
            let (parents, objects) = tables(&layout, used);
            let (parents, objects) = (&parents[..], &objects[..]);
            let no_position = or_else(answer, NO_POSITION);
            assert_eq!(check(parents, objects, &[], 0, END), answer);
            assert_eq!(check(parents, objects, &[], 0, [0; 3]), no_position);
            assert_eq!(check(parents, objects, &[], 4, END), 12);
            assert_eq!(start(parents, objects, &mut [0; 3]), answer);
            assert_eq!(steps(parents, objects, &mut [0]), answer);
            assert_eq!(class(parents, objects, [1, 0, 0], &mut [0; 4]), answer);
            assert_eq!(class(parents, objects, END, &mut [0; 4]), no_position);
            let listed = classes(parents, objects, &mut [1, 0, 0], &mut [0; 4], &mut [0]);
            assert_eq!(listed, answer);
            let kept = keeper(parents, objects, A.sequence, A.id.into(), &mut [0; 4]);
            assert_eq!(kept, answer);
        }
    }
}

#[test]
fn runs_are_refused_for_a_used_row_alone() {
    for (layout, answer) in layouts() {
        for (used, most) in [(true, 0), (true, 9), (false, 0), (false, 9)] {
            let answer = if used { answer } else { DONE };
            let (mut parents, mut objects) = tables(&layout, used);
            let before = (parents.clone(), objects.clone());
            let (mut position, mut report) = ([1, 0, 0], [99; 10]);
            let lent = (&mut position, &mut report);
            let ran = run(&mut parents, &mut objects, &[], 2, most, lent.0, lent.1);
            let done = if most == 0 { STEPS_USED } else { DONE };
            assert_eq!(ran, or_else(answer, done));
            if answer == BAD_LAYOUT {
                assert!((parents, objects) == before);
                assert_eq!((position, report), ([1, 0, 0], [99; 10]));
            }
        }
    }
}

/// The file of an orphan is made with a stripe size of its own, whatever stood in its row.
#[test]
fn a_made_file_has_1048576() {
    for (layout, _) in layouts() {
        let (mut parents, mut objects) = tables(&layout, false);
        let mut position = [1, 0, 0];
        let mut report = [0; 10];
        let lent = (&mut position, &mut report);
        let ran = run(&mut parents, &mut objects, &[], 2, 9, lent.0, lent.1);
        assert_eq!((ran, position, report[8]), (DONE, END, 1));
        assert_eq!((parents[0], &parents[51..55]), (1, &[0, 0, 0x10, 0][..]));
        assert_eq!(check(&parents, &objects, &[], 2, END), DONE);
    }
}
