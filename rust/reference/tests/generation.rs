//! Layout generations, on the reference alone: which steps raise one, which leave it, and what the
//! slot rewrite does.

use reference::answer::{BAD_LAYOUT, DONE, NO_POSITION};
use reference::fid::Fid;
use reference::interface::{numbers_of_slot, slot_rewrite};
use reference::layout::{Layout, SLOT_BYTES, Stripe, Version};
use reference::position::Position;
use reference::run::{self, COUNTED};
use reference::site::Site;
use reference::step::Policy;
use reference::tables::{Claim, Object, Owner, Parent, Tables};

const P: Fid = Fid::new(0x2_0000_0401, 1);
const Q: Fid = Fid::new(0x2_0000_0401, 2);
const A: Fid = Fid::new(0x2_4000_0400, 0x10);
const B: Fid = Fid::new(0x2_4000_0400, 0x11);
const C: Fid = Fid::new(0x2_4000_0400, 0x12);
const N: Fid = Fid::new(0x2_4000_0400, 0x20);

const OWNER: Owner = Owner { uid: 500, gid: 600 };
const ROOT: Owner = Owner { uid: 0, gid: 0 };

const CREATE: u64 = 1;
const ADOPT: u64 = 2;

// Places among the counts.
const SELF: usize = 0;
const MULTIPLE: usize = 1;
const DANGLING: usize = 2;
const BLANK: usize = 3;
const UNMATCHED: usize = 4;
const OWNER_DIFFERS: usize = 5;
const EMPTY: usize = 6;
const ORPHAN: usize = 7;
const WRONG_OST: usize = 8;

/// The generation of a layout before a run, and one higher.
const BEFORE: u16 = 9;
const RAISED: u16 = 10;

/// A slot that names an object on OST 3.
fn naming(object: Fid) -> Option<Stripe> {
    Some(Stripe {
        object,
        generation: 7,
        ost: 3,
    })
}

/// A file whose slots may be holes.
fn file(fid: Fid, slots: &[Option<Stripe>]) -> Parent {
    Parent {
        fid,
        owner: OWNER,
        layout: Layout {
            version: Version::Three(*b"a pool of sixtee"),
            holes_allowed: true,
            own_id: fid.id.into(),
            own_sequence: fid.sequence,
            stripe_size: 1_048_576,
            generation: BEFORE,
            slots: slots.to_vec(),
        },
    }
}

/// An object on OST 3 that may hold data.
fn object(fid: Fid, parent: Fid, index: u32) -> Object {
    Object {
        fid,
        ost: 3,
        owner: OWNER,
        claim: Some(Claim { parent, index }),
        fresh: false,
    }
}

/// Runs from the start to the end, and counts the repairs.
fn repairs_of(site: &mut Site, policy: u64) -> [u64; COUNTED] {
    let start = Position::start(site.tables());
    let outcome = run::run(site, Policy::of_number(policy), &[N], start, u64::MAX);
    assert_eq!((outcome.answer, outcome.position), (DONE, Position::End));
    outcome.repairs
}

/// A run over these files and objects, and an unused row after each, makes these repairs and leaves
/// the files with these generations. A second run changes nothing.
#[track_caller]
fn expect(
    files: &[Parent],
    objects: &[Object],
    policy: u64,
    repaired: &[usize],
    generations: &[u16],
) {
    let mut site = Site::new(Tables {
        parents: files.iter().cloned().map(Some).chain([None]).collect(),
        objects: objects.iter().copied().map(Some).chain([None]).collect(),
    });
    let mut repairs = [0; COUNTED];
    repaired.iter().for_each(|&class| repairs[class] += 1);
    assert_eq!(repairs_of(&mut site, policy), repairs);
    let after = site.tables().clone();
    let used = after.parents.iter().flatten();
    let found: Vec<u16> = used.map(|file| file.layout.generation).collect();
    assert_eq!(found, generations);
    assert_eq!(repairs_of(&mut site, policy), [0; COUNTED]);
    assert_eq!(site.tables(), &after);
}

#[test]
fn a_redirect_raises_the_redirected_file_s_alone() {
    let files = [file(P, &[naming(A)]), file(Q, &[naming(A)])];
    let objects = [object(A, P, 0)];
    expect(&files, &objects, CREATE, &[MULTIPLE], &[BEFORE, RAISED]);
}

#[test]
fn a_filled_hole_a_grown_layout_and_a_taken_place_raise_once() {
    let orphan = object(C, P, 2);
    let hole = [file(P, &[None, None, None])];
    expect(&hole, &[orphan], ADOPT, &[ORPHAN], &[RAISED]);
    let short = [file(P, &[])];
    expect(&short, &[orphan], ADOPT, &[ORPHAN], &[RAISED]);
    let fresh = Object {
        fresh: true,
        ..object(A, P, 2)
    };
    let taken = [file(P, &[None, None, naming(A)])];
    expect(&taken, &[orphan, fresh], ADOPT, &[ORPHAN], &[RAISED]);
}

#[test]
fn a_mended_index_raises() {
    let files = [file(P, &[naming(A)])];
    for owner in [OWNER, ROOT] {
        let right = object(A, P, 0);
        let wrong = Object {
            ost: 5,
            owner,
            ..right
        };
        expect(&files, &[wrong], 0, &[WRONG_OST], &[RAISED]);
    }
}

#[test]
fn blank_and_unmatched_raise_where_the_index_differs() {
    let files = [file(P, &[naming(A)])];
    for (ost, generation) in [(3, BEFORE), (5, RAISED)] {
        let unmatched = Object {
            ost,
            ..object(A, Q, 4)
        };
        expect(&files, &[unmatched], 0, &[UNMATCHED], &[generation]);
        let blank = Object {
            claim: None,
            ..unmatched
        };
        expect(&files, &[blank], 0, &[BLANK], &[generation]);
    }
}

#[test]
fn self_dangling_owner_and_empty_leave_it() {
    let sound = file(P, &[naming(A)]);
    let mut other_own = sound.clone();
    other_own.layout.own_id = 2;
    expect(&[other_own], &[object(A, P, 0)], 0, &[SELF], &[BEFORE]);
    let files = [sound];
    expect(&files, &[], CREATE, &[DANGLING], &[BEFORE]);
    let of_root = Object {
        owner: ROOT,
        ..object(A, P, 0)
    };
    expect(&files, &[of_root], 0, &[OWNER_DIFFERS], &[BEFORE]);
    let empty = Object {
        fresh: true,
        ..object(C, P, 1)
    };
    let objects = [object(A, P, 0), empty];
    expect(&files, &objects, ADOPT, &[EMPTY], &[BEFORE]);
}

/// P's own id is mended, its first slot's index too, its second slot is redirected, its third gets
/// an object and then another one.
#[test]
fn every_step_that_changes_a_slot_counts() {
    let mut parent = file(P, &[naming(A), naming(A), naming(B)]);
    parent.layout.own_sequence = 0;
    let objects = [
        Object {
            ost: 5,
            ..object(A, P, 0)
        },
        object(C, P, 2),
    ];
    let mut tables = Tables {
        parents: vec![Some(parent)],
        objects: objects.map(Some).to_vec(),
    };
    tables.objects.resize(4, None);
    let mut site = Site::new(tables);
    let repairs = repairs_of(&mut site, CREATE | ADOPT);
    assert_eq!(repairs, [1, 1, 1, 0, 0, 0, 0, 1, 1]);
    let after = site.parent(0).expect("P");
    assert_eq!(after.layout.generation, BEFORE + 3);
}

#[test]
fn the_last_generation_goes_to_0() {
    let mut last = file(P, &[naming(A)]);
    last.layout.generation = 65_535;
    let wrong = Object {
        ost: 5,
        ..object(A, P, 0)
    };
    let files = [last];
    expect(&files, &[wrong], 0, &[WRONG_OST], &[0]);
    let objects = [object(A, P, 0), object(C, P, 1)];
    expect(&files, &objects, ADOPT, &[ORPHAN], &[0]);
}

/// The first object makes P; the others fill a hole of it and let it grow.
#[test]
fn a_made_file_has_0_and_later_steps_raise_it() {
    let objects = [object(A, P, 1), object(B, P, 0), object(C, P, 3)];
    for (count, generation) in [(1, 0), (2, 1), (3, 2)] {
        let orphans = &objects[..count];
        expect(&[], orphans, ADOPT, &vec![ORPHAN; count], &[generation]);
    }
    let grown = [object(A, P, 1), object(C, P, 3)];
    expect(&[], &grown, ADOPT, &[ORPHAN; 2], &[1]);
}

/// The layout of P with a named slot and a hole, and of this generation.
fn layout(generation: u16) -> Layout {
    let mut layout = file(P, &[naming(A), None]).layout;
    layout.generation = generation;
    layout
}

/// The answer of a rewrite of this layout, and the bytes after it.
fn rewritten(layout: &Layout, index: u64, slot: &[u64]) -> (u32, Vec<u8>) {
    let mut bytes = layout.encode();
    let answer = slot_rewrite(&mut bytes, index, slot);
    (answer, bytes)
}

#[test]
fn an_equal_slot_changes_no_byte() {
    for generation in [0, 255, 65_535] {
        let layout = layout(generation);
        let unchanged = (DONE, layout.encode());
        let named = numbers_of_slot(naming(A));
        assert_eq!(rewritten(&layout, 0, &named), unchanged);
        assert_eq!(rewritten(&layout, 1, &numbers_of_slot(None)), unchanged);
    }
}

/// Slots for the layout, each with its place: another in one number, a hole, and one for the hole.
fn other_slots() -> [(usize, Option<Stripe>); 6] {
    let with = |edit: fn(&mut Stripe)| {
        let mut slot = naming(A);
        slot.iter_mut().for_each(edit);
        slot
    };
    [
        (0, with(|stripe| stripe.object.sequence += 1)),
        (0, with(|stripe| stripe.object.id += 1)),
        (0, with(|stripe| stripe.generation += 1)),
        (0, with(|stripe| stripe.ost += 1)),
        (0, None),
        (1, naming(A)),
    ]
}

/// A rewrite of a layout of this generation leaves these bytes for it.
fn expect_generation(generation: u16, raised: [u8; 2]) {
    let before = layout(generation);
    for (index, slot) in other_slots() {
        let (answer, bytes) = rewritten(&before, index as u64, &numbers_of_slot(slot));
        let start = before.version.header_bytes() + SLOT_BYTES * index;
        let changed = start..start + SLOT_BYTES;
        let mut expected = before.encode();
        expected[30..32].copy_from_slice(&raised);
        expected[changed.clone()].copy_from_slice(&bytes[changed]);
        assert_eq!((answer, &bytes), (DONE, &expected));
        let after = Layout::parse(&bytes).expect("a layout");
        assert_eq!(after.slots[index], slot);
    }
}

#[test]
fn another_slot_changes_its_24_bytes_and_the_generation() {
    expect_generation(0, [1, 0]);
    expect_generation(255, [0, 1]);
    expect_generation(65_535, [0, 0]);
}

#[test]
fn a_refused_rewrite_leaves_the_generation() {
    let layout = layout(65_535);
    let other = numbers_of_slot(naming(B));
    assert_eq!(
        rewritten(&layout, 2, &other),
        (NO_POSITION, layout.encode())
    );
    let mut bad = other;
    bad[4] = 65_536;
    assert_eq!(rewritten(&layout, 0, &bad), (BAD_LAYOUT, layout.encode()));
    let mut plain = layout;
    plain.holes_allowed = false;
    plain.slots[1] = naming(B);
    let hole = numbers_of_slot(None);
    assert_eq!(rewritten(&plain, 0, &hole), (BAD_LAYOUT, plain.encode()));
}
