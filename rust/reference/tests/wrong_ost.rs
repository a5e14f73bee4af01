//! A stripe on the wrong OST, on the reference alone: the class, its place in the order, its
//! repair, and the index that repairs of BLANK and UNMATCHED mend, each with the generation.

use reference::answer::{DONE, NO_ROOM};
use reference::fid::Fid;
use reference::interface;
use reference::layout::{Layout, Stripe, Version};
use reference::tables::{Claim, OBJECT_BYTES, Object, Owner, PARENT_BYTES, Parent};

const P: Fid = Fid::new(0x2_0000_0401, 1);
const Q: Fid = Fid::new(0x2_0000_0401, 2);
const A: Fid = Fid::new(0x2_4000_0400, 0x10);
const B: Fid = Fid::new(0x2_4000_0400, 0x11);
const N: Fid = Fid::new(0x2_4000_0400, 0x20);

const OWNER: Owner = Owner { uid: 500, gid: 600 };
const ROOT: Owner = Owner { uid: 0, gid: 0 };

// Class numbers.
const CLEAN: u64 = 0;
const MULTIPLE: u64 = 3;
const BLANK: u64 = 5;
const UNMATCHED: u64 = 6;
const OWNER_DIFFERS: u64 = 7;
const WRONG_OST: u64 = 14;

// Places in the report.
const REPORT_MULTIPLE: usize = 2;
const REPORT_BLANK: usize = 4;
const REPORT_UNMATCHED: usize = 5;
const REPORT_OWNER: usize = 6;
const REPORT_WRONG_OST: usize = 9;

/// The generation of a layout before a run.
const GENERATION: u16 = 9;
/// The OST that P's slot names before a run.
const NAMED_OST: u32 = 3;

/// Both tables as bytes.
#[derive(Clone, Debug, PartialEq)]
struct Tables {
    parents: Vec<u8>,
    objects: Vec<u8>,
}

/// A slot of generation 7.
fn on(object: Fid, ost: u32) -> Stripe {
    Stripe {
        object,
        generation: 7,
        ost,
    }
}

/// A file with one slot, in a row of other bytes.
fn file(fid: Fid, stripe: Stripe) -> Vec<u8> {
    file_of(GENERATION, fid, stripe)
}

/// The file after one step that changed its slot.
fn changed(fid: Fid, stripe: Stripe) -> Vec<u8> {
    file_of(GENERATION + 1, fid, stripe)
}

fn file_of(generation: u16, fid: Fid, stripe: Stripe) -> Vec<u8> {
    let parent = Parent {
        fid,
        owner: OWNER,
        layout: Layout {
            version: Version::One,
            holes_allowed: false,
            own_id: fid.id.into(),
            own_sequence: fid.sequence,
            stripe_size: 1_048_576,
            generation,
            slots: vec![Some(stripe)],
        },
    };
    let mut row = vec![0xee; PARENT_BYTES];
    parent.write(&mut row);
    row
}

/// An object that may hold data.
fn object(fid: Fid, ost: u32, owner: Owner, claim: Option<(Fid, u32)>) -> Vec<u8> {
    let object = Object {
        fid,
        ost,
        owner,
        claim: claim.map(|(parent, index)| Claim { parent, index }),
        fresh: false,
    };
    let mut row = vec![0; OBJECT_BYTES];
    object.write(&mut row);
    row
}

/// P with A, which is on this OST.
fn one(ost: u32, owner: Owner, claim: Option<(Fid, u32)>) -> Tables {
    Tables {
        parents: file(P, on(A, NAMED_OST)),
        objects: object(A, ost, owner, claim),
    }
}

impl Tables {
    fn class(&self, row: u64) -> [u64; 4] {
        let mut out = [9; 4];
        let answer = interface::class(&self.parents, &self.objects, [1, row, 1], &mut out);
        assert_eq!(answer, DONE);
        out
    }

    /// A run from the start, which gets to the end.
    fn run(&mut self, policy: u64) -> [u64; 10] {
        let (mut position, mut report) = ([1, 0, 0], [99; 10]);
        let answer = interface::run(
            &mut self.parents,
            &mut self.objects,
            &N.to_bytes(),
            policy,
            u64::MAX,
            &mut position,
            &mut report,
        );
        assert_eq!((answer, position), (DONE, [3, 0, 0]));
        report
    }

    /// Under every policy a run leaves these tables with one repair, and a second run none.
    fn expect_mended(&self, count: usize, after: &Tables) {
        for policy in 0..4 {
            let mut tables = self.clone();
            let mut report = [0; 10];
            report[0] = tables.run(policy)[0];
            assert_eq!(&tables, after, "policy {policy}");
            assert_eq!(tables.class(0), [CLEAN, 0, 0, 0]);
            assert_eq!(tables.run(policy), report, "policy {policy}");
            report[count] = 1;
            assert_eq!(self.clone().run(policy), report, "policy {policy}");
        }
    }
}

/// P with A on the OST that the slot names, after the repair of [`one`]: the generation is raised
/// where that OST was another.
fn mended(ost: u32) -> Tables {
    let mended_file = if ost == NAMED_OST { file } else { changed };
    Tables {
        parents: mended_file(P, on(A, ost)),
        objects: object(A, ost, OWNER, Some((P, 0))),
    }
}

#[test]
fn the_object_s_index_is_written_in_the_slot() {
    let tables = one(5, OWNER, Some((P, 0)));
    assert_eq!(tables.class(0), [WRONG_OST, 0, 0, 0]);
    tables.expect_mended(REPORT_WRONG_OST, &mended(5));
    assert_eq!(mended(5).objects, tables.objects);
}

#[test]
fn it_comes_before_owner_and_mends_the_owner_too() {
    let tables = one(5, ROOT, Some((P, 0)));
    assert_eq!(tables.class(0), [WRONG_OST, 0, 0, 0]);
    tables.expect_mended(REPORT_WRONG_OST, &mended(5));
}

#[test]
fn owner_is_of_an_object_on_the_slot_s_ost() {
    let tables = one(3, ROOT, Some((P, 0)));
    assert_eq!(tables.class(0), [OWNER_DIFFERS, 0, 0, 0]);
    tables.expect_mended(REPORT_OWNER, &mended(3));
    assert_eq!(mended(3).parents, tables.parents);
}

#[test]
fn blank_and_unmatched_come_before_it_and_mend_the_index() {
    for ost in [3, 5] {
        for owner in [OWNER, ROOT] {
            let tables = one(ost, owner, None);
            assert_eq!(tables.class(0), [BLANK, 0, 0, 0]);
            tables.expect_mended(REPORT_BLANK, &mended(ost));
            let tables = one(ost, owner, Some((Q, 4)));
            assert_eq!(tables.class(0), [UNMATCHED, Q.sequence, Q.id.into(), 4]);
            tables.expect_mended(REPORT_UNMATCHED, &mended(ost));
        }
    }
}

/// Q names P's object too, on an OST where it isn't: Q's slot gets an object on that OST.
#[test]
fn multiple_comes_before_it_and_keeps_the_index() {
    let mut tables = Tables {
        parents: [file(P, on(A, 3)), file(Q, on(A, 4))].concat(),
        objects: [object(A, 3, OWNER, Some((P, 0))), vec![0; OBJECT_BYTES]].concat(),
    };
    assert_eq!(tables.class(1), [MULTIPLE, 0, 0, 0]);
    assert_eq!(tables.clone().run(0)[1..], [0; 9]);
    let report = tables.run(1);
    assert_eq!((report[REPORT_MULTIPLE], report[REPORT_WRONG_OST]), (1, 0));
    let redirected = Stripe {
        generation: 0,
        ..on(N, 4)
    };
    assert_eq!(tables.parents[..PARENT_BYTES], file(P, on(A, 3)));
    assert_eq!(tables.parents[PARENT_BYTES..], changed(Q, redirected));
}

#[test]
fn two_osts_under_exchanged_indices() {
    let objects = [
        object(A, 4, OWNER, Some((P, 0))),
        object(B, 3, OWNER, Some((Q, 0))),
    ];
    let mut tables = Tables {
        parents: [file(P, on(A, 3)), file(Q, on(B, 4))].concat(),
        objects: objects.concat(),
    };
    assert_eq!([tables.class(0)[0], tables.class(1)[0]], [WRONG_OST; 2]);
    assert_eq!(tables.run(0), [6, 0, 0, 0, 0, 0, 0, 0, 0, 2]);
    assert_eq!(
        tables.parents,
        [changed(P, on(A, 4)), changed(Q, on(B, 3))].concat()
    );
    assert_eq!(tables.objects, objects.concat());
}

#[test]
fn a_report_of_nine_places_is_too_short() {
    let tables = one(5, OWNER, Some((P, 0)));
    let (mut lent, mut position, mut report) = (tables.clone(), [1, 0, 0], [99; 9]);
    let answer = interface::run(
        &mut lent.parents,
        &mut lent.objects,
        &[],
        0,
        9,
        &mut position,
        &mut report,
    );
    assert_eq!(answer, NO_ROOM);
    assert_eq!((lent, position, report), (tables, [1, 0, 0], [99; 9]));
}
