//! The examples of the paper, on the reference alone.

use reference::answer::{DONE, NO_OBJECT_ROW, NO_RESERVE};
use reference::check::read_tables;
use reference::fid::Fid;
use reference::interface;
use reference::layout::{Layout, Stripe, Version};
use reference::tables::{Claim, OBJECT_BYTES, Object, Owner, PARENT_BYTES, Parent};

const P: Fid = Fid::new(0x2_0000_0401, 1);
const Q: Fid = Fid::new(0x2_0000_0401, 2);
const A: Fid = Fid::new(0x2_4000_0400, 0x10);
const B: Fid = Fid::new(0x2_4000_0400, 0x11);
const C: Fid = Fid::new(0x2_4000_0400, 0x12);
const N: Fid = Fid::new(0x2_4000_0400, 0x20);

// Class numbers.
const CLEAN: u64 = 0;
const MULTIPLE: u64 = 3;
const DANGLING: u64 = 4;
const UNMATCHED: u64 = 6;
const SPARE: u64 = 8;
const ORPHAN: u64 = 10;
const CONFLICT: u64 = 11;
const UNUSED: u64 = 13;

/// The tables of an example; unused rows are zero.
#[derive(Clone, Debug, Default, PartialEq)]
struct Tables {
    parents: Vec<u8>,
    objects: Vec<u8>,
}

impl Tables {
    /// A file whose slots name these objects.
    fn file(mut self, fid: Fid, objects: &[Fid]) -> Tables {
        let stripe = |&object| {
            Some(Stripe {
                object,
                generation: 0,
                ost: 3,
            })
        };
        let parent = Parent {
            fid,
            owner: OWNER,
            layout: Layout {
                version: Version::One,
                holes_allowed: false,
                own_id: fid.id.into(),
                own_sequence: fid.sequence,
                stripe_size: 1_048_576,
                generation: 0,
                slots: objects.iter().map(stripe).collect(),
            },
        };
        parent.write(self.new_parent_row());
        self
    }

    /// An object that may hold data.
    fn object(mut self, fid: Fid, claim: Option<(Fid, u32)>) -> Tables {
        let object = Object {
            fid,
            ost: 3,
            owner: OWNER,
            claim: claim.map(|(parent, index)| Claim { parent, index }),
            fresh: false,
        };
        object.write(self.new_object_row());
        self
    }

    fn unused_object(mut self) -> Tables {
        self.new_object_row();
        self
    }

    fn unused_parent(mut self) -> Tables {
        self.new_parent_row();
        self
    }

    fn new_parent_row(&mut self) -> &mut [u8] {
        let at = self.parents.len();
        self.parents.resize(at + PARENT_BYTES, 0);
        &mut self.parents[at..]
    }

    fn new_object_row(&mut self) -> &mut [u8] {
        let at = self.objects.len();
        self.objects.resize(at + OBJECT_BYTES, 0);
        &mut self.objects[at..]
    }

    /// A run from the start with as many steps as it likes.
    fn run(&mut self, policy: u64, reserve: &[Fid]) -> Run {
        let reserve: Vec<u8> = reserve.iter().flat_map(|fid| fid.to_bytes()).collect();
        let mut position = [0; 3];
        let answer = interface::start(&self.parents, &self.objects, &mut position);
        assert_eq!(answer, DONE);
        let mut report = [0; 10];
        let answer = interface::run(
            &mut self.parents,
            &mut self.objects,
            &reserve,
            policy,
            u64::MAX,
            &mut position,
            &mut report,
        );
        let [steps, repairs @ ..] = report;
        Run {
            answer,
            position,
            steps,
            repairs,
        }
    }

    /// The layout of a file.
    fn layout(&self, row: usize) -> Layout {
        let (mut tables, _) = read_tables(&self.parents, &self.objects);
        tables.parents.swap_remove(row).expect("a used row").layout
    }

    /// The objects that the slots of a file name.
    fn named(&self, row: usize) -> Vec<Option<Fid>> {
        let slots = self.layout(row).slots.into_iter();
        slots.map(|slot| slot.map(|stripe| stripe.object)).collect()
    }

    /// The object in a row.
    fn object_in(&self, row: usize) -> Option<Object> {
        read_tables(&self.parents, &self.objects).0.objects[row]
    }

    /// The four numbers of the class at a position.
    fn class(&self, stage: u64, row: u64, part: u64) -> [u64; 4] {
        let mut out = [0; 4];
        let answer = interface::class(&self.parents, &self.objects, [stage, row, part], &mut out);
        assert_eq!(answer, DONE);
        out
    }
}

/// What a run answered, where it stands, and what it counted.
#[derive(Debug, PartialEq)]
struct Run {
    answer: u32,
    position: [u64; 3],
    steps: u64,
    repairs: [u64; 9],
}

impl Run {
    /// A run that reached the end.
    fn to_end(steps: u64, repairs: [u64; 9]) -> Run {
        Run {
            answer: DONE,
            position: [3, 0, 0],
            steps,
            repairs,
        }
    }
}

/// Repairs of MULTIPLE, DANGLING and ORPHAN, none of the others.
fn repairs(multiple: u64, dangling: u64, orphan: u64) -> [u64; 9] {
    [0, multiple, dangling, 0, 0, 0, 0, orphan, 0]
}

/// A fresh object as a repair makes it for a slot.
fn fresh(fid: Fid, parent: Fid, index: u32) -> Option<Object> {
    Some(Object {
        fid,
        ost: 3,
        owner: OWNER,
        claim: Some(Claim { parent, index }),
        fresh: true,
    })
}

const OWNER: Owner = Owner { uid: 500, gid: 600 };

/// A class that carries nothing.
fn bare(class: u64) -> [u64; 4] {
    [class, 0, 0, 0]
}

#[test]
fn e1_without_rows_the_start_is_the_end() {
    let mut position = [9; 3];
    assert_eq!(interface::start(&[], &[], &mut position), DONE);
    assert_eq!(position, [3, 0, 0]);
    assert_eq!(interface::check(&[], &[], &[], 0, position), DONE);
    let mut steps = [9];
    assert_eq!(interface::steps(&[], &[], &mut steps), DONE);
    assert_eq!(steps, [0]);
    assert_eq!(Tables::default().run(3, &[N]), Run::to_end(0, [0; 9]));
}

/// P[A,B], Q[A]; A claims (Q,0), B claims (P,1).
fn tables_of_e4() -> Tables {
    Tables::default()
        .file(P, &[A, B])
        .file(Q, &[A])
        .object(A, Some((Q, 0)))
        .object(B, Some((P, 1)))
}

#[test]
fn e4_a_slot_that_is_not_the_keeper_is_redirected() {
    let mut tables = tables_of_e4().unused_object();
    assert_eq!(tables.class(1, 0, 1), bare(MULTIPLE));
    assert_eq!(tables.run(1, &[N]), Run::to_end(8, repairs(1, 0, 0)));
    assert_eq!(tables.named(0), [Some(N), Some(B)]);
    assert_eq!(tables.named(1), [Some(A)]);
    assert_eq!([0, 1].map(|row| tables.layout(row).generation), [1, 0]);
    assert_eq!(tables.object_in(2), fresh(N, P, 0));
}

#[test]
fn e5_without_an_unused_row_the_redirect_stops() {
    let mut tables = tables_of_e4();
    let before = tables.clone();
    let stopped = Run {
        answer: NO_OBJECT_ROW,
        position: [1, 0, 1],
        steps: 1,
        repairs: [0; 9],
    };
    assert_eq!(tables.run(1, &[N]), stopped);
    assert_eq!(tables, before);
}

#[test]
fn e6_without_reserve_it_stops_for_that() {
    let mut tables = tables_of_e4();
    let before = tables.clone();
    let stopped = Run {
        answer: NO_RESERVE,
        position: [1, 0, 1],
        steps: 1,
        repairs: [0; 9],
    };
    assert_eq!(tables.run(1, &[]), stopped);
    assert_eq!(tables, before);
}

#[test]
fn e7_an_absent_object_is_made_with_create_alone() {
    let mut tables = Tables::default().file(P, &[A]).unused_object();
    let before = tables.clone();
    assert_eq!(tables.class(1, 0, 0), bare(CLEAN));
    assert_eq!(tables.class(1, 0, 1), bare(DANGLING));
    assert_eq!(tables.class(2, 0, 0), bare(UNUSED));
    assert_eq!(tables.run(0, &[]), Run::to_end(3, [0; 9]));
    assert_eq!(tables, before);
    assert_eq!(tables.run(1, &[]), Run::to_end(3, repairs(0, 1, 0)));
    assert_eq!(tables.object_in(0), fresh(A, P, 0));
    assert_eq!(tables.parents, before.parents);
}

/// E8's rows in both orders of the object table, with C's row.
fn tables_of_e8() -> [(Tables, usize); 2] {
    let tables = Tables::default().file(P, &[A]);
    let claim = Some((P, 0));
    [
        (tables.clone().unused_object().object(C, claim), 1),
        (tables.object(C, claim).unused_object(), 0),
    ]
}

#[test]
fn e8_the_orphan_takes_the_fresh_object_s_slot() {
    for (mut tables, c) in tables_of_e8() {
        let before = tables.clone();
        assert_eq!(tables.run(3, &[]), Run::to_end(4, repairs(0, 1, 1)));
        assert_eq!(tables.named(0), [Some(C)]);
        assert_eq!(tables.layout(0).generation, 1);
        assert_eq!(tables.object_in(1 - c), None);
        assert_eq!(tables.objects, before.objects);
    }
}

#[test]
fn e9_without_create_the_orphan_is_in_conflict() {
    for (mut tables, c) in tables_of_e8() {
        let before = tables.clone();
        assert_eq!(tables.class(1, 0, 1), bare(DANGLING));
        assert_eq!(tables.class(2, c as u64, 0), bare(CONFLICT));
        assert_eq!(tables.run(2, &[]), Run::to_end(4, [0; 9]));
        assert_eq!(tables, before);
    }
}

#[test]
fn e10_an_absent_parent_is_made_up_to_index_1999() {
    let claiming = |index| {
        Tables::default()
            .unused_parent()
            .object(C, Some((P, index)))
    };
    for index in [159, 160, 1_999] {
        let mut tables = claiming(index);
        assert_eq!(tables.class(2, 0, 0), bare(ORPHAN));
        assert_eq!(tables.run(2, &[]), Run::to_end(2, repairs(0, 0, 1)));
        let slots = tables.named(0);
        assert_eq!(slots.len() as u32, index + 1);
        assert_eq!(slots.last(), Some(&Some(C)));
        assert_eq!(slots.iter().flatten().count(), 1);
    }
    for index in [2_000, 2_001] {
        let mut tables = claiming(index);
        let before = tables.clone();
        assert_eq!(tables.class(2, 0, 0), bare(CONFLICT));
        assert_eq!(tables.run(2, &[]), Run::to_end(2, [0; 9]));
        assert_eq!(tables, before);
    }
}

#[test]
fn e10_a_made_parent_is_as_the_paper_says() {
    let mut tables = Tables::default().unused_parent().object(C, Some((P, 1)));
    tables.parents[1..].fill(0xee);
    tables.run(2, &[]);
    let mut row = vec![1];
    row.extend(P.to_bytes());
    row.extend(OWNER.uid.to_le_bytes());
    row.extend(OWNER.gid.to_le_bytes());
    row.extend(80_u16.to_le_bytes());
    row.extend(0x0BD1_0BD0_u32.to_le_bytes());
    row.extend(0x4000_0001_u32.to_le_bytes());
    row.extend(1_u64.to_le_bytes());
    row.extend(0x2_0000_0401_u64.to_le_bytes());
    row.extend(1_048_576_u32.to_le_bytes());
    row.extend(2_u16.to_le_bytes());
    row.extend(0_u16.to_le_bytes());
    row.extend([0; 24]);
    row.extend(C.to_bytes());
    row.extend(0_u32.to_le_bytes());
    row.extend(3_u32.to_le_bytes());
    row.resize(PARENT_BYTES, 0xee);
    assert_eq!(tables.parents, row);
}

#[test]
fn e11_the_claimed_parent_comes_before_the_first_scanned() {
    let tables = Tables::default()
        .file(Q, &[A])
        .file(P, &[B, A])
        .object(A, Some((P, 0)))
        .object(B, Some((P, 0)));
    assert_eq!(tables.class(1, 0, 1), bare(MULTIPLE));
    assert_eq!(
        tables.class(1, 1, 2),
        [UNMATCHED, P.sequence, P.id.into(), 0]
    );
    assert_eq!(tables.class(1, 1, 1), bare(CLEAN));
}

#[test]
fn e12_the_claimed_slot_comes_before_the_first() {
    let tables = Tables::default().file(P, &[A, A]).object(A, Some((P, 1)));
    assert_eq!(tables.class(1, 0, 1), bare(MULTIPLE));
    assert_eq!(tables.class(1, 0, 2), bare(CLEAN));
}

#[test]
fn e13_an_unnamed_object_without_claim_is_spare() {
    let mut tables = Tables::default().object(A, None);
    let before = tables.clone();
    assert_eq!(tables.class(2, 0, 0), bare(SPARE));
    assert_eq!(tables.run(3, &[N]), Run::to_end(1, [0; 9]));
    assert_eq!(tables, before);
}
