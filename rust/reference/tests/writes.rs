//! The writes of a step, on the reference alone: which records, in which order, and the reuse of a
//! fresh object that waits for a slot.

use reference::answer::{DONE, NO_OBJECT_ROW, NO_POSITION, NO_RESERVE, NO_ROOM};
use reference::class::Class;
use reference::fid::Fid;
use reference::interface;
use reference::layout::{Layout, Stripe, Version};
use reference::position::Position;
use reference::run::{self, Outcome};
use reference::site::Site;
use reference::step::{Policy, step};
use reference::tables::{Claim, OBJECT_BYTES, Object, Owner, PARENT_BYTES, Parent, Tables};
use reference::writes::Record::{self, Object as O, Parent as F};
use reference::writes::writes;

const P: Fid = Fid::new(0x2_0000_0401, 1);
const Q: Fid = Fid::new(0x2_0000_0401, 2);
const A: Fid = Fid::new(0x2_4000_0400, 0x10);
const B: Fid = Fid::new(0x2_4000_0400, 0x11);
const C: Fid = Fid::new(0x2_4000_0400, 0x12);
const N: Fid = Fid::new(0x2_4000_0400, 0x20);
const M: Fid = Fid::new(0x2_4000_0400, 0x21);

const OWNER: Owner = Owner { uid: 500, gid: 600 };
const ROOT: Owner = Owner { uid: 0, gid: 0 };

const ADOPT: Policy = Policy {
    create: false,
    adopt: true,
};
const BOTH: Policy = Policy {
    create: true,
    adopt: true,
};

/// A slot that names an object on OST 3.
fn naming(object: Fid) -> Option<Stripe> {
    Some(Stripe {
        object,
        generation: 7,
        ost: 3,
    })
}

/// A file whose slots may be holes.
fn file(fid: Fid, slots: &[Option<Stripe>]) -> Option<Parent> {
    Some(Parent {
        fid,
        owner: OWNER,
        layout: Layout {
            version: Version::One,
            holes_allowed: true,
            own_id: fid.id.into(),
            own_sequence: fid.sequence,
            stripe_size: 1_048_576,
            generation: 9,
            slots: slots.to_vec(),
        },
    })
}

/// An object on OST 3 that may hold data.
fn data(fid: Fid, parent: Fid, index: u32) -> Object {
    Object {
        fid,
        ost: 3,
        owner: OWNER,
        claim: Some(Claim { parent, index }),
        fresh: false,
    }
}

fn fresh(fid: Fid, parent: Fid, index: u32) -> Object {
    Object {
        fresh: true,
        ..data(fid, parent, index)
    }
}

fn of_root(object: Object) -> Object {
    Object {
        owner: ROOT,
        ..object
    }
}

fn on_5(object: Object) -> Object {
    Object { ost: 5, ..object }
}

fn site(parents: &[Option<Parent>], objects: &[Option<Object>]) -> Site {
    Site::new(Tables {
        parents: parents.to_vec(),
        objects: objects.to_vec(),
    })
}

fn slot(row: usize, slot: usize) -> Position {
    Position::Slot { row, slot }
}

/// The step at a position writes these records, in this order.
#[track_caller]
fn expect(site: &Site, position: Position, wanted: &[Record]) {
    assert_eq!(
        writes(site, position, BOTH, &[N, M]),
        Ok(wanted.to_vec()),
        "{position:?}"
    );
}

fn stepped(site: &Site, position: Position) -> Tables {
    let mut after = site.clone();
    step(&mut after, position, BOTH, &[N, M]).expect("a step that can be made");
    after.tables().clone()
}

/// A run from the start to the end, or to a stop.
fn ran(tables: &Tables, policy: Policy, reserve: &[Fid]) -> (Outcome, Tables) {
    let mut site = Site::new(tables.clone());
    let start = Position::start(site.tables());
    let outcome = run::run(&mut site, policy, reserve, start, u64::MAX);
    (outcome, site.tables().clone())
}

/// The object and the layout of a keeper, each where it changes.
#[test]
fn the_object_comes_before_the_layout() {
    let kept = |object: Object| site(&[file(P, &[naming(A)])], &[None, Some(object)]);
    let at = slot(0, 0);
    let right = data(A, P, 0);
    let blank = Object {
        claim: None,
        ..right
    };
    expect(&kept(right), at, &[]);
    expect(&kept(of_root(right)), at, &[O(1)]);
    expect(&kept(on_5(right)), at, &[F(0)]);
    expect(&kept(of_root(on_5(right))), at, &[O(1), F(0)]);
    for other in [blank, data(A, Q, 4)] {
        expect(&kept(other), at, &[O(1)]);
        expect(&kept(on_5(other)), at, &[O(1), F(0)]);
    }
}

#[test]
fn a_header_an_absent_object_and_an_empty_one_are_one_write() {
    let mut own = file(P, &[naming(A), None]);
    expect(&site(&[own.clone()], &[]), Position::Header { row: 0 }, &[]);
    if let Some(parent) = &mut own {
        parent.layout.own_id = 77;
    }
    let tables = site(&[own], &[Some(data(B, Q, 0)), None, Some(fresh(C, P, 3))]);
    expect(&tables, Position::Header { row: 0 }, &[F(0)]);
    expect(&tables, slot(0, 0), &[O(1)]);
    expect(&tables, slot(0, 1), &[]);
    expect(&tables, Position::Object { row: 2 }, &[O(2)]);
    expect(&tables, Position::Object { row: 1 }, &[]);
    expect(&tables, Position::End, &[]);
}

#[test]
fn a_redirect_is_the_new_object_and_the_layout() {
    let files = [file(P, &[naming(A)]), file(Q, &[naming(A)])];
    let tables = site(&files, &[Some(data(A, P, 0)), None]);
    expect(&tables, slot(1, 0), &[O(1), F(1)]);
}

/// The layout, the orphan where its owner differs, and the row that is destroyed.
#[test]
fn an_orphan_s_layout_comes_first() {
    let at = Position::Object { row: 1 };
    let cases: [(&[Option<Stripe>], &[Record]); 3] = [
        (&[None], &[F(1)]),
        (&[], &[F(1)]),
        (&[naming(B)], &[F(1), O(0)]),
    ];
    for (slots, wanted) in cases {
        let files = [file(Q, &[]), file(P, slots)];
        let orphan = data(C, P, 0);
        let rows = |orphan| [Some(fresh(B, P, 0)), Some(orphan)];
        expect(&site(&files, &rows(orphan)), at, wanted);
        let mut with_owner = wanted.to_vec();
        with_owner.insert(1, O(1));
        expect(&site(&files, &rows(of_root(orphan))), at, &with_owner);
    }
    let absent = site(&[file(Q, &[]), None], &[None, Some(of_root(data(C, P, 0)))]);
    expect(&absent, at, &[F(1)]);
}

/// P[A,A], A claims (P,0), one unused row, reserve [N,M]: cut after N is made, the run from the
/// start finds N waiting, and neither takes M nor misses a row, as it would if N were not used.
#[test]
fn a_cut_after_the_new_object() {
    let start = site(
        &[file(P, &[naming(A), naming(A)])],
        &[Some(data(A, P, 0)), None],
    );
    let (uncut, end) = ran(start.tables(), BOTH, &[N, M]);
    assert_eq!(uncut.answer, DONE);
    expect(&start, slot(0, 1), &[O(1), F(0)]);
    let mut cut = start.tables().clone();
    cut.objects[1] = stepped(&start, slot(0, 1)).objects[1];
    assert_eq!(cut.objects[1], Some(fresh(N, P, 1)));
    expect(&Site::new(cut.clone()), slot(0, 1), &[F(0)]);
    let (again, tables) = ran(&cut, BOTH, &[N, M]);
    assert_eq!((again.answer, tables), (DONE, end));
    cut.objects[1] = Some(data(N, P, 1));
    assert_eq!(ran(&cut, BOTH, &[N, M]).0.answer, NO_OBJECT_ROW);
}

/// P[B], B fresh and C with data both claim (P,0).
fn both_claim() -> Site {
    site(
        &[file(P, &[naming(B)])],
        &[Some(fresh(B, P, 0)), Some(of_root(data(C, P, 0)))],
    )
}

/// After each write the run from the start gives the slot to C.
#[test]
fn a_cut_in_a_place_that_is_taken() {
    let start = both_claim();
    let at = Position::Object { row: 1 };
    expect(&start, at, &[F(0), O(1), O(0)]);
    let after = stepped(&start, at);
    let mut placed = start.tables().clone();
    placed.parents[0].clone_from(&after.parents[0]);
    let mut owned = placed.clone();
    owned.objects[1] = after.objects[1];
    for tables in [start.tables(), &placed, &owned] {
        for policy in [ADOPT, BOTH] {
            let (outcome, end) = ran(tables, policy, &[]);
            assert_eq!((outcome.answer, &end), (DONE, &after));
        }
    }
}

/// Were the row destroyed first, a cut after it would leave C in CONFLICT for ever.
#[test]
fn a_cut_after_a_row_that_is_destroyed_first() {
    let mut cut = both_claim().tables().clone();
    cut.objects[0] = None;
    let (outcome, end) = ran(&cut, ADOPT, &[]);
    assert_eq!((outcome.answer, &end), (DONE, &cut));
    let class = Class::at(&Site::new(end), Position::Object { row: 1 });
    assert_eq!(class, Some(Class::Conflict));
}

/// P[A,A] with A in slot 0, and the object that slot 1 then names after its step.
#[track_caller]
fn redirected(others: &[Object]) -> (Vec<Record>, Tables) {
    let objects: Vec<_> = std::iter::once(data(A, P, 0))
        .chain(others.iter().copied())
        .map(Some)
        .chain([None])
        .collect();
    let files = [file(P, &[naming(A), naming(A)]), file(Q, &[naming(B)])];
    let site = site(&files, &objects);
    let list = writes(&site, slot(0, 1), BOTH, &[N]).expect("a step that can be made");
    (list, stepped(&site, slot(0, 1)))
}

fn slot_1(tables: &Tables) -> Option<Stripe> {
    tables.parents[0].as_ref()?.layout.slots[1]
}

#[test]
fn the_first_waiting_object_is_used_again() {
    let waiting = on_5(of_root(fresh(C, P, 1)));
    let (list, tables) = redirected(&[waiting, fresh(M, P, 1)]);
    assert_eq!(list, [O(1), F(0)]);
    let named = Stripe {
        object: C,
        generation: 0,
        ost: 5,
    };
    assert_eq!(slot_1(&tables), Some(named));
    assert_eq!(tables.objects[1], Some(on_5(fresh(C, P, 1))));
    let generation = tables.parents[0].as_ref().map(|p| p.layout.generation);
    assert_eq!(generation, Some(10));
    let (list, _) = redirected(&[fresh(C, P, 1)]);
    assert_eq!(list, [F(0)]);
}

/// One that a slot names, one with data, one that claims another slot or another file.
#[test]
fn no_other_object_is_used_again() {
    let others = [
        fresh(B, P, 1),
        data(C, P, 1),
        fresh(C, P, 0),
        fresh(C, P, 2),
        fresh(C, Q, 1),
    ];
    for other in others {
        let (list, tables) = redirected(&[other]);
        assert_eq!(list, [O(2), F(0)], "{other:?}");
        assert_eq!(slot_1(&tables).map(|stripe| stripe.object), Some(N));
        assert_eq!(tables.objects[1], Some(other));
    }
}

/// It is counted as MULTIPLE, without reserve and without an unused row.
#[test]
fn a_waiting_object_comes_before_21_and_22() {
    let files = [file(P, &[naming(A), naming(A)])];
    let objects = [Some(data(A, P, 0)), Some(fresh(C, P, 1))];
    let (outcome, _) = ran(site(&files, &objects).tables(), BOTH, &[]);
    assert_eq!(outcome.answer, DONE);
    assert_eq!(outcome.repairs, [0, 1, 0, 0, 0, 0, 0, 0, 0]);
    let none = site(&files, &objects[..1]);
    let stop = |reserve| writes(&none, slot(0, 1), BOTH, reserve);
    assert_eq!(stop(&[]), Err(NO_RESERVE));
    assert_eq!(stop(&[N]), Err(NO_OBJECT_ROW));
}

/// The numbers, and the order of the refusals.
#[test]
fn the_list_in_numbers() {
    let tables = site(
        &[file(Q, &[]), file(P, &[naming(B)])],
        &[Some(fresh(B, P, 0)), Some(of_root(data(C, P, 0)))],
    );
    let mut parents = vec![0; 2 * PARENT_BYTES];
    for (row, parent) in parents
        .chunks_mut(PARENT_BYTES)
        .zip(&tables.tables().parents)
    {
        parent.as_ref().expect("a file").write(row);
    }
    let mut objects = vec![0; 2 * OBJECT_BYTES];
    for (row, object) in objects
        .chunks_mut(OBJECT_BYTES)
        .zip(&tables.tables().objects)
    {
        object.expect("an object").write(row);
    }
    let ask = |policy, position, out: &mut [u64]| {
        interface::step_writes(&parents, &objects, &[], policy, position, out)
    };
    let mut out = [99; 8];
    assert_eq!(ask(2, [2, 1, 0], &mut out), DONE);
    assert_eq!(out, [3, 0, 1, 1, 1, 1, 0, 99]);
    assert_eq!(ask(1, [2, 1, 0], &mut out), DONE);
    assert_eq!(out, [0, 0, 0, 0, 0, 0, 0, 99]);
    let mut short = [99; 6];
    assert_eq!(ask(2, [2, 1, 0], &mut short), NO_ROOM);
    assert_eq!(ask(2, [3, 0, 0], &mut short), NO_POSITION);
    assert_eq!(ask(2, [2, 2, 0], &mut short), NO_POSITION);
    assert_eq!(ask(4, [2, 2, 0], &mut short), 12);
    assert_eq!(short, [99; 6]);
}
