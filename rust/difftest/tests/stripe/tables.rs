//! The functions that check tables, with a layout of each stripe size in a used or an unused row.

use crate::seen::{self, Seen};
use crate::{FILE, OBJECTS, all_layouts, both, layout_of};
use difftest::stripes::{MADE, sizes};
use difftest::{Coverage, Random};
use numbers::call::{ADOPT, CLASS, END, KEEPER, POSITION, REPORT};
use numbers::{object, parent};
use reference::fid::Fid;
use reference::layout::{Layout, Version};
use reference::tables::{Claim, Object, Owner, Parent};

/// What stands beside the layout, or where it stands.
#[derive(Clone, Copy, Debug, PartialEq, Eq, PartialOrd, Ord)]
enum What {
    /// In a used row.
    Used,
    /// In an unused row.
    Unused,
    /// In a used row, beside something else that has this number.
    With(u32),
}

/// What is lent to a call, and the numbers that it is handed.
#[derive(Clone, PartialEq)]
struct Case {
    parents: Vec<u8>,
    objects: Vec<u8>,
    policy: u64,
    most: u64,
    position: [u64; POSITION],
    out: Vec<u64>,
    done: Vec<u64>,
}

/// A call on both sides.
type Call = fn(&Case) -> (u32, Case);

/// The functions: their names, the places that they need, what they answer alone, and the other
/// numbers that they know.
const CALLS: [(&str, Call, usize, u32, &[u32]); 8] = [
    ("lfsck_check", check, 0, 0, &[11, 12, 14, 15, 16]),
    ("lfsck_start", start, POSITION, 0, &[11, 14, 15, 17]),
    ("lfsck_steps", steps, 1, 0, &[11, 14, 15, 17]),
    ("lfsck_class", class, CLASS, 0, &[11, 14, 15, 16, 17]),
    (
        "lfsck_classes",
        classes,
        9 * CLASS,
        0,
        &[11, 14, 15, 16, 17],
    ),
    ("lfsck_keeper", keeper, KEEPER, 0, &[11, 14, 15, 17]),
    (
        "lfsck_run, no steps",
        run_none,
        REPORT,
        1,
        &[11, 12, 14, 15, 16, 17],
    ),
    (
        "lfsck_run, many steps",
        run_many,
        REPORT,
        0,
        &[11, 12, 14, 15, 16, 17],
    ),
];

fn check(case: &Case) -> (u32, Case) {
    both!(case, |case| check(
        &case.parents,
        &case.objects,
        &[],
        case.policy,
        case.position
    ))
}

fn start(case: &Case) -> (u32, Case) {
    both!(case, |case| start(
        &case.parents,
        &case.objects,
        &mut case.out
    ))
}

fn steps(case: &Case) -> (u32, Case) {
    both!(case, |case| steps(
        &case.parents,
        &case.objects,
        &mut case.out
    ))
}

fn class(case: &Case) -> (u32, Case) {
    both!(case, |case| class(
        &case.parents,
        &case.objects,
        case.position,
        &mut case.out
    ))
}

fn classes(case: &Case) -> (u32, Case) {
    both!(case, |case| classes(
        &case.parents,
        &case.objects,
        &mut case.position,
        &mut case.out,
        &mut case.done
    ))
}

fn keeper(case: &Case) -> (u32, Case) {
    both!(case, |case| keeper(
        &case.parents,
        &case.objects,
        OBJECTS,
        1,
        &mut case.out
    ))
}

fn run_none(case: &Case) -> (u32, Case) {
    run(&Case {
        most: 0,
        ..case.clone()
    })
}

fn run_many(case: &Case) -> (u32, Case) {
    run(&Case {
        most: u64::MAX,
        ..case.clone()
    })
}

fn run(case: &Case) -> (u32, Case) {
    both!(case, |case| run(
        &mut case.parents,
        &mut case.objects,
        &[],
        case.policy,
        case.most,
        &mut case.position,
        &mut case.out
    ))
}

/// Of each function, the layout in either row and beside the numbers that it knows: the lowest is
/// the answer. An unused row is not examined.
fn cases() -> Vec<seen::Case<What>> {
    let mut cases = Vec::new();
    for (name, _, _, alone, numbers) in CALLS {
        cases.push((name, What::Used, alone, 13));
        cases.push((name, What::Unused, alone, alone));
        let with = numbers
            .iter()
            .map(|&other| (name, What::With(other), other, other.min(13)));
        cases.extend(with);
    }
    cases
}

#[test]
fn tables_are_held_to_the_rule_alike() {
    let mut random = Random::for_test("stripe sizes in tables");
    let mut seen = Seen::nothing(cases());
    let mut after = Coverage::of("files after calls", ["as before", "made, 1,048,576"]);
    for layout in all_layouts(&mut random) {
        for row in [0, 2] {
            for (name, call, places, _, numbers) in CALLS {
                let mut hold = |what, case: Case| {
                    let (answer, left) = call(&case);
                    seen.hold((name, what), &layout, answer);
                    note_files(&case, &left, &mut after);
                };
                hold(What::Used, case(&layout, row, true, random.numbers(places)));
                hold(
                    What::Unused,
                    case(&layout, row, false, random.numbers(places)),
                );
                for &number in numbers {
                    let sound = case(&layout, row, true, random.numbers(places));
                    hold(What::With(number), spoilt(sound, number));
                }
            }
        }
    }
    seen.require();
    after.require(1);
}

/// The owner of every file and object.
const OWNER: Owner = Owner { uid: 7, gid: 8 };

/// Three rows: the layout in the first or the last of them, a sound file in the middle, and an
/// unused row.
fn case(layout: &Layout, row: usize, used: bool, out: Vec<u64>) -> Case {
    let mut parents = vec![0xff; 3 * parent::BYTES];
    let sound = layout_of(MADE, Version::One, 0);
    for (row, fid, layout) in [(row, FILE, layout.clone()), (1, SOUND, sound)] {
        let at = &mut parents[parent::BYTES * row..][..parent::BYTES];
        let owner = OWNER;
        Parent { fid, owner, layout }.write(at);
    }
    parents[parent::BYTES * row] = used.into();
    parents[parent::BYTES * (2 - row)] = 0;
    Case {
        parents,
        objects: objects(),
        policy: ADOPT,
        most: 0,
        position: [1, 0, 0],
        out,
        done: vec![99],
    }
}

/// An object that claims slot 0 of the layout's file, an unused row, and an object that claims a
/// slot of no file.
fn objects() -> Vec<u8> {
    let mut objects = vec![0xff; 3 * object::BYTES];
    for (row, id, parent) in [(0, 1, FILE), (2, 9_999, ABSENT)] {
        let object = Object {
            fid: Fid::new(OBJECTS, id),
            ost: 3,
            owner: OWNER,
            claim: Some(Claim { parent, index: 0 }),
            fresh: false,
        };
        object.write(&mut objects[object::BYTES * row..][..object::BYTES]);
    }
    objects[object::BYTES] = 0;
    objects
}

/// The file in the middle, and one that no row has.
const SOUND: Fid = Fid::new(0x2_0000_0401, 2);
const ABSENT: Fid = Fid::new(0x2_0000_0401, 3);

/// A case with something that has this number, and no other of what is lent.
fn spoilt(mut case: Case, number: u32) -> Case {
    match number {
        11 => case.objects.push(0),
        12 => case.policy = 4,
        14 => case.objects[object::OST_AT + 2] = 1,
        15 => case.objects.extend_from_within(..object::BYTES),
        16 => case.position = [1, 3, 0],
        _ => {
            case.out.pop();
            case.done.clear();
        }
    }
    case
}

/// Files keep their stripe size, and made ones have their own; tables with these pass the check.
fn note_files(before: &Case, after: &Case, seen: &mut Coverage<&str>) {
    let mut is_made = false;
    for (was, is) in sizes(&before.parents).zip(sizes(&after.parents)) {
        match (was, is) {
            (Some(_), _) => {
                assert_eq!(was, is);
                seen.met("as before");
            }
            (None, Some(size)) => {
                assert_eq!(size, MADE);
                seen.met("made, 1,048,576");
                is_made = true;
            }
            (None, None) => (),
        }
    }
    if is_made {
        assert_eq!(
            check(&Case {
                position: END,
                ..after.clone()
            })
            .0,
            0
        );
    }
}
