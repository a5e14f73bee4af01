//! The check, the start and the number of steps, on sound tables, on tables damaged in one
//! field and in several, and at the limits.

mod damage;
mod limits;

use std::hint::black_box;
use std::time::Instant;

use damage::Damage;
use difftest::tables::{OBJECTS, Shape, describe, random_tables, to_bytes};
use difftest::{Coverage, Random};
use numbers::layout::{COUNT_AT, HEADER_ONE, MOST_BYTES, MOST_SLOTS, SLOT_BYTES};
use numbers::parent;
use reference::check::{Faults, faults};
use reference::interface;
use reference::position::Position;
use reference::tables::Tables;

const CASES: usize = 120_000;

const SMALL: Shape = Shape {
    parents: 3,
    objects: 4,
    slots: 3,
    files: 6,
    fids: 10,
};

/// What a check is handed.
#[derive(Clone, Debug, PartialEq)]
struct Case {
    parents: Vec<u8>,
    objects: Vec<u8>,
    reserve: Vec<u8>,
    policy: u64,
    position: [u64; 3],
}

/// Everything that the test is to meet.
struct Seen {
    check: Coverage<u32>,
    start: Coverage<u32>,
    steps: Coverage<u32>,
    /// An answer and another number that applied; the same number twice where it was alone.
    with: Coverage<(u32, u32)>,
    /// Answers of start and steps where the room was too short as well.
    before_room: Coverage<u32>,
    damages: Coverage<Damage>,
    positions: Coverage<&'static str>,
    policies: Coverage<u64>,
    /// Lengths and slot counts in used rows, at the bounds.
    bounds: Coverage<(&'static str, usize)>,
}

/// Lengths at the bounds: the longest layouts of both versions, and one that is too long.
const LENGTHS: [usize; 3] = [
    HEADER_ONE + SLOT_BYTES * MOST_SLOTS,
    MOST_BYTES,
    MOST_BYTES + 1,
];
/// Slot counts at the bound, and at one that is none.
const COUNTS: [usize; 5] = [160, 161, MOST_SLOTS - 1, MOST_SLOTS, MOST_SLOTS + 1];

impl Seen {
    fn nothing() -> Seen {
        let numbers = 11..=16;
        let pairs = numbers.flat_map(|low| (low..=16).map(move |high| (low, high)));
        let places = ["header", "unused row", "slot", "object", "end"];
        Seen {
            check: Coverage::of("check answers", [0, 11, 12, 13, 14, 15, 16]),
            start: Coverage::of("start answers", [0, 11, 13, 14, 15, 17]),
            steps: Coverage::of("steps answers", [0, 11, 13, 14, 15, 17]),
            with: Coverage::of("numbers alone, and with a higher one", pairs),
            before_room: Coverage::of("before 17", [11, 13, 14, 15]),
            damages: Coverage::of("damages alone", Damage::ALL.iter().copied()),
            positions: Coverage::of("good positions", places),
            policies: Coverage::of("good policies", 0..=3),
            bounds: Coverage::of(
                "numbers of rows at the bounds",
                LENGTHS
                    .map(|length| ("length", length))
                    .into_iter()
                    .chain(COUNTS.map(|count| ("slots", count))),
            ),
        }
    }

    /// Counts the lengths and slot counts of used rows that are at the bounds.
    fn note_bounds(&mut self, case: &Case) {
        let rows = case.parents.chunks_exact(parent::BYTES);
        for row in rows.filter(|row| row[0] == 1) {
            let number = |at: usize| usize::from(u16::from_le_bytes([row[at], row[at + 1]]));
            let (length, count) = (
                number(parent::LENGTH_AT),
                number(parent::LAYOUT_AT + COUNT_AT),
            );
            if LENGTHS.contains(&length) {
                self.bounds.met(("length", length));
            }
            if COUNTS.contains(&count) {
                self.bounds.met(("slots", count));
            }
        }
    }

    fn require(&self) {
        self.check.require(100);
        self.start.require(100);
        self.steps.require(100);
        self.with.require(10);
        self.before_room.require(100);
        self.damages.require(100);
        self.positions.require(100);
        self.policies.require(100);
        self.bounds.require(20);
    }
}

#[test]
fn small_tables_are_checked_alike() {
    let started = Instant::now();
    let mut random = Random::for_test("check");
    let mut seen = Seen::nothing();
    for _ in 0..CASES {
        let mut case = random_case(&mut random, &mut seen);
        match random.below(8) {
            0 => expect(&case, None, "sound tables"),
            1..=4 => {
                let damage = random.pick(Damage::ALL);
                if damage.make(&mut case, &mut random) {
                    expect(&case, damage.number(), damage);
                    seen.damages.met(damage);
                }
            }
            _ => {
                for _ in 0..2 + random.below(3) {
                    random.pick(Damage::ALL).make(&mut case, &mut random);
                }
            }
        }
        seen.note_bounds(&case);
        compare(&case, &mut random, &mut seen);
    }
    println!(
        "{} checks in {:.1} s",
        seen.check.total(),
        started.elapsed().as_secs_f64()
    );
    assert!(seen.check.total() >= 100_000);
    seen.require();
}

/// The reference finds in a case what was done to it.
fn expect(case: &Case, number: Option<u32>, what: impl std::fmt::Debug) {
    assert_eq!(case.faults().first().copied(), number, "{what:?}");
}

// Comparisons. Each lends the same to both sides and compares the answer and whatever was lent.

fn compare(case: &Case, random: &mut Random, seen: &mut Seen) {
    let lent = case.clone();
    let answer = compare_check(case, &lent);
    seen.check.met(answer);
    let numbers = case.faults();
    for &other in &numbers {
        if other != answer || numbers.len() == 1 {
            seen.with.met((answer, other));
        }
    }
    let room = random.below(6);
    let places = random.numbers(room);
    let both = (case, &lent);
    let start = compare_tables(both, &places, 3, lfsck_sys::start, interface::start);
    let steps = compare_tables(both, &places, 1, lfsck_sys::steps, interface::steps);
    seen.start.met(start);
    seen.steps.met(steps);
    if room == 0 && start < 17 {
        seen.before_room.met(start);
    }
}

/// The second case is a copy of the first, and is lent.
fn compare_check(case: &Case, lent: &Case) -> u32 {
    let answer = {
        let lent = black_box(lent);
        lfsck_sys::check(
            &lent.parents,
            &lent.objects,
            &lent.reserve,
            lent.policy,
            lent.position,
        )
    };
    let expected = interface::check(
        &case.parents,
        &case.objects,
        &case.reserve,
        case.policy,
        case.position,
    );
    assert_eq!(answer, expected, "check of {}", case.describe());
    assert!(black_box(lent) == case, "the check changed its input");
    answer
}

type OfTables = fn(&[u8], &[u8], &mut [u64]) -> u32;

/// The second case is a copy of the first, and is lent with these places.
fn compare_tables(
    (case, lent): (&Case, &Case),
    places: &[u64],
    needed: usize,
    library: OfTables,
    reference: OfTables,
) -> u32 {
    let (mut ours, mut theirs) = (places.to_vec(), places.to_vec());
    let answer = {
        let lent = black_box(lent);
        library(&lent.parents, &lent.objects, &mut theirs)
    };
    let expected = reference(&case.parents, &case.objects, &mut ours);
    assert_eq!(
        (answer, &theirs),
        (expected, &ours),
        "{needed} numbers of {}",
        case.describe()
    );
    assert!(black_box(lent) == case, "tables changed");
    answer
}

impl Case {
    fn faults(&self) -> Faults {
        faults(
            &self.parents,
            &self.objects,
            &self.reserve,
            self.policy,
            self.position,
        )
    }

    /// The case for a message; large tables only by their lengths.
    fn describe(&self) -> String {
        let (policy, position) = (self.policy, self.position);
        if self.parents.len() > 16 * parent::BYTES {
            let lengths = [self.parents.len(), self.objects.len(), self.reserve.len()];
            return format!("tables of {lengths:?} bytes at {position:?}");
        }
        let tables = describe(&self.parents, &self.objects);
        let reserve = &self.reserve;
        format!("{tables}, reserve {reserve:02x?}, policy {policy}, at {position:?}")
    }
}

// Sound cases.

fn random_case(random: &mut Random, seen: &mut Seen) -> Case {
    let tables = random_tables(SMALL, random);
    let (parents, objects) = to_bytes(&tables, random);
    let all: Vec<Position> = Position::all(&tables).collect();
    let position = random.pick(&all);
    let policy = random.below(4) as u64;
    seen.positions.met(kind_of(position, &tables));
    seen.policies.met(policy);
    let reserve = (0..random.below(4)).flat_map(|_| random.pick(&OBJECTS).to_bytes());
    Case {
        parents,
        objects,
        reserve: reserve.collect(),
        policy,
        position: position.to_numbers(),
    }
}

fn kind_of(position: Position, tables: &Tables) -> &'static str {
    match position {
        Position::Header { row } if tables.parents[row].is_none() => "unused row",
        Position::Header { .. } => "header",
        Position::Slot { .. } => "slot",
        Position::Object { .. } => "object",
        Position::End => "end",
    }
}
