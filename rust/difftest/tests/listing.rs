//! The classes from a position on, in one call: with any room, from positions that are there and
//! from others, and beside the class that is asked at each position alone.

use difftest::tables::{self, TINY, damage, random_tables, to_bytes};
use difftest::{Coverage, Random};
use numbers::call::{CLASS, CLASSES};
use numbers::layout::MOST_SLOTS;
use reference::interface;
use reference::position::Position;

const TABLES: u64 = 40_000;

/// What is lent to be written.
#[derive(Clone, Debug, PartialEq)]
struct Lent {
    position: Vec<u64>,
    out: Vec<u64>,
    done: Vec<u64>,
}

/// Everything that the test is to meet.
struct Seen {
    answers: Coverage<u32>,
    /// Refusals that another would have followed.
    before: Coverage<&'static str>,
    /// How a call that was not refused ended.
    ends: Coverage<&'static str>,
    /// The numbers that were left over past the last whole place.
    odd: Coverage<usize>,
    stages: Coverage<u64>,
    classes: Coverage<u64>,
}

impl Seen {
    fn nothing() -> Seen {
        Seen {
            answers: Coverage::of("answers", [0, 11, 13, 14, 15, 16, 17]),
            before: Coverage::of("refusals before 17", ["tables", "position", "amount"]),
            ends: Coverage::of(
                "ends",
                [
                    "begun at the end",
                    "no whole place",
                    "room used up",
                    "room used up at the end",
                    "room left at the end",
                ],
            ),
            odd: Coverage::of("numbers past the last place", 0..CLASS),
            stages: Coverage::of("stages begun in", 1..=3),
            classes: Coverage::of("classes", 0..CLASSES as u64),
        }
    }

    fn require(&self) {
        self.answers.require(100);
        self.before.require(100);
        self.ends.require(1000);
        self.odd.require(1000);
        self.stages.require(1000);
        self.classes.require(1000);
    }

    /// Notes a call that was not refused.
    fn told(&mut self, before: &Lent, after: &Lent) {
        let places = before.out.len() / CLASS;
        let told = after.done[0] as usize;
        let at_end = after.position == [3, 0, 0];
        self.stages.met(before.position[0]);
        self.odd.met(before.out.len() % CLASS);
        self.ends.met(match (told < places, at_end) {
            _ if before.position[0] == 3 => "begun at the end",
            _ if places == 0 => "no whole place",
            (false, false) => "room used up",
            (false, true) => "room used up at the end",
            (true, _) => "room left at the end",
        });
        let classes = after.out.chunks(CLASS).take(told);
        classes.for_each(|class| self.classes.met(class[0]));
    }
}

#[test]
fn classes_are_listed_alike() {
    let mut random = Random::for_test("listing");
    let mut seen = Seen::nothing();
    for _ in 0..TABLES {
        let tables = random_tables(TINY, &mut random);
        let (parents, objects) = to_bytes(&tables, &mut random);
        let rows = tables::Lent::new(parents, objects);
        let positions: Vec<[u64; 3]> = Position::all(&tables).map(Position::to_numbers).collect();
        compare_whole(&rows, &positions, &mut random, &mut seen);
        compare_in_a_row(&rows, &positions, &mut random, &mut seen);
        for _ in 0..3 {
            let lent = random_lent(&positions, &mut random);
            compare(&rows, lent, &mut seen);
        }
        let tables::Lent {
            mut parents,
            mut objects,
            ..
        } = rows;
        if damage(&mut parents, &mut objects, &mut random) {
            let lent = random_lent(&positions, &mut random);
            compare(&tables::Lent::new(parents, objects), lent, &mut seen);
        }
    }
    seen.require();
}

/// Asks both sides and compares the answer and whatever was lent; gives both.
fn compare(rows: &tables::Lent, lent: Lent, seen: &mut Seen) -> (u32, Lent) {
    let (mut ours, mut theirs) = (lent.clone(), lent.clone());
    let Lent {
        position,
        out,
        done,
    } = &mut theirs;
    let answer =
        rows.to(|parents, objects| lfsck_sys::classes(parents, objects, position, out, done));
    let Lent {
        position,
        out,
        done,
    } = &mut ours;
    let expected = interface::classes(&rows.parents, &rows.objects, position, out, done);
    assert_eq!(
        (answer, &theirs),
        (expected, &ours),
        "{lent:?} of {}",
        rows.describe()
    );
    seen.answers.met(answer);
    match answer {
        0 => seen.told(&lent, &theirs),
        11..16 if lent.done.is_empty() => seen.before.met("tables"),
        16 if lent.done.is_empty() && lent.position.len() == 3 => seen.before.met("position"),
        16 if lent.done.is_empty() => seen.before.met("amount"),
        _ => (),
    }
    if answer != 0 {
        assert_eq!(theirs, lent, "written with {answer}");
    }
    (answer, theirs)
}

/// Anything to lend: mostly a position that is there and a place for the number told.
fn random_lent(positions: &[[u64; 3]], random: &mut Random) -> Lent {
    let mut position = if random.one_in(4) {
        let part = random.pick(&[0, 1, 2, 4, MOST_SLOTS as u64 + 1, u64::MAX]);
        vec![random.below(5) as u64, random.below(4) as u64, part]
    } else {
        random.pick(positions).to_vec()
    };
    match random.below(16) {
        0 => position.truncate(2),
        1 => position.push(0),
        _ => (),
    }
    let room = random.below(CLASS * (positions.len() + 1) + 1);
    let places = random.pick(&[1, 1, 1, 1, 2, 0]);
    Lent {
        position,
        out: random.numbers(room),
        done: random.numbers(places),
    }
}

/// One call from the start with room for all: the class that is asked at each position alone.
fn compare_whole(
    rows: &tables::Lent,
    positions: &[[u64; 3]],
    random: &mut Random,
    seen: &mut Seen,
) {
    let count = positions.len() - 1;
    let rest = random.below(2 * CLASS);
    let lent = Lent {
        position: positions[0].to_vec(),
        out: random.numbers(CLASS * count + rest),
        done: random.numbers(1),
    };
    let (answer, told) = compare(rows, lent, seen);
    assert_eq!((answer, told.done[0]), (0, count as u64));
    assert_eq!(told.position, [3, 0, 0]);
    for (&position, class) in positions[..count].iter().zip(told.out.chunks(CLASS)) {
        let mut alone = [0; CLASS];
        let answer = lfsck_sys::class(&rows.parents, &rows.objects, position, &mut alone);
        assert_eq!(answer, 0);
        assert_eq!(class, alone, "class at {position:?}");
    }
}

/// Calls in a row, each from where the last one left off: what one call tells.
fn compare_in_a_row(
    rows: &tables::Lent,
    positions: &[[u64; 3]],
    random: &mut Random,
    seen: &mut Seen,
) {
    let count = positions.len() - 1;
    let mut position = positions[0].to_vec();
    let mut told = Vec::new();
    while position != [3, 0, 0] {
        let room = CLASS + random.below(3 * CLASS);
        let lent = Lent {
            position,
            out: random.numbers(room),
            done: random.numbers(1),
        };
        let (answer, after) = compare(rows, lent, seen);
        assert_eq!(answer, 0);
        told.extend_from_slice(&after.out[..CLASS * after.done[0] as usize]);
        assert_eq!(after.position, positions[told.len() / CLASS]);
        position = after.position;
    }
    let mut whole = vec![0; CLASS * count];
    let (mut start, mut done) = (positions[0], [0]);
    let (parents, objects) = (&rows.parents, &rows.objects);
    let answer = lfsck_sys::classes(parents, objects, &mut start, &mut whole, &mut done);
    assert_eq!((answer, done), (0, [count as u64]));
    assert_eq!(told, whole);
}
