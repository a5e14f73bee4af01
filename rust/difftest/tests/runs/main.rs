//! Random lists of run calls, made by the library and by the reference: restarts at the start
//! and at passed positions, refused calls in between, every policy, scarce reserves and rows.
//! Both sides must keep demand 3, raise a layout's generation with each step that changes its
//! slots, leave the stripe sizes of files, and agree on every answer, count, position and byte.

mod demand;
mod generations;
mod seen;
mod side;
mod stripes;

use std::rc::Rc;
use std::time::Instant;

use demand::{List, Scenario, Uncut, check_unchanged};
use difftest::Random;
use difftest::tables::{OBJECTS, Shape, random_tables, to_bytes};
use numbers::call::REPORT;
use reference::check::read_tables;
use reference::position::Position;
use reference::tables::OBJECT_BYTES;
use seen::Seen;
use side::{Call, Outcome, Side, State};

/// The calls, without those that go step by step to compare with.
const CALLS: u64 = 220_000;

/// A call of so many steps goes through a layout that has grown far.
const LONG: u64 = 150;

const TINY: Shape = Shape {
    parents: 4,
    objects: 9,
    slots: 3,
    files: 4,
    fids: 6,
};

#[test]
fn lists_of_runs_are_made_alike() {
    let started = Instant::now();
    let mut random = Random::for_test("runs");
    let mut library = Side::library();
    let mut reference = Side::reference();
    let mut seen = Seen::nothing();
    let mut calls = 0;
    while seen.answers.total() < CALLS {
        let scenario = random_scenario(&mut random);
        // Both draw the same numbers, as long as they answer the same.
        play(
            &scenario,
            &mut reference,
            &mut random.clone(),
            &mut Seen::nothing(),
        );
        play(&scenario, &mut library, &mut random, &mut seen);
        compare(&scenario, &library, &reference);
        calls += library.log.len();
        library.log.clear();
        reference.log.clear();
    }
    println!(
        "{} run calls, {calls} with those to compare with, in {:.1} s",
        seen.answers.total(),
        started.elapsed().as_secs_f64()
    );
    assert!(seen.answers.total() >= 200_000);
    seen.require();
    library.stripes.require();
}

/// Every call was answered alike, and left alike whatever was lent.
fn compare(scenario: &Scenario, library: &Side, reference: &Side) {
    let logs = library.log.iter().zip(&reference.log);
    for ((call, theirs), (expected_call, ours)) in logs {
        assert_eq!(call, expected_call);
        assert_eq!(
            (theirs.answer, &theirs.position, &theirs.report),
            (ours.answer, &ours.position, &ours.report),
            "{call:?} in a list from {:#?}",
            read_tables(&scenario.state.parents, &scenario.state.objects).0
        );
        assert!(
            theirs.state == ours.state,
            "{call:?} leaves {:#?} and not {:#?}, or other bytes",
            read_tables(&theirs.state.parents, &theirs.state.objects).0,
            read_tables(&ours.state.parents, &ours.state.objects).0
        );
    }
    assert_eq!(library.log.len(), reference.log.len());
}

fn random_scenario(random: &mut Random) -> Scenario {
    let tables = random_tables(TINY, random);
    let (parents, objects) = to_bytes(&tables, random);
    Scenario {
        state: State {
            parents: Rc::new(parents),
            objects,
        },
        reserve: random_reserve(random),
        policy: random.pick(&[0, 1, 2, 3, 3]),
        report_room: random.pick(&[REPORT, REPORT, REPORT + 1, REPORT + 4]),
    }
}

/// Few FIDs, with repeats and with those of rows and slots.
fn random_reserve(random: &mut Random) -> Vec<u8> {
    let from = random.pick(&[0, 0, 3, 5]);
    let entries = (0..random.below(6)).flat_map(|_| random.pick(&OBJECTS[from..8]).to_bytes());
    entries.collect()
}

/// One side makes the uncut run and then a list of calls.
fn play(scenario: &Scenario, side: &mut Side, random: &mut Random, seen: &mut Seen) {
    let uncut = Uncut::of(scenario, side);
    seen.note_uncut(scenario, &uncut);
    let mut list = List::new(scenario, &uncut);
    let mut last = None;
    for _ in 0..3 + random.below(8) {
        let answer = match random.below(8) {
            0 => call_damaged(&list.state, scenario, side, random),
            1 => call_anywhere(&list.state, side, random),
            kind => {
                let answer = match kind {
                    2 => call_refused(&list, scenario, side, random, seen),
                    _ => call_run(&mut list, side, random, seen, last),
                };
                last = Some(answer);
                answer
            }
        };
        seen.answers.met(answer);
    }
}

/// A call that goes on with the list.
fn call_run(
    list: &mut List,
    side: &mut Side,
    random: &mut Random,
    seen: &mut Seen,
    last: Option<u32>,
) -> u32 {
    let from = random_begin(list, random, seen);
    let most = random_steps(&list.state, random, seen);
    if random.one_in(8) {
        let (a, b) = (random.below(9) as u64, 1 + random.below(9) as u64);
        list.check_sum(side, from.clone(), a, b);
        seen.turns.met("a then b");
    }
    note_turn(list, last, seen);
    let (call, outcome) = list.run(side, from, most);
    note_outcome(list, &call, &outcome, seen);
    retrace(list, side, (&call, &outcome), random, seen);
    let answer = outcome.answer;
    list.go_on(call, outcome);
    answer
}

/// Now and then takes the steps of a call one by one; those of a long one rarely.
fn retrace(
    list: &mut List,
    side: &mut Side,
    (call, outcome): (&Call, &Outcome),
    random: &mut Random,
    seen: &mut Seen,
) {
    let is_long = outcome.steps() >= LONG;
    if is_long {
        seen.long.met("made");
    }
    if random.one_in(if is_long { 8 } else { 4 }) {
        seen.note_call(&list.retrace(side, call, outcome));
        seen.turns.met("retraced");
        if is_long {
            seen.long.met("retraced");
        }
    }
}

fn note_turn(list: &List, last: Option<u32>, seen: &mut Seen) {
    if list.ended {
        seen.turns.met("a call after the end");
    }
    match last {
        Some(11..=17) => seen.turns.met("a refused call before another"),
        Some(21..=23) => seen.turns.met("a call after a stop"),
        _ => (),
    }
}

/// What a call did, with the tables before it in the list.
fn note_outcome(list: &List, call: &Call, outcome: &Outcome, seen: &mut Seen) {
    let second = list.ended && list.can_raise() && call.position == list.state.start();
    if second && outcome.is_at_end() {
        seen.generations.met("none raised by a second run");
    }
    if outcome.answer == 0 && outcome.steps() == call.most && call.most > 0 {
        seen.turns.met("steps used up at the end");
    }
    if made_and_destroyed(&list.state, outcome) {
        seen.turns.met("a row made and destroyed in one call");
    }
}

/// An unused row with other bytes became zero: an object was made there and destroyed.
fn made_and_destroyed(before: &State, outcome: &Outcome) -> bool {
    let rows = before.objects.chunks(OBJECT_BYTES);
    let mut pairs = rows.zip(outcome.state.objects.chunks(OBJECT_BYTES));
    pairs.any(|(row, after)| row[0] == 0 && row != after && after.iter().all(|&byte| byte == 0))
}

/// The start, for the first call, or a position that an earlier one passed.
fn random_begin(list: &List, random: &mut Random, seen: &mut Seen) -> Vec<u64> {
    if list.passed.is_empty() {
        seen.begins.met("the start");
        return list.state.start();
    }
    if random.one_in(4) {
        seen.begins.met("the start again");
        return list.state.start();
    }
    let position = list.passed[random.below(list.passed.len())].clone();
    let at_end = position == [3, 0, 0];
    seen.begins.met(if at_end {
        "the end"
    } else {
        "a passed position"
    });
    position
}

fn random_steps(state: &State, random: &mut Random, seen: &mut Seen) -> u64 {
    let enough = state.steps();
    let most = match random.below(8) {
        0 => 0,
        1 => enough.saturating_sub(1),
        2 => random.pick(&[enough, enough + 1, u64::MAX]),
        _ => 1 + random.below(9) as u64,
    };
    seen.given.met(match most {
        0 => "none",
        _ if most >= enough => "enough",
        _ if most + 1 == enough => "one too few",
        _ => "some",
    });
    most
}

/// What a refused call is refused for.
const REFUSALS: [&str; 8] = [
    "policy",
    "no such position",
    "two numbers for a position",
    "four numbers for a position",
    "short report",
    "cut reserve",
    "bad FID in the reserve",
    "several",
];

/// A refused call in a list, of any policy, reserve and position.
fn call_refused(
    list: &List,
    scenario: &Scenario,
    side: &mut Side,
    random: &mut Random,
    seen: &mut Seen,
) -> u32 {
    let mut call = scenario.call(list.state.start(), random.below(9) as u64);
    call.policy = random.below(4) as u64;
    let kind = random.pick(&REFUSALS);
    if kind == "several" {
        for _ in 0..3 {
            let another = random.pick(&REFUSALS[..7]);
            spoil(&mut call, another, random);
        }
    } else {
        spoil(&mut call, kind, random);
    }
    seen.refusals.met(kind);
    list.refused(side, &call).answer
}

fn spoil(call: &mut Call, kind: &str, random: &mut Random) {
    match kind {
        "policy" => call.policy = random.pick(&[4, 7, 1 << 32, u64::MAX]),
        "no such position" => {
            let far = random.pick(&[1024, 65_536, 1 << 32, u64::MAX]);
            call.position = vec![random.below(5) as u64, far, 0];
        }
        "two numbers for a position" => call.position.truncate(2),
        "four numbers for a position" => call.position.resize(4, 0),
        "short report" => call.report.truncate(random.below(REPORT)),
        "cut reserve" => call.reserve.push(0),
        _ => call.reserve.splice(..0, [0; 16]).for_each(drop),
    }
}

/// A run over damaged tables, in no list.
fn call_damaged(state: &State, scenario: &Scenario, side: &mut Side, random: &mut Random) -> u32 {
    let damaged = state.damaged(random);
    let mut call = scenario.call(state.start(), random.below(9) as u64);
    let room = random.pick(&[0, REPORT - 1, REPORT, REPORT + 3]);
    call.report.resize(room, 7);
    let outcome = side.call(&damaged, &call);
    if outcome.is_refused() {
        check_unchanged(&damaged, &call, &outcome);
    }
    outcome.answer
}

/// A run of any policy and reserve from any position, in no list.
fn call_anywhere(state: &State, side: &mut Side, random: &mut Random) -> u32 {
    let (tables, _) = read_tables(&state.parents, &state.objects);
    let positions: Vec<Position> = Position::all(&tables).collect();
    let call = Call {
        reserve: random_reserve(random),
        policy: random.below(4) as u64,
        most: random.pick(&[1, 2, 5, u64::MAX]),
        position: random.pick(&positions).to_numbers().to_vec(),
        report: random.numbers(REPORT),
    };
    side.call(state, &call).answer
}
