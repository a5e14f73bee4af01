//! A run of the library, at once or in slices so that somebody can watch.

use std::ops::ControlFlow;
use std::time::Instant;

use numbers::answer::STEPS_USED;
use numbers::call;

use crate::json::Json;
use crate::pace::Pace;
use crate::tables::Tables;

/// The classes whose repairs a run counts, in the order of its counts.
pub const COUNTED: [&str; call::COUNTED] = [
    "SELF",
    "MULTIPLE",
    "DANGLING",
    "BLANK",
    "UNMATCHED",
    "OWNER",
    "EMPTY",
    "ORPHAN",
    "WRONG-OST",
];

/// The answer of a run, where it stands and what it did.
#[derive(Clone, Copy, Debug, PartialEq, Eq)]
pub struct Run {
    /// The library's number.
    pub answer: u32,
    /// Stage, row and part.
    pub position: [u64; 3],
    /// The steps done.
    pub steps: u64,
    /// The repairs of each class that is counted.
    pub repairs: [u64; call::COUNTED],
}

/// Runs at once.
pub fn run(tables: &mut Tables, policy: u64, most: u64, position: [u64; 3]) -> Run {
    let mut position = position;
    let mut report = [0; call::REPORT];
    let answer = lfsck_sys::run(
        &mut tables.parents,
        &mut tables.objects,
        &tables.reserve,
        policy,
        most,
        &mut position,
        &mut report,
    );
    let [steps, repairs @ ..] = report;
    Run {
        answer,
        position,
        steps,
        repairs,
    }
}

/// Runs in slices, the first of so many steps, and tells after each how many are done; goes on
/// while it is told to. A run of a steps and then one of b equals one of a + b, so nobody can tell
/// the difference.
pub fn run_watched(
    tables: &mut Tables,
    policy: u64,
    most: u64,
    position: [u64; 3],
    first: u64,
    mut watch: impl FnMut(u64) -> ControlFlow<()>,
) -> Run {
    let started = Instant::now();
    let mut whole = run(tables, policy, first.min(most), position);
    let took = started.elapsed();
    let over = whole.answer != STEPS_USED || whole.steps == most;
    if over || watch(whole.steps).is_break() {
        return whole;
    }
    // No steps are a check alone.
    let started = Instant::now();
    run(tables, policy, 0, whole.position);
    let mut pace = Pace::after(first, took, started.elapsed());
    while whole.answer == STEPS_USED && whole.steps < most {
        let started = Instant::now();
        let steps = pace.steps().min(most - whole.steps);
        whole.add(run(tables, policy, steps, whole.position));
        if watch(whole.steps).is_break() {
            break;
        }
        pace.took(started.elapsed());
    }
    whole
}

impl Run {
    /// The repairs by class, for people.
    pub fn repairs_words(&self) -> String {
        let made: Vec<String> = COUNTED
            .iter()
            .zip(self.repairs)
            .filter(|(_, count)| *count > 0)
            .map(|(class, count)| format!("{class} {count}"))
            .collect();
        match made.len() {
            0 => "none".to_string(),
            _ => made.join(", "),
        }
    }

    /// The repairs by class, for machines.
    pub fn repairs_json(&self) -> Json {
        let repairs = COUNTED.iter().zip(self.repairs);
        let members = repairs.map(|(class, count)| (*class, Json::Number(count)));
        Json::Object(members.collect())
    }

    /// Adds a later run: counts added, answer and position taken.
    fn add(&mut self, later: Run) {
        self.answer = later.answer;
        self.position = later.position;
        self.steps += later.steps;
        for (sum, more) in self.repairs.iter_mut().zip(later.repairs) {
            *sum += more;
        }
    }
}

#[cfg(test)]
mod tests {
    use super::*;
    use crate::position::Position;
    use crate::site::Site;
    use difftest::Random;
    use difftest::tables::{OBJECTS, Shape, random_tables, to_bytes};

    const SHAPE: Shape = Shape {
        parents: 6,
        objects: 10,
        slots: 160,
        files: 6,
        fids: 10,
    };

    #[test]
    fn a_watched_run_is_a_run() {
        let mut random = Random::for_test("slices");
        let mut watched_often = false;
        for _ in 0..200 {
            let (parents, objects) = to_bytes(&random_tables(SHAPE, &mut random), &mut random);
            let reserve = OBJECTS.iter().flat_map(|fid| fid.to_bytes()).collect();
            let mut tables = Tables {
                parents,
                objects,
                reserve,
            };
            let site = Site::new(&tables);
            let start = Position::start(&site);
            let policy = random.below(4) as u64;
            let most = random.pick(&[0, 1, 150, 401, u64::MAX]);
            let mut watched = tables.clone();
            let whole = run(&mut tables, policy, most, start.to_numbers());
            let mut told = Vec::new();
            let sliced = run_watched(
                &mut watched,
                policy,
                most,
                start.to_numbers(),
                50,
                |steps| {
                    told.push(steps);
                    ControlFlow::Continue(())
                },
            );
            assert_eq!(sliced, whole);
            assert_eq!(watched, tables);
            assert!(told.is_sorted());
            watched_often |= told.len() > 1;
        }
        assert!(watched_often);
    }

    /// A run that is told to stop after its first slice is a run of the slice's steps.
    #[test]
    fn a_run_that_is_told_to_stop_stops_between_two_steps() {
        const SLICE: u64 = 30;
        let mut random = Random::for_test("stops");
        let mut stopped = 0;
        for _ in 0..200 {
            let (parents, objects) = to_bytes(&random_tables(SHAPE, &mut random), &mut random);
            let mut tables = Tables {
                parents,
                objects,
                reserve: Vec::new(),
            };
            let site = Site::new(&tables);
            let start = Position::start(&site);
            let start = start.to_numbers();
            let mut watched = tables.clone();
            let stop = |_| ControlFlow::Break(());
            let sliced = run_watched(&mut watched, 2, u64::MAX, start, SLICE, stop);
            let whole = run(&mut tables, 2, SLICE, start);
            assert_eq!(sliced, whole);
            assert_eq!(watched, tables);
            stopped += u64::from(sliced.answer == 1);
        }
        assert!(stopped > 100);
    }
}
