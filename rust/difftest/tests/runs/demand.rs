//! Demand 3, sentence by sentence, on the calls of one side.

use crate::generations::{check_generations, raise_any};
use crate::side::{Call, Outcome, Side, State};
use numbers::call::{COUNTED, REPORT};
use numbers::object::{FRESH_AT, OST_AT};
use reference::check::read_tables;
use reference::tables::{Claim, OBJECT_BYTES};

/// What all calls of a list that are not refused share, and the tables that it starts from.
#[derive(Clone)]
pub struct Scenario {
    pub state: State,
    pub policy: u64,
    pub reserve: Vec<u8>,
    /// The numbers lent for the report, `REPORT` or more.
    pub report_room: usize,
}

impl Scenario {
    /// A call with this policy and reserve.
    pub fn call(&self, position: Vec<u64>, most: u64) -> Call {
        Call {
            reserve: self.reserve.clone(),
            policy: self.policy,
            most,
            position,
            report: vec![u64::MAX; self.report_room],
        }
    }

    pub fn creates(&self) -> bool {
        self.policy & 1 != 0
    }
}

/// The uncut run, step by step.
pub struct Uncut {
    /// The tables before the first step and after each.
    pub states: Vec<State>,
    /// What each call for one step left; the last may have done none.
    pub outcomes: Vec<Outcome>,
}

impl Uncut {
    /// Runs one step at a time from the start, to the end or the first of 21 to 23.
    pub fn of(scenario: &Scenario, side: &mut Side) -> Uncut {
        let mut uncut = Uncut {
            states: vec![scenario.state.clone()],
            outcomes: Vec::new(),
        };
        let mut position = scenario.state.start();
        loop {
            let before = uncut.end();
            let call = scenario.call(position, 1);
            let outcome = side.call(before, &call);
            check_answer(before, &call, &outcome);
            check_step(before, &call, &outcome);
            position = outcome.position.clone();
            let more = outcome.answer == 1;
            if outcome.steps() == 1 {
                uncut.states.push(outcome.state.clone());
                let step = &uncut.states[uncut.states.len() - 2..];
                check_generations(step, &outcome.state);
            }
            uncut.outcomes.push(outcome);
            if !more {
                break;
            }
        }
        uncut.check_whole(scenario, side);
        uncut
    }

    /// The tables where it ended or stopped.
    pub fn end(&self) -> &State {
        self.states.last().expect("the first is always there")
    }

    /// How it ended.
    pub fn last(&self) -> &Outcome {
        self.outcomes.last().expect("one call is always made")
    }

    pub fn reaches_end(&self) -> bool {
        self.last().answer == 0
    }

    /// In one call it does the same, first to generations and then to all bytes, in as many steps
    /// as the starting tables count.
    fn check_whole(&self, scenario: &Scenario, side: &mut Side) {
        let call = scenario.call(scenario.state.start(), u64::MAX);
        let whole = side.call(&scenario.state, &call);
        check_generations(&self.states, &whole.state);
        assert!(&whole.state == self.end(), "cut into steps, other tables");
        assert_eq!(whole.answer, self.last().answer);
        assert_eq!(whole.position, self.last().position);
        for number in 0..REPORT {
            let sum: u64 = self.outcomes.iter().map(|step| step.report[number]).sum();
            assert_eq!(whole.report[number], sum, "counts are not added");
        }
        if self.reaches_end() {
            assert_eq!(whole.steps(), scenario.state.steps());
            check_end(scenario, &whole);
        }
    }
}

/// One step is done, unless the end or one of 21 to 23 came first. It is counted exactly when
/// it changes a table.
fn check_step(before: &State, call: &Call, outcome: &Outcome) {
    let done = outcome.answer < 2 && call.position != [3, 0, 0];
    assert_eq!(outcome.steps(), u64::from(done));
    let changed = &outcome.state != before;
    assert_eq!(outcome.repairs().iter().sum::<u64>(), u64::from(changed));
}

/// The rows of objects that may hold data stay used, keep their FIDs and do not become fresh.
pub fn check_not_destroyed(before: &State, after: &State) {
    let rows = before.objects.chunks_exact(OBJECT_BYTES);
    for (row, kept) in rows.zip(after.objects.chunks_exact(OBJECT_BYTES)) {
        let holds_data = row[0] == 1 && row[FRESH_AT] == 0;
        if holds_data {
            assert_eq!(
                kept[..OST_AT],
                row[..OST_AT],
                "an object with data was destroyed"
            );
            assert_eq!(kept[FRESH_AT], 0, "an object with data became fresh");
        }
    }
}

/// With create, at the end every slot that isn't a hole names one object, which claims that
/// slot, is on the OST that the slot names, carries its file's owner and is named nowhere else.
fn check_end(scenario: &Scenario, outcome: &Outcome) {
    assert!(outcome.is_at_end());
    let (tables, faults) = read_tables(&outcome.state.parents, &outcome.state.objects);
    assert!(faults.is_empty(), "a run left unsound tables: {faults:?}");
    if !scenario.creates() {
        return;
    }
    let mut named = Vec::new();
    for parent in tables.parents.iter().flatten() {
        for (index, slot) in parent.layout.slots.iter().enumerate() {
            let Some(stripe) = slot else { continue };
            let objects = tables.objects.iter().flatten();
            let named_here: Vec<_> = objects.filter(|o| o.fid == stripe.object).collect();
            assert_eq!(named_here.len(), 1, "a slot names no object, or two");
            let claim = Claim {
                parent: parent.fid,
                index: index as u32,
            };
            assert_eq!(named_here[0].claim, Some(claim));
            assert_eq!(named_here[0].ost, stripe.ost);
            assert_eq!(named_here[0].owner, parent.owner);
            assert!(!named.contains(&stripe.object), "an object is named twice");
            named.push(stripe.object);
        }
    }
}

/// A list of calls as it goes on.
pub struct List<'a> {
    scenario: &'a Scenario,
    uncut: &'a Uncut,
    /// The tables as the last call left them.
    pub state: State,
    /// The tables are the uncut run's after so many steps.
    reached: usize,
    /// A call has reached the end.
    pub ended: bool,
    /// Positions that calls have passed.
    pub passed: Vec<Vec<u64>>,
}

impl<'a> List<'a> {
    pub fn new(scenario: &'a Scenario, uncut: &'a Uncut) -> List<'a> {
        List {
            scenario,
            uncut,
            state: scenario.state.clone(),
            reached: 0,
            ended: false,
            passed: Vec::new(),
        }
    }

    /// Whether the uncut run raises a generation.
    pub fn can_raise(&self) -> bool {
        raise_any(&self.uncut.states)
    }

    /// A call that the check of its input answers: it changes nothing.
    pub fn refused(&self, side: &mut Side, call: &Call) -> Outcome {
        let outcome = side.call(&self.state, call);
        assert!(outcome.is_refused(), "{call:?} answers {}", outcome.answer);
        check_unchanged(&self.state, call, &outcome);
        outcome
    }

    /// A call from the start or a passed position.
    pub fn run(&self, side: &mut Side, position: Vec<u64>, most: u64) -> (Call, Outcome) {
        let call = self.scenario.call(position, most);
        let outcome = side.call(&self.state, &call);
        assert!(!outcome.is_refused(), "a passed position is refused");
        check_answer(&self.state, &call, &outcome);
        (call, outcome)
    }

    /// The list goes on with the tables that a call left.
    pub fn go_on(&mut self, call: Call, outcome: Outcome) {
        self.check_tables(&outcome);
        self.check_enough(&call, &outcome);
        if outcome.is_at_end() {
            check_end(self.scenario, &outcome);
            self.ended = true;
        }
        self.passed.push(call.position);
        self.passed.push(outcome.position);
        self.state = outcome.state;
    }

    /// The tables are always the uncut run's after some number of its steps; once a call has
    /// reached the end they are those of its end.
    fn check_tables(&mut self, outcome: &Outcome) {
        let further = &self.uncut.states[self.reached..];
        let found = further.iter().position(|state| state == &outcome.state);
        match found {
            Some(steps) => self.reached += steps,
            None => panic!("no tables that the uncut run has from here on"),
        }
        if outcome.is_at_end() || self.ended {
            assert!(self.uncut.reaches_end());
            assert!(&outcome.state == self.uncut.end());
        }
    }

    /// Enough steps go as far as the uncut run, and end like it.
    fn check_enough(&self, call: &Call, outcome: &Outcome) {
        if call.most >= self.state.steps() {
            assert_eq!(outcome.answer, self.uncut.last().answer);
            assert_eq!(outcome.position, self.uncut.last().position);
            assert!(&outcome.state == self.uncut.end());
        }
    }

    /// The positions between the steps of a call are passed too. Taking them one by one from
    /// the tables before it does what the call did: first to generations, then to all bytes.
    /// Gives the tables before the call and after each step.
    pub fn retrace(&mut self, side: &mut Side, call: &Call, whole: &Outcome) -> Vec<State> {
        let mut states = vec![self.state.clone()];
        let mut position = call.position.clone();
        for at in 0..whole.steps() as usize {
            let step = side.call(&states[at], &self.scenario.call(position, 1));
            assert_eq!(step.steps(), 1);
            states.push(step.state);
            position = step.position;
            self.passed.push(position.clone());
        }
        check_generations(&states, &whole.state);
        assert!(states.last() == Some(&whole.state) && position == whole.position);
        states
    }

    /// A run of a steps and then one of b equals one of a + b. The list goes on without them.
    pub fn check_sum(&self, side: &mut Side, from: Vec<u64>, a: u64, b: u64) {
        let first = side.call(&self.state, &self.scenario.call(from.clone(), a));
        let second = side.call(&first.state, &self.scenario.call(first.position.clone(), b));
        let sum = side.call(&self.state, &self.scenario.call(from, a + b));
        assert_eq!(sum.answer, second.answer);
        assert_eq!(sum.position, second.position);
        assert!(sum.state == second.state);
        for number in 0..REPORT {
            assert_eq!(
                sum.report[number],
                first.report[number] + second.report[number]
            );
        }
    }
}

/// Nothing that was lent has changed.
pub fn check_unchanged(before: &State, call: &Call, outcome: &Outcome) {
    assert!(&outcome.state == before, "a refused call changed a table");
    assert_eq!(outcome.position, call.position);
    assert_eq!(outcome.report, call.report);
}

/// The end comes before 1, 1 comes with all steps used and before 21 to 23, and without a step
/// nothing changes.
fn check_answer(before: &State, call: &Call, outcome: &Outcome) {
    assert!(matches!(outcome.answer, 0 | 1 | 21..=23));
    assert_eq!(outcome.answer == 0, outcome.is_at_end());
    assert!(outcome.steps() <= call.most);
    assert_eq!(outcome.report[REPORT..], call.report[REPORT..]);
    let used_up = outcome.steps() == call.most;
    assert_eq!(outcome.answer == 1, used_up && !outcome.is_at_end());
    if outcome.steps() == 0 {
        assert!(&outcome.state == before);
        assert_eq!(outcome.position, call.position);
        assert_eq!(outcome.repairs(), [0; COUNTED]);
    }
}
