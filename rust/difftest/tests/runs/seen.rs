//! What the comparison of runs is to meet.

use crate::demand::{Scenario, Uncut};
use crate::generations::{self, Cause, Effect, effect_of, effects, kinds_of_call};
use crate::side::{Outcome, State};
use difftest::Coverage;
use difftest::indices::Indexed;
use difftest::tables::FAR;
use numbers::call::COUNTED;
use reference::check::{Faults, read_reserve, read_tables};
use reference::class::{Class, Way, way_to};
use reference::fid::Fid;
use reference::layout::Version;
use reference::position::Position;
use reference::site::Site;
use reference::tables::{Claim, OBJECT_BYTES};

/// Counts of what was met.
pub struct Seen {
    /// Calls by their answer, without those that go step by step.
    pub answers: Coverage<u32>,
    /// How the uncut runs ended.
    pub ends: Coverage<u32>,
    pub policies: Coverage<u64>,
    pub repairs: Coverage<&'static str>,
    /// Repairs, with what they do to generations.
    pub effects: Coverage<(Cause, Effect)>,
    /// What calls do to the generation of a row, where their steps are made one by one as well.
    pub generations: Coverage<&'static str>,
    /// Where calls were handed from.
    pub begins: Coverage<&'static str>,
    /// How many steps calls were given.
    pub given: Coverage<&'static str>,
    pub stops: Coverage<&'static str>,
    pub reserve: Coverage<&'static str>,
    pub refusals: Coverage<&'static str>,
    /// Whatever else a list is to have.
    pub turns: Coverage<&'static str>,
    /// The slots of layouts that an adoption made or let grow far, and how it did.
    pub lengths: Coverage<(u32, &'static str)>,
    /// Calls that go through a layout that has grown far.
    pub long: Coverage<&'static str>,
}

const REPAIRS: [&str; COUNTED] = [
    "SELF",
    "MULTIPLE",
    "DANGLING",
    "BLANK",
    "UNMATCHED",
    "OWNER",
    "EMPTY",
    "ORPHAN",
    "WRONG-OST",
];

const BEGINS: [&str; 4] = [
    "the start",
    "the start again",
    "a passed position",
    "the end",
];

const STOPS: [&str; 6] = [
    "21 alone",
    "21 before 22",
    "22",
    "22 of a redirect",
    "23",
    "1 before a stop",
];

const REDIRECTS: [&str; 5] = [
    "to an object that waits",
    "first of the reserve",
    "past an object's FID",
    "past a named FID",
    "past a repeat",
];

const TURNS: [&str; 7] = [
    "a call after the end",
    "a call after a stop",
    "a refused call before another",
    "retraced",
    "a then b",
    "a row made and destroyed in one call",
    "steps used up at the end",
];

impl Seen {
    pub fn nothing() -> Seen {
        Seen {
            answers: Coverage::of(
                "run answers",
                [0, 1, 11, 12, 13, 14, 15, 16, 17, 21, 22, 23],
            ),
            ends: Coverage::of("ends of uncut runs", [0, 21, 22, 23]),
            policies: Coverage::of("policies", 0..=3),
            repairs: Coverage::of("repairs in uncut runs", REPAIRS),
            effects: Coverage::of("repairs and generations", effects()),
            generations: Coverage::of("generations of rows in calls", generations::CALLS),
            begins: Coverage::of("calls handed", BEGINS),
            given: Coverage::of("steps given", ["none", "some", "one too few", "enough"]),
            stops: Coverage::of("stops", STOPS),
            reserve: Coverage::of("redirects", REDIRECTS),
            refusals: Coverage::of("refused calls", crate::REFUSALS),
            turns: Coverage::of("lists", TURNS),
            lengths: Coverage::of("adoptions to so many slots", lengths()),
            long: Coverage::of("calls through long layouts", ["made", "retraced"]),
        }
    }

    pub fn require(&self) {
        self.answers.require(100);
        self.ends.require(100);
        self.policies.require(100);
        self.repairs.require(100);
        self.effects.require(100);
        self.generations.require(300);
        self.begins.require(100);
        self.given.require(100);
        self.stops.require(100);
        self.reserve.require(20);
        self.refusals.require(100);
        self.turns.require(100);
        self.lengths.require(5);
        self.long.require(5);
    }

    /// Counts the repairs and stops of an uncut run.
    pub fn note_uncut(&mut self, scenario: &Scenario, uncut: &Uncut) {
        self.ends.met(uncut.last().answer);
        self.policies.met(scenario.policy);
        let mut position = scenario.state.start();
        for (at, outcome) in uncut.outcomes.iter().enumerate() {
            let before = &uncut.states[at.min(uncut.states.len() - 1)];
            let site = site_of(before);
            self.note_step(scenario, &site, &position, outcome);
            if let Some(cause) = cause_of(&site, &position, outcome) {
                let effect = effect_of(before, &outcome.state);
                self.effects.met((cause, effect));
            }
            position = outcome.position.clone();
        }
        self.note_call(&uncut.states);
        if uncut.last().answer > 20 && uncut.outcomes.len() > 1 {
            self.stops.met("1 before a stop");
        }
    }

    /// Counts what a call that did these steps did to generations.
    pub fn note_call(&mut self, steps: &[State]) {
        for kind in kinds_of_call(steps) {
            self.generations.met(kind);
        }
    }

    fn note_step(&mut self, scenario: &Scenario, site: &Site, at: &[u64], outcome: &Outcome) {
        if let Some(class) = repaired(outcome) {
            self.repairs.met(class);
            match class {
                "MULTIPLE" if makes_none(site, outcome) => {
                    self.reserve.met("to an object that waits");
                }
                "MULTIPLE" => self.note_redirect(scenario, site),
                "ORPHAN" => self.note_length(site, at),
                _ => (),
            }
        }
        self.note_stop(scenario, site, at, outcome.answer);
    }

    /// How many slots an adoption leads to, where it makes a file or lets one grow far.
    fn note_length(&mut self, site: &Site, at: &[u64]) {
        let orphan = site.object(at[1] as usize).and_then(|orphan| orphan.claim);
        let claim = orphan.expect("an orphan has a claim");
        if !FAR.contains(&claim.index) {
            return;
        }
        let how = match way_to(site, claim) {
            Ok(Way::MakeParent) => "made",
            Ok(Way::Grow) => match version_of(site, claim) {
                Version::One => "grown, version 1",
                Version::Three(_) => "grown, version 3",
            },
            _ => return,
        };
        self.lengths.met((claim.index + 1, how));
    }

    /// Which FIDs of the reserve a redirect passed over.
    fn note_redirect(&mut self, scenario: &Scenario, site: &Site) {
        let reserve = read_reserve(&scenario.reserve, &mut Faults::new());
        let is_object = |fid: Fid| site.object_row(fid).is_some();
        let is_named = |fid: Fid| site.named_by(fid).next().is_some();
        let is_used = |fid: Fid| is_object(fid) || is_named(fid);
        let passed: Vec<Fid> = reserve
            .into_iter()
            .take_while(|&fid| is_used(fid))
            .collect();
        if passed.is_empty() {
            self.reserve.met("first of the reserve");
        }
        if passed.iter().any(|&fid| !is_named(fid)) {
            self.reserve.met("past an object's FID");
        }
        if passed.iter().any(|&fid| !is_object(fid)) {
            self.reserve.met("past a named FID");
        }
        if (1..passed.len()).any(|at| passed[..at].contains(&passed[at])) {
            self.reserve.met("past a repeat");
        }
    }

    fn note_stop(&mut self, scenario: &Scenario, site: &Site, at: &[u64], answer: u32) {
        let full = site.tables().objects.iter().all(Option::is_some);
        match answer {
            21 if full => self.stops.met("21 before 22"),
            21 => self.stops.met("21 alone"),
            22 => self.stops.met("22"),
            23 => self.stops.met("23"),
            _ => (),
        }
        if answer == 22 && is_redirect(site, at) {
            assert!(!scenario.reserve.is_empty());
            self.stops.met("22 of a redirect");
        }
    }
}

/// Whether a step leaves as many objects as there were.
fn makes_none(site: &Site, outcome: &Outcome) -> bool {
    let rows = outcome.state.objects.chunks(OBJECT_BYTES);
    let after = rows.filter(|row| row[0] == 1).count();
    site.tables().objects.iter().flatten().count() == after
}

/// What adoption leads to at each far index.
fn lengths() -> impl Iterator<Item = (u32, &'static str)> {
    let ways = ["made", "grown, version 1", "grown, version 3"];
    FAR.into_iter()
        .flat_map(move |index| ways.map(|way| (index + 1, way)))
}

/// The version of the claimed file's layout.
fn version_of(site: &Site, claim: Claim) -> Version {
    let row = site.parent_row(claim.parent);
    let parent = row.and_then(|row| site.parent(row)).expect("a file");
    parent.layout.version
}

/// The class that a step repaired, if any.
fn repaired(step: &Outcome) -> Option<&'static str> {
    let mut counts = REPAIRS.into_iter().zip(step.repairs());
    counts.find_map(|(class, &count)| (count == 1).then_some(class))
}

/// The repair of the step at a position, if it made one.
fn cause_of(site: &Site, at: &[u64], step: &Outcome) -> Option<Cause> {
    Some(match repaired(step)? {
        "BLANK" | "UNMATCHED" | "OWNER" | "WRONG-OST" => {
            let slot = Indexed::at(site, position_of(site, at));
            Cause::Mending(slot.expect("a slot with a present object"))
        }
        "ORPHAN" => {
            let orphan = site.object(at[1] as usize).expect("an orphan is there");
            let claim = orphan.claim.expect("an orphan has a claim");
            match way_to(site, claim).expect("an orphan's place can be had") {
                Way::Grow => Cause::Growth(growth_to(site, claim)),
                way => Cause::Adoption(way),
            }
        }
        class => Cause::Repair(class),
    })
}

/// How far the claimed layout grows up to the claimed slot.
fn growth_to(site: &Site, claim: Claim) -> &'static str {
    let row = site.parent_row(claim.parent);
    let parent = row.and_then(|row| site.parent(row)).expect("a file");
    if claim.index as usize == parent.layout.slots.len() {
        "by one slot"
    } else {
        "by several slots"
    }
}

/// Whether the step at a position is to redirect its slot.
fn is_redirect(site: &Site, at: &[u64]) -> bool {
    Class::at(site, position_of(site, at)) == Some(Class::Multiple)
}

fn position_of(site: &Site, at: &[u64]) -> Position {
    let numbers = at.try_into().expect("three numbers");
    Position::of_numbers(numbers, site.tables()).expect("a position")
}

fn site_of(state: &State) -> Site {
    Site::new(read_tables(&state.parents, &state.objects).0)
}
