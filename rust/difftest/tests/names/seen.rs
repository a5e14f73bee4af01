//! Everything that the test is to meet.

use difftest::Coverage;
use difftest::names::{Call, Flaw};
use reference::names::{FidFinding, Mark, Namespace, judge, mend, visible_directories};

use crate::calls::Mended;
use crate::climbs::{Climb, row_of};
use crate::hold::{has_stray, marks_of, tables_of};
use crate::sweeps::{self, Met};

/// What stood when a pass or a mending stopped.
#[derive(Clone, Copy, Debug, PartialEq, Eq, PartialOrd, Ord)]
pub enum Stopped {
    /// In front of the first entry that was to be mended.
    AtOnce,
    /// After records that were appended.
    AfterAppends,
    /// After self FIDs that were taken.
    AfterTaken,
    /// After FID-in-dirents that were written.
    AfterWritten,
    /// Records would have gone.
    BeforeRemovals,
}

impl Stopped {
    const ALL: [Stopped; 5] = [
        Stopped::AtOnce,
        Stopped::AfterAppends,
        Stopped::AfterTaken,
        Stopped::AfterWritten,
        Stopped::BeforeRemovals,
    ];
}

/// Counts of what was met.
pub struct Seen {
    answers: Coverage<(Call, u32)>,
    /// A number that was given, and one that would have been.
    order: Coverage<(Call, u32, u32)>,
    flaws: Coverage<(Call, Flaw)>,
    /// The finding, whether the record is there, whether the directory is visible.
    findings: Coverage<(FidFinding, bool, bool)>,
    climbs: Coverage<Climb>,
    /// The levels of climbs, so many or more.
    levels: Coverage<usize>,
    sizes: Coverage<&'static str>,
    twins: Coverage<&'static str>,
    marks: Coverage<Mark>,
    sweeps: Coverage<Met>,
    stopped: Coverage<Stopped>,
    again: Coverage<(&'static str, bool)>,
}

/// Five levels or more.
const MANY_LEVELS: usize = 5;
const EMPTY: &str = "a table without rows";
const FEW: &str = "few rows";
const MANY: &str = "more rows than a byte counts";

const REFUSALS: [u32; 4] = [11, 16, 31, 17];
const DONE: &str = "after something was done";
const IDLE: &str = "after nothing was done";

/// The answers of a function.
fn answers_of(call: Call) -> impl Iterator<Item = u32> {
    let more: &[u32] = match call {
        Call::Judge => &[39],
        Call::Find => &[],
        Call::Mend => &[38],
        Call::Pass => &[39, 38],
    };
    REFUSALS.into_iter().chain(more.iter().copied())
}

/// Each two answers of a function in their order.
fn pairs_of(call: Call) -> impl Iterator<Item = (Call, u32, u32)> {
    let numbers: Vec<u32> = answers_of(call).collect();
    let pairs = (0..numbers.len()).flat_map(move |first| {
        let numbers = numbers.clone();
        (first + 1..numbers.len()).map(move |second| (call, numbers[first], numbers[second]))
    });
    pairs.collect::<Vec<_>>().into_iter()
}

impl Seen {
    /// Nothing is met yet.
    pub fn nothing() -> Seen {
        let calls = || Call::ALL.into_iter();
        let answers = |call| answers_of(call).chain([0]).map(move |it| (call, it));
        let flaws = |call| {
            let seen = Flaw::ALL.into_iter().filter(move |it| it.is_seen_by(call));
            seen.map(move |flaw| (call, flaw))
        };
        let both = [(false, false), (false, true), (true, false), (true, true)];
        let findings = FidFinding::ALL.map(|it| both.map(|(has, seen)| (it, has, seen)));
        Seen {
            answers: Coverage::of("answers of names", calls().flat_map(answers)),
            order: Coverage::of("of two answers the first", calls().flat_map(pairs_of)),
            flaws: Coverage::of("flaws alone", calls().flat_map(flaws)),
            findings: Coverage::of(
                "findings, record there, directory visible",
                findings.into_iter().flatten(),
            ),
            climbs: Coverage::of("ends of climbs", Climb::ALL),
            levels: Coverage::of("levels", 0..=MANY_LEVELS),
            sizes: Coverage::of("sizes", [EMPTY, FEW, MANY]),
            twins: Coverage::of("rows behind the first", ["as the first", "otherwise"]),
            marks: Coverage::of("marks", Mark::ALL),
            sweeps: Coverage::of("sweeps", Met::ALL),
            stopped: Coverage::of("stopped", Stopped::ALL),
            again: Coverage::of(
                "mended again, under marks as judged",
                [(DONE, false), (DONE, true), (IDLE, false), (IDLE, true)],
            ),
        }
    }

    /// Everything was met.
    pub fn require(&self) {
        self.answers.require(500);
        self.order.require(50);
        self.flaws.require(500);
        self.findings.require(500);
        self.climbs.require(500);
        self.levels.require(100);
        self.sizes.require(100);
        self.twins.require(500);
        self.marks.require(500);
        self.sweeps.require(200);
        self.stopped.require(200);
        self.again.require(500);
    }

    pub fn answered(&mut self, call: Call, answer: u32) {
        self.answers.met((call, answer));
    }

    /// Flaws of a namespace, alone or before another; and before what the namespace has without
    /// them.
    pub fn note_flaws(&mut self, names: &Namespace, flaws: &[Flaw]) {
        let (is_long, is_full) = (judge(names).is_none(), stops_in_root(names));
        for call in Call::ALL {
            let Some(first) = Flaw::refusal(flaws, call) else {
                continue;
            };
            if let [flaw] = flaws {
                self.flaws.met((call, *flaw));
            }
            let seen = flaws.iter().filter(|flaw| flaw.is_seen_by(call));
            let later = seen.map(|flaw| flaw.number());
            let later = later.filter(|&number| number != first);
            let long = is_long && matches!(call, Call::Judge | Call::Pass);
            let full = is_full && matches!(call, Call::Mend | Call::Pass);
            let numbers = later.chain(long.then_some(39)).chain(full.then_some(38));
            numbers.for_each(|number| self.order.met((call, first, number)));
        }
    }

    /// 39 of a namespace that would stop whatever the marks.
    pub fn note_order(&mut self, names: &Namespace) {
        if stops_in_root(names) {
            self.order.met((Call::Pass, 39, 38));
        }
    }

    pub fn note_size(&mut self, names: &Namespace) {
        self.sizes
            .met(match (names.entries.len(), names.children.len()) {
                (0, _) | (_, 0) => EMPTY,
                (256.., _) | (_, 256..) => MANY,
                _ => FEW,
            });
    }

    /// How the climbs end, and whether rows behind the first with a FID would say otherwise.
    pub fn note_climbs(&mut self, names: &Namespace) {
        for child in &names.children {
            let Some(own) = child.own else {
                continue;
            };
            let (climb, levels) = Climb::of(names, own);
            self.climbs.met(climb);
            if let Some(levels) = levels {
                self.levels.met(levels.min(MANY_LEVELS));
            }
            let first = row_of(names, own).expect("a row");
            if !std::ptr::eq(first, child) {
                let alike = first.up == child.up && first.link.is_some() == child.link.is_some();
                self.twins
                    .met(if alike { "as the first" } else { "otherwise" });
            }
        }
    }

    pub fn note_findings(&mut self, names: &Namespace, findings: &[u64], marks: &[u64]) {
        let marks = marks_of(marks, names.children.len());
        let visible = visible_directories(&names.children, &marks);
        marks.iter().for_each(|&mark| self.marks.met(mark));
        for (entry, found) in names.entries.iter().zip(findings.chunks(2)) {
            let finding = FidFinding::ALL[found[0] as usize];
            let is_visible = visible.contains(&entry.record.parent);
            self.findings.met((finding, found[1] == 0, is_visible));
        }
    }

    pub fn note_sweeps(&mut self, names: &Namespace, marks: &[u64], mended: &Mended) {
        let marks = marks_of(marks, names.children.len());
        if mended.answer == 0 {
            let met = sweeps::met(names, &tables_of(mended), &marks);
            met.into_iter().for_each(|thing| self.sweeps.met(thing));
            return;
        }
        let visible = visible_directories(&names.children, &marks);
        let removes = has_stray(&tables_of(mended), &visible);
        let [taken, written, appended] = [0, 1, 2].map(|at| mended.report[at] > 0);
        for (is_so, stopped) in [
            (!taken && !written && !appended, Stopped::AtOnce),
            (appended, Stopped::AfterAppends),
            (taken, Stopped::AfterTaken),
            (written, Stopped::AfterWritten),
            (removes, Stopped::BeforeRemovals),
        ] {
            if is_so {
                self.stopped.met(stopped);
            }
        }
    }

    /// A second mending, under marks as judged or any.
    pub fn note_again(&mut self, first: &Mended, as_judged: bool) {
        let idle = first.report[..4] == [0; 4];
        self.again.met((if idle { IDLE } else { DONE }, as_judged));
    }
}

/// Whether a mending stops though ROOT alone is visible; then it does under all marks.
fn stops_in_root(names: &Namespace) -> bool {
    let marks = names.children.iter().map(|child| match child.own {
        None => Mark::NoFid,
        Some(_) => Mark::Hidden,
    });
    let marks: Vec<Mark> = marks.collect();
    mend(&mut names.clone(), &marks).stopped.is_some()
}
