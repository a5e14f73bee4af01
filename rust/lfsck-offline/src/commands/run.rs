//! `run`: repairs, going on from the saved position.

use std::ops::ControlFlow;
use std::path::Path;

use numbers::answer::{BAD_TABLE, NO_POSITION, NO_ROOM, OK, STEPS_USED};
use stop::Signal;

use crate::answers::{meaning, refusal};
use crate::args::RunOptions;
use crate::bar::{Bar, Work};
use crate::case::Case;
use crate::change::Change;
use crate::changes::changes;
use crate::columns::{self, Line};
use crate::json::Json;
use crate::outcome::{Failure, Outcome, Status};
use crate::pace::{self, Plan};
use crate::position::Position;
use crate::reuse;
use crate::saved::{Saved, policy_words};
use crate::site::Site;
use crate::slices::{self, Run};
use crate::tables::Tables;

/// What is true of a run even where its report is lost.
const SAVED: &str = "the run was saved";

/// What a dry run says beside what the run would.
const DRY_RUN: &str = "a dry run: nothing is written";

/// Where a run begins, and why there.
struct Beginning {
    position: [u64; 3],
    words: String,
    resumed: bool,
}

/// Everything that there is to say about a run.
struct Report {
    policy: u64,
    beginning: Beginning,
    run: Run,
    position: Position,
    place: String,
    left: u64,
    /// The signal that ended the run before its last step.
    stopped: Option<Signal>,
    /// None where they are not asked for.
    changes: Option<Vec<Change>>,
}

/// Runs on a case.
pub fn run(
    directory: &Path,
    options: RunOptions,
    json: bool,
    bar: &Bar,
) -> Result<Outcome, Failure> {
    let case = open(directory, options)?;
    let old = case.wide_tables()?;
    let saved = match options.from_start {
        true => None,
        false => case.position()?,
    };
    let before = Site::new(&old);
    let beginning = beginning(&old, &before, saved, options);
    if !options.dry_run && steps_ahead(&before, beginning.position, options) > 0 {
        stop::listen();
        case.prepare(&old)?;
    }
    let mut tables = old.clone();
    let run = run_from(&mut tables, &before, beginning.position, options, bar);
    bar.turn_to(Work::Unmeasured("saving"));
    require_accepted(run, beginning.position, &old)?;
    let after = Site::new(&tables);
    let saves = run.steps > 0 && !options.dry_run;
    if saves {
        let saved = Saved::new(run.position, options.policy, &tables);
        let reused = reuse::used(&before, &after);
        case.save_run(&old, &tables, &saved, beginning.position, run, reused)?;
    }
    let report = Report::new(options, beginning, run, &before, &after);
    let text = match json {
        true => report.machine(),
        false => report.people(),
    };
    Ok(Outcome {
        note: options.dry_run.then_some(DRY_RUN),
        lasting: saves.then_some(SAVED),
        ..Outcome::ended(text, status(run.answer))
    })
}

/// The case, among other readers where nothing is written.
fn open(directory: &Path, options: RunOptions) -> Result<Case, Failure> {
    match options.dry_run {
        true => Case::open(directory),
        false => Case::open_alone(directory),
    }
}

/// The library did not refuse the tables or the position.
fn require_accepted(run: Run, from: [u64; 3], tables: &Tables) -> Result<(), Failure> {
    match run.answer {
        NO_POSITION => Err(no_such_position(from)),
        number @ BAD_TABLE..=NO_ROOM => Err(refusal(number, tables)),
        _ => Ok(()),
    }
}

/// The tables are those of the saved position, and still it is none of theirs.
fn no_such_position([stage, row, part]: [u64; 3]) -> Failure {
    let message = format!(
        "the saved position {stage}, {row}, {part} is refused with {NO_POSITION}: {}; \
         --from-start begins without it",
        meaning(NO_POSITION)
    );
    Failure::answered(NO_POSITION, message)
}

fn status(answer: u32) -> Status {
    match answer {
        OK => Status::Done,
        STEPS_USED => Status::StepsLeft,
        _ => Status::RanOut,
    }
}

/// The saved position where it counts, else the start.
fn beginning(tables: &Tables, site: &Site, saved: Option<Saved>, options: RunOptions) -> Beginning {
    let why = match saved {
        Some(saved) => match saved.differs(options.policy, tables) {
            None => {
                return Beginning {
                    position: saved.position,
                    words: "goes on from the saved position".to_string(),
                    resumed: true,
                };
            }
            Some(why) => format!("at the start; the saved position does not count: {why}"),
        },
        None if options.from_start => "at the start, as asked".to_string(),
        None => "at the start; there is no saved position".to_string(),
    };
    Beginning {
        position: Position::start(site).to_numbers(),
        words: format!("begins {why}"),
        resumed: false,
    }
}

/// The steps that a run has before it.
fn steps_ahead(site: &Site, position: [u64; 3], options: RunOptions) -> u64 {
    let left = Position::of_numbers(position).map_or(0, |position| position.steps_left(site));
    left.min(options.steps.unwrap_or(u64::MAX))
}

/// Runs, in one call or in slices.
fn run_from(
    tables: &mut Tables,
    site: &Site,
    position: [u64; 3],
    options: RunOptions,
    bar: &Bar,
) -> Run {
    let most = options.steps.unwrap_or(u64::MAX);
    let policy = options.policy;
    let steps = steps_ahead(site, position, options);
    match pace::plan(site, tables, policy, steps) {
        Plan::Whole => {
            bar.turn_to(Work::Unmeasured("running"));
            slices::run(tables, policy, most, position)
        }
        Plan::Slices(first) => {
            bar.turn_to(Work::Counted("steps", steps));
            slices::run_watched(tables, policy, most, position, first, |done| {
                bar.show(done);
                match stop::asked() {
                    Some(_) => ControlFlow::Break(()),
                    None => ControlFlow::Continue(()),
                }
            })
        }
    }
}

impl Report {
    fn new(
        options: RunOptions,
        beginning: Beginning,
        run: Run,
        before: &Site,
        after: &Site,
    ) -> Report {
        let position = Position::of_numbers(run.position).expect("a position of document 01");
        let cut = run.answer == STEPS_USED && options.steps != Some(run.steps);
        Report {
            policy: options.policy,
            beginning,
            run,
            position,
            place: position.words(after),
            left: position.steps_left(after),
            stopped: stop::asked().filter(|_| cut),
            changes: (!options.summary).then(|| changes(before, after)),
        }
    }

    fn people(&self) -> String {
        let mut text = format!(
            "The run {}.\nPolicy: {}.\n",
            self.beginning.words,
            policy_words(self.policy)
        );
        text += &self.changes_for_people();
        text += &format!("Repairs: {}.\n", self.run.repairs_words());
        text += &format!("Steps: {} done, {} left.\n", self.run.steps, self.left);
        text + &self.answer_for_people()
    }

    fn changes_for_people(&self) -> String {
        let Some(changes) = &self.changes else {
            return String::new();
        };
        if changes.is_empty() {
            return "Nothing was changed.\n".to_string();
        }
        let line = |change: &Change| {
            let what = change.words();
            Line::new(change.file, change.slot, change.object, what)
        };
        let lines: Vec<Line> = changes.iter().map(line).collect();
        format!("Changed:\n{}", columns::text(&lines))
    }

    fn changes_for_machines(&self) -> Json {
        let list = |changes: &Vec<Change>| Json::List(changes.iter().map(Change::json).collect());
        self.changes.as_ref().map_or(Json::Null, list)
    }

    fn answer_for_people(&self) -> String {
        match self.run.answer {
            OK => "Answer 0: the end is reached.\n".to_string(),
            STEPS_USED => format!(
                "Answer 1: {}; the next step is at {}.\n",
                match self.stopped {
                    Some(signal) => format!("{} came and the run is stopped", signal.name()),
                    None => "the steps are used up".to_string(),
                },
                self.place
            ),
            number => format!(
                "Answer {number}: {}. The run rests at {}.\n",
                meaning(number),
                self.place
            ),
        }
    }

    fn machine(&self) -> String {
        let [stage, row, part] = self.position.to_numbers();
        Json::Object(vec![
            ("answer", Json::Number(self.run.answer.into())),
            ("meaning", Json::text(meaning(self.run.answer))),
            ("policy", Json::Number(self.policy)),
            ("resumed", Json::Bool(self.beginning.resumed)),
            ("beginning", Json::text(&self.beginning.words)),
            ("stage", Json::Number(stage)),
            ("row", Json::Number(row)),
            ("part", Json::Number(part)),
            ("place", Json::text(&self.place)),
            ("steps_done", Json::Number(self.run.steps)),
            ("steps_left", Json::Number(self.left)),
            ("stopped", Json::maybe(self.stopped.map(Signal::name))),
            ("repairs", self.run.repairs_json()),
            ("changes", self.changes_for_machines()),
        ])
        .line()
    }
}
