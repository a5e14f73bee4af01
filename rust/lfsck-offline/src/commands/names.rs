//! `names`: what the entries of directories and the children that they name say of each other, and
//! its mending.

use std::path::Path;

use crate::answers::{CHECKING, meaning, names_refusal};
use crate::args::NamesOptions;
use crate::bar::{Bar, Work};
use crate::case::Case;
use crate::fid::MdtFid;
use crate::history::name_changes;
use crate::json::Json;
use crate::mended::Mended;
use crate::name_changes::{self, NameChange};
use crate::name_finding::{COLUMNS, Finding, HEADING, Kind, OF_FID, OF_RECORD, findings};
use crate::name_rows::{Child, Entry, fid_words};
use crate::names::Names;
use crate::outcome::{Failure, Outcome, Status};
use crate::tables::{Table, Together};

/// What is true of a mending even where its report is lost.
const SAVED: &str = "the mending was saved";

/// What a dry run says beside what the mending would.
const DRY_RUN: &str = "a dry run: nothing is written";

/// The columns whose numbers end below each other: the entry and the child.
const NUMBERS: [usize; 2] = [0, 3];

/// Lists the findings of a case, or mends.
pub fn names(
    directory: &Path,
    options: NamesOptions,
    json: bool,
    bar: &Bar,
) -> Result<Outcome, Failure> {
    let case = match options.mend && !options.dry_run {
        true => Case::open_alone(directory)?,
        false => Case::open(directory)?,
    };
    let names = read(&case, directory)?;
    bar.turn_to(CHECKING);
    match options.mend {
        true => mend(&case, &names, options, json, bar),
        false => list(&names, options, json),
    }
}

/// The tables of names, which must be there.
fn read(case: &Case, directory: &Path) -> Result<Names, Failure> {
    let missing = || {
        let [entries, children] = Table::NAMES.map(Table::file);
        let directory = directory.display();
        Failure::files(format!(
            "{directory}: there are no names here, neither {entries} nor {children}"
        ))
    };
    case.names()?.ok_or_else(missing)
}

fn list(names: &Names, options: NamesOptions, json: bool) -> Result<Outcome, Failure> {
    let all = findings(names).map_err(|number| names_refusal(number, names))?;
    Ok(Outcome::done(match json {
        true => list_machine(names, &all, options.summary),
        false => list_people(&all, options.summary),
    }))
}

fn list_people(all: &[Finding], summary: bool) -> String {
    let told: Vec<&Finding> = all.iter().filter(|it| !it.is_consistent()).collect();
    let list = match told.len() {
        _ if summary => String::new(),
        0 => "Every entry is consistent.\n".to_string(),
        _ => {
            let heading = [HEADING.map(str::to_string)];
            let lines = told.iter().map(|finding| finding.columns());
            let lines: Vec<[String; COLUMNS]> = heading.into_iter().chain(lines).collect();
            format!("Entries that are not consistent:\n{}", in_columns(&lines))
        }
    };
    list + &summary_people(all)
}

/// The lines below each other, the columns as wide as they need be.
fn in_columns(lines: &[[String; COLUMNS]]) -> String {
    let widest = |at: usize| lines.iter().map(|line| line[at].len()).max().unwrap_or(0);
    let widths: [usize; COLUMNS] = std::array::from_fn(widest);
    let cell = |at: usize, text: &str| match NUMBERS.contains(&at) {
        true => format!("  {text:>width$}", width = widths[at]),
        false => format!("  {text:<width$}", width = widths[at]),
    };
    let print = |line: &[String; COLUMNS]| {
        let cells = line.iter().enumerate();
        let text: String = cells.map(|(at, text)| cell(at, text)).collect();
        format!("{}\n", text.trim_end())
    };
    lines.iter().map(print).collect()
}

fn count(all: &[Finding], is_such: impl Fn(&Finding) -> bool) -> u64 {
    all.iter().filter(|finding| is_such(finding)).count() as u64
}

fn summary_people(all: &[Finding]) -> String {
    let line = |what: &str, (_, name, meaning): Kind, count: u64| {
        format!("  {what:<6}  {name:<16}  {count:>5}  {meaning}\n")
    };
    let of_fid = OF_FID.map(|kind| line("FID", kind, count(all, |it| it.is_of_fid(kind))));
    let of_record =
        OF_RECORD.map(|kind| line("link", kind, count(all, |it| it.is_of_record(kind))));
    let hidden = count(all, |it| !it.is_visible);
    let left_out = match hidden {
        0 => String::new(),
        1 => "1 entry is in a hidden directory, and is left out of a mending.\n".to_string(),
        _ => {
            format!("{hidden} entries are in hidden directories, and are left out of a mending.\n")
        }
    };
    format!(
        "Summary:\n{}{}{left_out}",
        of_fid.concat(),
        of_record.concat()
    )
}

fn list_machine(names: &Names, all: &[Finding], summary: bool) -> String {
    let told = all.iter().filter(|it| !it.is_consistent());
    let told = match summary {
        true => Json::Null,
        false => Json::List(told.map(Finding::json).collect()),
    };
    let of_fid = OF_FID.map(|kind| (kind.1, Json::Number(count(all, |it| it.is_of_fid(kind)))));
    let of_record = OF_RECORD.map(|kind| {
        let count = count(all, |it| it.is_of_record(kind));
        (kind.1, Json::Number(count))
    });
    let hidden = count(all, |it| !it.is_visible);
    Json::Object(vec![
        ("entry_rows", Json::Number(all.len() as u64)),
        (
            "child_rows",
            Json::Number(names.count(Table::Children) as u64),
        ),
        ("findings", told),
        (
            "summary",
            Json::Object(vec![
                ("fid", Json::Object(of_fid.into())),
                ("link", Json::Object(of_record.into())),
                ("hidden", Json::Number(hidden)),
            ]),
        ),
    ])
    .line()
}

/// Everything that there is to say about a mending.
struct Report<'case> {
    mended: Mended,
    names: &'case Names,
    /// None where they are not asked for.
    changes: Option<Vec<NameChange>>,
}

fn mend(
    case: &Case,
    old: &Names,
    options: NamesOptions,
    json: bool,
    bar: &Bar,
) -> Result<Outcome, Failure> {
    let mut new = old.clone();
    let mended = new.pass().map_err(|number| names_refusal(number, old))?;
    let saves = !options.dry_run && new != *old;
    if saves {
        bar.turn_to(Work::Unmeasured("saving"));
        case.prepare(old)?;
        case.save_mending(old, &new, mended)?;
    }
    let report = Report {
        mended,
        names: &new,
        changes: (!options.summary).then(|| name_changes(old, &new, false)),
    };
    let text = match json {
        true => report.machine(),
        false => report.people(),
    };
    let status = match mended.stopped {
        None => Status::Done,
        Some(_) => Status::RanOut,
    };
    Ok(Outcome {
        note: options.dry_run.then_some(DRY_RUN),
        lasting: saves.then_some(SAVED),
        ..Outcome::ended(text, status)
    })
}

impl Report<'_> {
    /// The entry that the mending stopped in front of, and the self FID of its child.
    fn stopped(&self) -> Option<(Entry, Option<MdtFid>)> {
        let row = usize::try_from(self.mended.stopped?).ok()?;
        let entry = Entry::read(self.names.rows(Table::Entries).nth(row)?)?;
        let child = Child::read(self.names.rows(Table::Children).nth(entry.child)?)?;
        Some((entry, child.own))
    }

    fn people(&self) -> String {
        let changes = match &self.changes {
            None => String::new(),
            Some(changes) if changes.is_empty() => "Nothing was changed.\n".to_string(),
            Some(changes) => format!("Changed:\n{}", name_changes::text(changes)),
        };
        let answer = self.mended.answer;
        let end = match self.stopped() {
            None => self.mended.end_words(),
            Some((entry, own)) => format!(
                "{}, {}, child {} {}; what was done before it stands, and no record is removed",
                self.mended.end_words(),
                entry.at.words(),
                entry.child,
                fid_words(own)
            ),
        };
        let done = self.mended.words();
        format!("{changes}Mended: {done}.\nAnswer {answer}: {end}.\n")
    }

    fn machine(&self) -> String {
        let list =
            |changes: &Vec<NameChange>| Json::List(changes.iter().map(NameChange::json).collect());
        let stopped = self.stopped().map(|(entry, own)| {
            let mut members = Vec::from(entry.at.members());
            members.push(("child", Json::Number(entry.child as u64)));
            members.push(("self_fid", Json::maybe(own)));
            Json::Object(members)
        });
        let mut members = self.mended.members();
        members.insert(1, ("meaning", Json::text(self.meaning())));
        members.extend([
            ("stopped_entry", stopped.unwrap_or(Json::Null)),
            ("changes", self.changes.as_ref().map_or(Json::Null, list)),
        ]);
        Json::Object(members).line()
    }

    fn meaning(&self) -> String {
        match self.mended.stopped {
            None => self.mended.end_words(),
            Some(_) => meaning(self.mended.answer).to_string(),
        }
    }
}
