//! `undo`: takes the last run or mending back.

use std::path::Path;

use crate::case::Case;
use crate::change::Change;
use crate::columns::{self, Line};
use crate::history::{Deed, Entry, Group, digests, name_changes};
use crate::json::Json;
use crate::name_changes::{self, NameChange};
use crate::outcome::{Failure, Outcome};
use crate::saved::Saved;
use crate::site::Site;
use crate::tables::{Tables, Together};

/// Takes what the log of a case ends with back.
pub fn undo(directory: &Path, json: bool) -> Result<Outcome, Failure> {
    let case = Case::open_alone(directory)?;
    let entry = case.last_entry();
    let text = match &entry {
        Ok(Some(entry)) if entry.group() == Group::Names => undo_mending(&case, entry, json)?,
        _ => {
            let tables = case.wide_tables()?;
            undo_run(&case, &tables, entry?.as_ref(), json)?
        }
    };
    Ok(Outcome::done(text))
}

fn undo_run(
    case: &Case,
    tables: &Tables,
    entry: Option<&Entry>,
    json: bool,
) -> Result<String, Failure> {
    let (entry, saved) = last_run(entry)?;
    let restored = take_back(case, tables, entry)?;
    let mut changes = crate::changes::changes(&Site::new(tables), &Site::new(&restored));
    changes.iter_mut().for_each(|change| change.undone = true);
    Ok(match json {
        true => machine(entry, saved, &changes),
        false => people(entry, saved, &changes),
    })
}

fn undo_mending(case: &Case, entry: &Entry, json: bool) -> Result<String, Failure> {
    require_no_undo(entry)?;
    let missing = || {
        let when = &entry.when;
        Failure::refused(format!(
            "the names that the mending of {when} left are gone"
        ))
    };
    let names = case.names()?.ok_or_else(missing)?;
    let restored = take_back(case, &names, entry)?;
    let changes = name_changes(&names, &restored, true);
    Ok(match json {
        true => names_machine(entry, &changes),
        false => names_people(entry, &changes),
    })
}

/// Takes an entry back, and saves that; the tables as they are then.
fn take_back<Of: Together>(case: &Case, tables: &Of, entry: &Entry) -> Result<Of, Failure> {
    require_left(entry, tables)?;
    let broken = || Failure::refused("the last entry of the log does not tell what was before");
    let restored = entry.taken_back(tables).ok_or_else(broken)?;
    case.prepare(tables)?;
    case.save_undo(tables, &restored, entry)?;
    Ok(restored)
}

/// The run that the last entry of a log is, and the position that was saved before it.
fn last_run(entry: Option<&Entry>) -> Result<(&Entry, Option<&Saved>), Failure> {
    let none = || Failure::refused("there is no run in the log to take back");
    let entry = entry.ok_or_else(none)?;
    require_no_undo(entry)?;
    match &entry.deed {
        Deed::Run { saved, .. } => Ok((entry, saved.as_deref())),
        Deed::Conversion(_) => Err(Failure::refused(format!(
            "the last entry of the log is a conversion, of {}; a conversion is not taken back",
            entry.when
        ))),
        _ => Err(none()),
    }
}

/// An undo is not taken back.
fn require_no_undo(entry: &Entry) -> Result<(), Failure> {
    let Deed::Undo { undoes, of } = &entry.deed else {
        return Ok(());
    };
    Err(Failure::refused(format!(
        "the last entry of the log is an undo, of the {} of {undoes}; an undo is not taken back",
        of.changed_by()
    )))
}

/// The tables are what the entry left.
fn require_left<Of: Together>(entry: &Entry, tables: &Of) -> Result<(), Failure> {
    let now = digests(tables);
    let differs = (0..now.len()).find(|&at| now[at] != entry.after[at]);
    match differs {
        None => Ok(()),
        Some(at) => Err(Failure::refused(format!(
            "{} is not what the {} of {} left; nothing is taken back",
            Of::ALL[at].file(),
            Of::CHANGED_BY,
            entry.when
        ))),
    }
}

fn people(entry: &Entry, saved: Option<&Saved>, changes: &[Change]) -> String {
    let line = |change: &Change| {
        let words = change.words();
        Line::new(change.file, change.slot, change.object, words)
    };
    let lines: Vec<Line> = changes.iter().map(line).collect();
    let position = match saved {
        Some(_) => "The saved position is that of before it.",
        None => "There is no saved position, as before it.",
    };
    format!(
        "The run of {} is taken back.\nChanged:\n{}{position}\n",
        entry.when,
        columns::text(&lines)
    )
}

fn names_people(entry: &Entry, changes: &[NameChange]) -> String {
    format!(
        "The mending of {} is taken back.\nChanged:\n{}",
        entry.when,
        name_changes::text(changes)
    )
}

fn machine(entry: &Entry, saved: Option<&Saved>, changes: &[Change]) -> String {
    Json::Object(vec![
        ("undoes", Json::text(&entry.when)),
        ("rows", Json::Number(entry.rows.len() as u64)),
        ("position", Json::Bool(saved.is_some())),
        (
            "changes",
            Json::List(changes.iter().map(Change::json).collect()),
        ),
    ])
    .line()
}

fn names_machine(entry: &Entry, changes: &[NameChange]) -> String {
    Json::Object(vec![
        ("undoes", Json::text(&entry.when)),
        ("rows", Json::Number(entry.rows.len() as u64)),
        ("position", Json::Null),
        (
            "changes",
            Json::List(changes.iter().map(NameChange::json).collect()),
        ),
    ])
    .line()
}
