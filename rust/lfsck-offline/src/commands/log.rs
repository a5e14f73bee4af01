//! `log`: what was done in a case, and the story of one file or object.

use std::path::Path;

use crate::answers::meaning;
use crate::case::Case;
use crate::change::Change;
use crate::class::Class;
use crate::columns::{self, Line};
use crate::fid::Fid;
use crate::history::{Changes, Deed, Entry};
use crate::json::Json;
use crate::name_changes::{self, NameChange};
use crate::outcome::{Failure, Outcome};
use crate::saved::policy_words;
use crate::story::{concerns, mended};

/// Tells everything.
pub fn log(directory: &Path, json: bool) -> Result<Outcome, Failure> {
    let entries = Case::open(directory)?.log()?;
    let text = if json {
        let list = entries.iter().map(entry_json).collect();
        Json::Object(vec![("entries", Json::List(list))]).line()
    } else if entries.is_empty() {
        "The log is empty: no run has changed a table.\n".to_string()
    } else {
        entries.iter().map(entry_text).collect()
    };
    Ok(Outcome::done(text))
}

/// Tells what concerns one file or object.
pub fn story(directory: &Path, fid: Fid, json: bool) -> Result<Outcome, Failure> {
    let entries = Case::open(directory)?.log()?;
    let told = entries.iter().map(|entry| (entry, entry.concerning(fid)));
    let told: Vec<Told> = told.filter(|(_, changes)| !changes.is_empty()).collect();
    let text = if json {
        let list = told.iter().flat_map(story_json).collect();
        let members = vec![("fid", Json::text(fid)), ("story", Json::List(list))];
        Json::Object(members).line()
    } else if told.is_empty() {
        format!("Nothing in the log concerns {fid}.\n")
    } else {
        told.iter().map(story_text).collect()
    };
    Ok(Outcome::done(text))
}

/// An entry and what of it is told.
type Told<'log> = (&'log Entry, Concerning);

/// What of an entry concerns a file or object.
enum Concerning {
    /// Each with the class that was mended: none of an undo, and none of a generation that several
    /// raised.
    Files(Vec<(Change, Option<Class>)>),
    /// What concerns its names.
    Names(Vec<NameChange>),
}

impl Concerning {
    fn is_empty(&self) -> bool {
        match self {
            Concerning::Files(list) => list.is_empty(),
            Concerning::Names(list) => list.is_empty(),
        }
    }
}

impl Entry {
    fn concerning(&self, fid: Fid) -> Concerning {
        let all = match self.changes() {
            Changes::Files(all) => all,
            Changes::Names(mut all) => {
                all.retain(|change| change.concerns(fid));
                return Concerning::Names(all);
            }
        };
        let class = |change: &Change| match &self.deed {
            Deed::Run { reused, .. } => mended(change, &all, reused),
            _ => None,
        };
        let concerned = all.iter().filter(|change| concerns(change, fid));
        let with_class = concerned.map(|change| (change.clone(), class(change)));
        Concerning::Files(with_class.collect())
    }

    fn title(&self) -> String {
        let Entry { when, version, .. } = self;
        match &self.deed {
            Deed::Run { policy, .. } => {
                let policy = policy_words(*policy);
                format!("{when}  run, lfsck-offline {version}, policy: {policy}\n")
            }
            Deed::Mending(_) => format!("{when}  mending of names, lfsck-offline {version}\n"),
            Deed::Conversion(_) => format!("{when}  conversion, lfsck-offline {version}\n"),
            Deed::Undo { undoes, of } => {
                let undone = of.changed_by();
                format!("{when}  undo of the {undone} of {undoes}, lfsck-offline {version}\n")
            }
        }
    }

    /// How it went.
    fn report(&self) -> String {
        let numbers = |[stage, row, part]: [u64; 3]| format!("{stage},{row},{part}");
        match &self.deed {
            Deed::Run { from, run, .. } => format!(
                "  From position {} to {} in {} steps. Answer {}: {}.\n  Repairs: {}.\n",
                numbers(*from),
                numbers(run.position),
                run.steps,
                run.answer,
                meaning(run.answer),
                run.repairs_words()
            ),
            Deed::Mending(mended) => {
                let (done, end) = (mended.words(), mended.end_words());
                format!("  Answer {}: {end}.\n  Mended: {done}.\n", mended.answer)
            }
            Deed::Conversion(conversion) => format!("  {}.\n", conversion.words()),
            Deed::Undo { .. } => String::new(),
        }
    }
}

fn line(change: &Change, words: String) -> Line {
    Line::new(change.file, change.slot, change.object, words)
}

fn entry_text(entry: &Entry) -> String {
    let changes = match entry.changes() {
        Changes::Files(changes) => {
            let lines: Vec<Line> = changes.iter().map(|it| line(it, it.words())).collect();
            columns::text(&lines)
        }
        Changes::Names(changes) => name_changes::text(&changes),
    };
    entry.title() + &entry.report() + &changes
}

fn story_text((entry, concerning): &Told) -> String {
    let words = |(change, class): &(Change, Option<Class>)| {
        let words = change.words();
        match (class, &entry.deed) {
            (Some(class), _) => format!("{words}; {}: {}", class.name(), class.meaning()),
            (None, Deed::Run { .. }) => format!("{words}; by repairs of several classes"),
            (None, _) => words,
        }
    };
    let text = match concerning {
        Concerning::Files(changes) => {
            let lines: Vec<Line> = changes.iter().map(|it| line(&it.0, words(it))).collect();
            columns::text(&lines)
        }
        Concerning::Names(changes) => name_changes::text(changes),
    };
    entry.title() + &text
}

/// The entry as it stands in the log, and its changes.
fn entry_json(entry: &Entry) -> Json {
    let changes = match entry.changes() {
        Changes::Files(changes) => changes.iter().map(Change::json).collect(),
        Changes::Names(changes) => changes.iter().map(NameChange::json).collect(),
    };
    let mut members = entry.members();
    members.push(("changes", Json::List(changes)));
    Json::Object(members)
}

fn story_json((entry, concerning): &Told) -> Vec<Json> {
    let (policy, undoes) = match &entry.deed {
        Deed::Run { policy, .. } => (Some(*policy), None),
        Deed::Mending(_) | Deed::Conversion(_) => (None, None),
        Deed::Undo { undoes, .. } => (None, Some(undoes)),
    };
    let one = |change: Json, class: Option<Class>| {
        Json::Object(vec![
            ("what", Json::text(entry.what())),
            ("when", Json::text(&entry.when)),
            ("policy", Json::maybe_number(policy)),
            ("undoes", Json::maybe(undoes)),
            ("class", Json::maybe(class.map(Class::name))),
            ("why", Json::maybe(class.map(Class::meaning))),
            ("change", change),
        ])
    };
    match concerning {
        Concerning::Files(changes) => changes
            .iter()
            .map(|(change, class)| one(change.json(), *class))
            .collect(),
        Concerning::Names(changes) => changes
            .iter()
            .map(|change| one(change.json(), None))
            .collect(),
    }
}
