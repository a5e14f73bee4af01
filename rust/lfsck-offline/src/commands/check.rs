//! `check`: are the tables sound, and if not, every row at fault.

use std::path::Path;

use crate::answers::{CHECKING, fault_line, meaning, names_meaning};
use crate::bar::Bar;
use crate::case::Case;
use crate::faults::{Fault, faults};
use crate::history::Group;
use crate::json::Json;
use crate::moments::two_moments;
use crate::name_faults::name_faults;
use crate::names::Names;
use crate::narrow;
use crate::outcome::{Failure, Outcome, Status};
use crate::quoted::on_one_line;
use crate::tables::{Table, Tables, Together};

/// What the check of the names found.
struct OfNames {
    number: u32,
    faults: Vec<Fault>,
    entries: usize,
    children: usize,
}

/// Checks a case.
pub fn check(directory: &Path, json: bool, bar: &Bar) -> Result<Outcome, Failure> {
    let case = Case::open(directory)?;
    let tables = case.tables()?;
    let names = case.names()?;
    let warning = warning(&case, &tables, names.as_ref());
    bar.turn_to(CHECKING);
    let number = tables.check();
    let list = faults(&tables);
    let of_names = names.as_ref().map(OfNames::new);
    let text = if json {
        machine(number, &list, &tables, warning, of_names.as_ref())
    } else {
        let told = match number {
            0 => sound(&tables),
            _ => unsound("tables", number, meaning(number), &list),
        };
        let names = of_names.as_ref().map(OfNames::people);
        let warning = warning.map(|words| format!("Warning: {}.\n", on_one_line(&words)));
        told + &names.unwrap_or_default() + &warning.unwrap_or_default()
    };
    let status = match (number, of_names.map_or(0, |names| names.number)) {
        (0, 0) => Status::Done,
        _ => Status::Refused,
    };
    Ok(Outcome::ended(text, status))
}

/// What the log knows against the tables: that they are of two moments.
fn warning(case: &Case, tables: &Tables, names: Option<&Names>) -> Option<String> {
    let of_files = match case.last_of(Group::Files) {
        Ok(entry) => entry.and_then(|entry| two_moments(&entry, tables)),
        Err(failure) => Some(failure.message),
    };
    let of_names = || match case.last_of(Group::Names) {
        Ok(entry) => two_moments(&entry?, names?),
        Err(failure) => Some(failure.message),
    };
    of_files.or_else(|| names.and_then(|_| of_names()))
}

impl OfNames {
    fn new(names: &Names) -> OfNames {
        OfNames {
            number: names.check(),
            faults: name_faults(names),
            entries: names.count(Table::Entries),
            children: names.count(Table::Children),
        }
    }

    fn people(&self) -> String {
        let OfNames {
            entries, children, ..
        } = self;
        let (entry, child) = (Table::Entries.file(), Table::Children.file());
        match self.number {
            0 => format!("The names are sound: {entry} {entries} rows, {child} {children} rows.\n"),
            number => unsound("names", number, names_meaning(number), &self.faults),
        }
    }

    fn json(&self) -> Json {
        Json::Object(vec![
            ("answer", Json::Number(self.number.into())),
            ("sound", Json::Bool(self.number == 0)),
            ("meaning", Json::text(soundness(self.number, names_meaning))),
            ("entry_rows", Json::Number(self.entries as u64)),
            ("child_rows", Json::Number(self.children as u64)),
            ("faults", faults_json(&self.faults)),
        ])
    }
}

fn sound(tables: &Tables) -> String {
    let mut text = String::from("The tables are sound.\n");
    for table in Table::ALL {
        let rows = tables.rows(table).count();
        let file = table.file();
        text += &match table {
            Table::Reserve => format!("  {file}  {rows} FIDs\n"),
            _ => format!("  {file}  {rows} rows, {} used\n", used(tables, table)),
        };
    }
    text
}

fn used(tables: &Tables, table: Table) -> usize {
    tables.rows(table).filter(|row| row[0] == 1).count()
}

fn unsound(what: &str, number: u32, meaning: &str, list: &[Fault]) -> String {
    let mut text = format!("The {what} are not sound: {number}, {meaning}.\n");
    for fault in list {
        text += &format!("  {}\n", fault_line(fault));
    }
    text
}

/// What a number means of tables that are checked.
fn soundness(number: u32, meaning: fn(u32) -> &'static str) -> &'static str {
    match number {
        0 => "sound",
        _ => meaning(number),
    }
}

fn faults_json(list: &[Fault]) -> Json {
    let fault = |fault: &Fault| {
        Json::Object(vec![
            ("number", Json::Number(fault.number.into())),
            ("table", Json::text(fault.table.file())),
            ("row", Json::maybe_number(fault.row.map(|row| row as u64))),
            ("field", Json::text(&fault.field)),
            ("reason", Json::text(&fault.reason)),
        ])
    };
    Json::List(list.iter().map(fault).collect())
}

fn machine(
    number: u32,
    list: &[Fault],
    tables: &Tables,
    warning: Option<String>,
    names: Option<&OfNames>,
) -> String {
    let rows = |table| Json::Number(tables.rows(table).count() as u64);
    let narrow = narrow::rows(&tables.parents).map(|rows| Json::Number(rows as u64));
    let mut members = vec![
        ("answer", Json::Number(number.into())),
        ("sound", Json::Bool(number == 0)),
        ("meaning", Json::text(soundness(number, meaning))),
        ("parent_rows", narrow.unwrap_or(rows(Table::Parents))),
        ("object_rows", rows(Table::Objects)),
        ("reserve_fids", rows(Table::Reserve)),
        ("faults", faults_json(list)),
        ("warning", Json::maybe(warning)),
    ];
    members.extend(names.map(|names| ("names", names.json())));
    Json::Object(members).line()
}
