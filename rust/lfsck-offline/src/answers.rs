//! The library's numbers in words.

use numbers::answer::{self, OK};

use crate::bar::{Bar, Work};
use crate::faults::{Fault, faults};
use crate::name_faults::name_faults;
use crate::names::Names;
use crate::narrow;
use crate::outcome::Failure;
use crate::tables::Tables;

/// What a number of the library means.
pub fn meaning(number: u32) -> &'static str {
    match number {
        answer::OK => "end reached",
        answer::STEPS_USED => "steps used up, end not reached",
        answer::BAD_TABLE => "table not whole rows, too long, or a mark not 0 or 1",
        answer::BAD_POLICY => "policy above 3",
        answer::BAD_LAYOUT => "layout against the rules",
        answer::BAD_FID => "bad FID, object index or claim, or fresh without claim",
        answer::FID_TWICE => "a FID twice among used parents, or twice among used objects",
        answer::NO_POSITION => "no such position",
        answer::NO_ROOM => "no room for the answer",
        answer::NO_RESERVE => "a slot is to be redirected, and no FID of the reserve can be used",
        answer::NO_OBJECT_ROW => "an object is to be made, and no object row is unused",
        answer::NO_PARENT_ROW => "a file is to be made, and no parent row is unused",
        answer::BAD_LINK => "linkEA against the rules",
        answer::BAD_DUMP => "bad line, digits, length or owners, or an entry that isn't closed",
        answer::ATTRIBUTE_TWICE => "an attribute twice in an entry",
        answer::NO_SELF => "an entry without self FID",
        answer::NO_KIND => "an entry that is neither a file nor an object, or both",
        answer::NO_FIT => "an entry whose row doesn't fit",
        answer::LINK_FULL => "a record outgrows the room for its child's linkEA",
        answer::LONG_CLIMB => "a climb from directory to directory is too long or circular",
        _ => "an unknown answer",
    }
}

/// A fault in words.
pub fn fault_line(fault: &Fault) -> String {
    let file = fault.table.file();
    let (field, reason, number) = (&fault.field, &fault.reason, fault.number);
    match fault.row {
        Some(row) => format!("{file} row {row}, {field}: {reason} ({number})"),
        None => format!("{file}, {field}: {reason} ({number})"),
    }
}

/// What is shown while the library checks the tables.
pub const CHECKING: Work = Work::Unmeasured("checking the tables");

/// Ends a command on tables that do not pass the check.
pub fn require_sound(tables: &Tables, bar: &Bar) -> Result<(), Failure> {
    bar.turn_to(CHECKING);
    match tables.check() {
        0 => Ok(()),
        number => Err(refusal(number, tables)),
    }
}

/// Ends a command on tables with rows of an edition before 2026-07.
pub fn require_wide(tables: &Tables) -> Result<(), Failure> {
    let number = narrow::rows(&tables.parents).map_or(OK, |_| tables.check());
    match number {
        OK => Ok(()),
        number => Err(refusal(number, tables)),
    }
}

/// The line for tables that the library refused: the number and the first fault.
pub fn refusal(number: u32, tables: &Tables) -> Failure {
    refused("tables", number, meaning(number), &faults(tables))
}

/// The same for names.
pub fn names_refusal(number: u32, names: &Names) -> Failure {
    refused("names", number, names_meaning(number), &name_faults(names))
}

/// What a number means that the names are refused with.
pub fn names_meaning(number: u32) -> &'static str {
    match number {
        answer::BAD_TABLE => "table not whole rows, or too long",
        answer::NO_POSITION => "an entry's child at or past the child rows",
        answer::BAD_LINK => "name or linkEA against the rules",
        number => meaning(number),
    }
}

fn refused(what: &str, number: u32, meaning: &str, list: &[Fault]) -> Failure {
    let first = list.iter().find(|fault| fault.number == number);
    let first = first.map_or(meaning.to_string(), fault_line);
    let more = match list.len() {
        0 | 1 => "",
        _ => "; lfsck-offline check lists all that is wrong",
    };
    let message = format!("the {what} are refused with {number}: {first}{more}");
    Failure::answered(number, message)
}
