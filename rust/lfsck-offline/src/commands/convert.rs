//! `convert`: makes a case of an earlier edition one of this edition.

use std::path::Path;

use crate::bar::{Bar, Work};
use crate::case::Case;
use crate::faults::length_fault;
use crate::history::Conversion;
use crate::json::Json;
use crate::narrow;
use crate::outcome::{Failure, Outcome};
use crate::saved::Held;
use crate::tables::{Table, Tables};

/// What there is to say about a conversion.
struct Report {
    /// The rows that were widened.
    conversion: Option<Conversion>,
    /// Whether there are parent rows.
    has_rows: bool,
    /// The saved position that was thrown away: what it was.
    position: Option<String>,
}

/// Converts a case.
pub fn convert(directory: &Path, json: bool, bar: &Bar) -> Result<Outcome, Failure> {
    let case = Case::open_alone(directory)?;
    let old = case.tables()?;
    let conversion = conversion(&old)?;
    let report = Report {
        conversion,
        has_rows: !old.parents.is_empty(),
        position: thrown_away(case.held()?, conversion.is_some()),
    };
    let saves = report.conversion.is_some() || report.position.is_some();
    if saves {
        bar.turn_to(Work::Unmeasured("saving"));
        let mut new = old.clone();
        if conversion.is_some() {
            new.parents = narrow::widened(&old.parents);
        }
        case.save_conversion(&old, &new, conversion)?;
    }
    let text = match json {
        true => report.machine(),
        false => report.people(),
    };
    Ok(Outcome {
        lasting: saves.then_some("the conversion was saved"),
        ..Outcome::done(text)
    })
}

/// The rows that are to be widened; a failure where they are of no edition.
fn conversion(tables: &Tables) -> Result<Option<Conversion>, Failure> {
    let parents = &tables.parents;
    match narrow::rows(parents) {
        Some(rows) => Ok(Some(Conversion::of_rows(rows))),
        None if length_fault(Table::Parents, parents).is_none() => Ok(None),
        None => Err(Failure::refused(format!(
            "{} has neither whole rows of {} bytes nor whole rows of {} bytes, at most {} of them; \
             nothing is converted",
            Table::Parents.file(),
            narrow::BYTES,
            Table::Parents.row_bytes(),
            Table::Parents.most_rows()
        ))),
    }
}

/// Which saved position goes: where rows are widened any, else one that is none of this edition.
fn thrown_away(held: Held, widened: bool) -> Option<String> {
    match held {
        Held::Nothing => None,
        Held::Own(_) => widened.then(|| "of this edition".to_string()),
        Held::Other(edition) => Some(format!("of {edition}")),
        Held::Broken => Some("which cannot be read".to_string()),
    }
}

impl Report {
    fn people(&self) -> String {
        let rows = match self.conversion {
            Some(conversion) => conversion.words(),
            None if self.has_rows => {
                let size = Table::Parents.row_bytes();
                format!("No row to widen: the parent rows have {size} bytes")
            }
            None => "No row to widen: there are no parent rows".to_string(),
        };
        let position = match &self.position {
            Some(position) => format!("The saved position, {position}, is thrown away"),
            None if self.conversion.is_some() => "There is no saved position".to_string(),
            None => "There is nothing to convert".to_string(),
        };
        format!("{rows}.\n{position}.\n")
    }

    fn machine(&self) -> String {
        let nothing = || Conversion::of_rows(0);
        let mut members = self.conversion.unwrap_or_else(nothing).members();
        members.push(("position_removed", Json::Bool(self.position.is_some())));
        members.push(("position", Json::maybe(self.position.as_ref())));
        Json::Object(members).line()
    }
}
