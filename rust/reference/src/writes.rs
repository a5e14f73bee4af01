//! The writes of a step: whole records, in an order in which they can be stored one by one.

use crate::class::Class;
use crate::fid::Fid;
use crate::position::Position;
use crate::site::Site;
use crate::step::{Policy, Stop, step};

/// A record that is written whole.
#[derive(Clone, Copy, Debug, PartialEq, Eq)]
pub enum Record {
    /// A parent row with its layout.
    Parent(usize),
    /// An object row.
    Object(usize),
}

/// The records that the step at a position writes, in their order: those that it changes.
pub fn writes(
    site: &Site,
    position: Position,
    policy: Policy,
    reserve: &[Fid],
) -> Result<Vec<Record>, Stop> {
    let mut after = site.clone();
    let repaired = step(&mut after, position, policy, reserve)?;
    let mut records = changed(site, &after);
    match (repaired, position) {
        (Some(Class::Orphan), Position::Object { row }) => {
            records.sort_by_key(|&record| turn_in_adoption(record, row));
        }
        _ => records.sort_by_key(|&record| turn_else(record)),
    }
    Ok(records)
}

/// When an orphan takes a place: the layout, then the orphan's owner, then the destroyed row.
fn turn_in_adoption(record: Record, orphan: usize) -> usize {
    match record {
        Record::Parent(_) => 0,
        Record::Object(row) if row == orphan => 1,
        Record::Object(_) => 2,
    }
}

/// In every other step: the object, then the layout.
fn turn_else(record: Record) -> usize {
    match record {
        Record::Object(_) => 0,
        Record::Parent(_) => 1,
    }
}

fn changed(before: &Site, after: &Site) -> Vec<Record> {
    let (before, after) = (before.tables(), after.tables());
    let parents = differing(&before.parents, &after.parents).map(Record::Parent);
    let objects = differing(&before.objects, &after.objects).map(Record::Object);
    parents.chain(objects).collect()
}

/// The rows that differ.
fn differing<Row: PartialEq>(before: &[Row], after: &[Row]) -> impl Iterator<Item = usize> {
    let rows = before.iter().zip(after).enumerate();
    rows.filter_map(|(row, (before, after))| (before != after).then_some(row))
}
