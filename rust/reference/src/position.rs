//! Positions: where a run stands.

use crate::tables::{Parent, Tables};

/// A step of a run, or its end.
#[derive(Clone, Copy, Debug, PartialEq, Eq, PartialOrd, Ord)]
pub enum Position {
    /// The header of a parent row; of an unused row, the row.
    Header {
        /// The parent row.
        row: usize,
    },
    /// A slot of a used parent row.
    Slot {
        /// The parent row.
        row: usize,
        /// The slot of its layout.
        slot: usize,
    },
    /// An object row.
    Object {
        /// The object row.
        row: usize,
    },
    /// Nothing is left to do.
    End,
}

impl Position {
    /// Every position of the tables in the order of a run, the end last.
    pub fn all(tables: &Tables) -> impl Iterator<Item = Position> + '_ {
        let parents = tables.parents.iter().enumerate();
        let stage_one = parents.flat_map(|(row, parent)| {
            let header = std::iter::once(Position::Header { row });
            header.chain((0..slot_count(parent)).map(move |slot| Position::Slot { row, slot }))
        });
        let stage_two = (0..tables.objects.len()).map(|row| Position::Object { row });
        stage_one
            .chain(stage_two)
            .chain(std::iter::once(Position::End))
    }

    /// Where a run begins.
    pub fn start(tables: &Tables) -> Position {
        Position::all(tables).next().unwrap_or(Position::End)
    }

    /// The position after this one.
    pub fn next(self, tables: &Tables) -> Position {
        match self {
            Position::Header { row } => slot_or_next_row(row, 0, tables),
            Position::Slot { row, slot } => slot_or_next_row(row, slot + 1, tables),
            Position::Object { row } => object_or_end(row + 1, tables),
            Position::End => Position::End,
        }
    }

    /// The position that stage, row and part stand for, if these tables have it.
    pub fn of_numbers([stage, row, part]: [u64; 3], tables: &Tables) -> Option<Position> {
        let (row, part) = (usize::try_from(row).ok()?, usize::try_from(part).ok()?);
        match (stage, part) {
            (1, 0) => (row < tables.parents.len()).then_some(Position::Header { row }),
            (1, _) => (part <= slot_count(tables.parents.get(row)?)).then_some(Position::Slot {
                row,
                slot: part - 1,
            }),
            (2, 0) => (row < tables.objects.len()).then_some(Position::Object { row }),
            (3, 0) => (row == 0).then_some(Position::End),
            _ => None,
        }
    }

    /// Stage, row and part.
    pub fn to_numbers(self) -> [u64; 3] {
        match self {
            Position::Header { row } => [1, row as u64, 0],
            Position::Slot { row, slot } => [1, row as u64, slot as u64 + 1],
            Position::Object { row } => [2, row as u64, 0],
            Position::End => [3, 0, 0],
        }
    }
}

fn slot_or_next_row(row: usize, slot: usize, tables: &Tables) -> Position {
    if slot < slot_count(&tables.parents[row]) {
        Position::Slot { row, slot }
    } else if row + 1 < tables.parents.len() {
        Position::Header { row: row + 1 }
    } else {
        object_or_end(0, tables)
    }
}

fn object_or_end(row: usize, tables: &Tables) -> Position {
    if row < tables.objects.len() {
        Position::Object { row }
    } else {
        Position::End
    }
}

/// The steps that an uncut run from the start takes.
pub fn count_steps(tables: &Tables) -> usize {
    Position::all(tables)
        .filter(|&position| position != Position::End)
        .count()
}

/// The slots of a parent row; an unused one has none.
fn slot_count(parent: &Option<Parent>) -> usize {
    parent
        .as_ref()
        .map_or(0, |parent| parent.layout.slots.len())
}
