//! Positions of a run: document 01's stage, row and part.

use numbers::call::{END, STAGE_END, STAGE_OBJECTS, STAGE_PARENTS};

use crate::site::{Place, Site};

/// A step of a run, or its end.
#[derive(Clone, Copy, Debug, PartialEq, Eq, Hash)]
pub enum Position {
    /// The header of a parent row; of an unused row, the row.
    Header(usize),
    /// A slot of a used parent row.
    Slot(Place),
    /// An object row.
    Object(usize),
    /// Nothing is left to do.
    End,
}

impl Position {
    /// The position that the library's three numbers stand for.
    pub fn of_numbers([stage, row, part]: [u64; 3]) -> Option<Position> {
        let row = usize::try_from(row).ok()?;
        match (stage, part) {
            (STAGE_PARENTS, 0) => Some(Position::Header(row)),
            (STAGE_PARENTS, part) => Some(Position::Slot(Place {
                row,
                slot: usize::try_from(part).ok()? - 1,
            })),
            (STAGE_OBJECTS, 0) => Some(Position::Object(row)),
            (STAGE_END, 0) if row == 0 => Some(Position::End),
            _ => None,
        }
    }

    /// Stage, row and part.
    pub fn to_numbers(self) -> [u64; 3] {
        match self {
            Position::Header(row) => [STAGE_PARENTS, row as u64, 0],
            Position::Slot(place) => [STAGE_PARENTS, place.row as u64, place.slot as u64 + 1],
            Position::Object(row) => [STAGE_OBJECTS, row as u64, 0],
            Position::End => END,
        }
    }

    /// Every position before the end, in the order of a run.
    pub fn all(site: &Site) -> impl Iterator<Item = Position> + '_ {
        let parents = (0..site.files.len()).flat_map(|row| {
            let slots = (0..width(site, row)).map(move |slot| Position::Slot(Place { row, slot }));
            std::iter::once(Position::Header(row)).chain(slots)
        });
        parents.chain((0..site.objects.len()).map(Position::Object))
    }

    /// Where a run begins: the first position that there is.
    pub fn start(site: &Site) -> Position {
        Position::all(site).next().unwrap_or(Position::End)
    }

    /// The steps from here to the end, by document 01's count. What is no position of the tables
    /// has few or none.
    pub fn steps_left(self, site: &Site) -> u64 {
        let objects = site.objects.len();
        let from_row = |row: usize| -> usize {
            let rows = row..site.files.len();
            rows.map(|row| 1 + width(site, row)).sum::<usize>() + objects
        };
        let left = match self {
            Position::Header(row) => from_row(row),
            Position::Slot(place) => from_row(place.row).saturating_sub(place.slot + 1),
            Position::Object(row) => objects.saturating_sub(row),
            Position::End => 0,
        };
        left as u64
    }

    /// The position in words.
    pub fn words(self, site: &Site) -> String {
        match self {
            Position::Header(row) => match site.file(row) {
                Some(file) => format!("the header of {}", file.fid),
                None => format!("the unused parent row {row}"),
            },
            Position::Slot(place) => match site.name(place) {
                Some(slot) => slot.to_string(),
                None => format!("slot {} of parent row {}", place.slot, place.row),
            },
            Position::Object(row) => match site.objects.get(row).and_then(Option::as_ref) {
                Some(object) => match object.claim {
                    Some(claim) => format!("object {}, which claims {claim}", object.fid),
                    None => format!("object {}", object.fid),
                },
                None => format!("the unused object row {row}"),
            },
            Position::End => "the end".to_string(),
        }
    }
}

/// The slots of a parent row; an unused one has none.
fn width(site: &Site, row: usize) -> usize {
    site.file(row).map_or(0, |file| file.slots.len())
}

#[cfg(test)]
mod tests {
    use super::*;
    use crate::tables::Tables;
    use difftest::tables::{Shape, random_tables, to_bytes};
    use difftest::{Coverage, Random};

    const SHAPE: Shape = Shape {
        parents: 2,
        objects: 2,
        slots: 2,
        files: 2,
        fids: 2,
    };

    #[test]
    fn the_start_is_the_library_s() {
        let mut random = Random::for_test("start");
        let mut met = Coverage::of("stages", [1, 2, 3]);
        for _ in 0..5_000 {
            let (parents, objects) = to_bytes(&random_tables(SHAPE, &mut random), &mut random);
            let mut start = [0; 3];
            assert_eq!(lfsck_sys::start(&parents, &objects, &mut start), 0);
            let reserve = Vec::new();
            let site = Site::new(&Tables {
                parents,
                objects,
                reserve,
            });
            assert_eq!(Position::start(&site).to_numbers(), start);
            met.met(start[0]);
        }
        met.require(10);
    }
}
