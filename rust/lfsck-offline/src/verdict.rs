//! The classes of a case's positions: the library's verdicts.
//!
//! Each call of the library checks the whole tables first, and at the limits that takes seconds.
//! So one call tells many classes: where a few positions are asked for, of those that follow
//! each, and after some calls all that there are. Its number is handed on where it refuses the
//! tables.

use std::cell::{Cell, RefCell};

use numbers::call::CLASS;

use crate::class::Class;
use crate::position::Position;
use crate::site::Site;
use crate::tables::Tables;

/// So many calls are made for single positions.
const FEW_CALLS: u32 = 4;

/// Such a call tells so many classes.
pub const BY_CALL: usize = 4096;

/// Verdicts on the positions of a case.
pub struct Verdicts<'case> {
    tables: &'case Tables,
    /// Where a run begins.
    first: Position,
    /// How many positions come before each parent row, and before the first object row.
    starts: Vec<usize>,
    /// The classes that are known, in the order of a run.
    known: RefCell<Vec<Option<Class>>>,
    /// The calls that were made for single positions.
    calls: Cell<u32>,
    /// The classes that such a call tells.
    by_call: usize,
}

impl<'case> Verdicts<'case> {
    /// Verdicts on a case.
    pub fn new(tables: &'case Tables, site: &'case Site) -> Verdicts<'case> {
        let rows = 0..=site.files.len();
        let starts: Vec<usize> = rows.map(|row| row + site.slots_before(row)).collect();
        let count = starts[starts.len() - 1] + site.objects.len();
        Verdicts {
            tables,
            first: Position::start(site),
            starts,
            known: RefCell::new(vec![None; count]),
            calls: Cell::new(0),
            by_call: BY_CALL,
        }
    }

    /// The class at a position that is not the end.
    pub fn at(&self, position: Position) -> Result<Class, u32> {
        let index = self.index(position);
        if self.known.borrow()[index].is_none() {
            self.tell_about(position)?;
        }
        Ok(self.known.borrow()[index].expect("every position before the end has a class"))
    }

    /// Asks for all classes, so many by a call, and tells after each how many are known.
    pub fn tell_all(&self, by_call: usize, mut watch: impl FnMut(u64)) -> Result<(), u32> {
        let mut position = self.first;
        let mut done = 0;
        while position != Position::End {
            let (told, next) = self.tell(position, by_call.max(1))?;
            done += told;
            position = next;
            watch(done as u64);
        }
        Ok(())
    }

    /// Asks for the classes from a position on; after some calls, for all.
    fn tell_about(&self, position: Position) -> Result<(), u32> {
        if self.calls.get() == FEW_CALLS {
            return self.tell_all(self.count(), |_| ());
        }
        self.calls.set(self.calls.get() + 1);
        self.tell(position, self.by_call).map(|_| ())
    }

    /// One call of the library, for so many classes from a position on: how many it told, and the
    /// first position that it did not.
    fn tell(&self, from: Position, most: usize) -> Result<(usize, Position), u32> {
        let mut position = from.to_numbers();
        let first = self.index(from);
        let most = most.min(self.count() - first);
        let mut numbers = vec![0; CLASS * most];
        let mut done = [0];
        let answer = lfsck_sys::classes(
            &self.tables.parents,
            &self.tables.objects,
            &mut position,
            &mut numbers,
            &mut done,
        );
        if answer != 0 {
            return Err(answer);
        }
        let told = done[0] as usize;
        let classes = numbers.as_chunks::<CLASS>().0.iter().take(told);
        let mut known = self.known.borrow_mut();
        for (place, class) in known[first..].iter_mut().zip(classes) {
            *place = Some(Class::of_numbers(*class).expect("a class of document 01"));
        }
        let next = Position::of_numbers(position).expect("a position of document 01");
        Ok((told, next))
    }

    /// How many positions come before this one.
    fn index(&self, position: Position) -> usize {
        match position {
            Position::Header(row) => self.starts[row],
            Position::Slot(place) => self.starts[place.row] + 1 + place.slot,
            Position::Object(row) => self.starts[self.starts.len() - 1] + row,
            Position::End => self.count(),
        }
    }

    /// How many positions there are before the end.
    pub fn count(&self) -> usize {
        self.known.borrow().len()
    }
}

#[cfg(test)]
mod tests {
    use super::*;
    use difftest::Random;
    use difftest::tables::Shape;

    /// Few files and objects, so that slots and claims meet.
    const SHAPE: Shape = Shape {
        parents: 5,
        objects: 7,
        slots: 4,
        files: 4,
        fids: 6,
    };

    /// The class that the library tells of a position alone.
    fn alone(tables: &Tables, position: Position) -> Class {
        let mut numbers = [0; CLASS];
        let position = position.to_numbers();
        let answer = lfsck_sys::class(&tables.parents, &tables.objects, position, &mut numbers);
        assert_eq!(answer, 0);
        Class::of_numbers(numbers).expect("a class of document 01")
    }

    #[test]
    fn verdicts_are_the_classes_of_the_positions_alone() {
        let mut random = Random::for_test("verdicts");
        let mut met = [0_u64; numbers::call::CLASSES];
        for _ in 0..2_000 {
            let tables = Tables::random(SHAPE, &mut random);
            let site = Site::new(&tables);
            let mut positions: Vec<Position> = Position::all(&site).collect();
            let told = Verdicts::new(&tables, &site);
            let mut counts = Vec::new();
            let by_call = 1 + random.below(12);
            assert_eq!(told.tell_all(by_call, |done| counts.push(done)), Ok(()));
            assert!(counts.is_sorted());
            assert_eq!(counts.last().copied().unwrap_or(0), positions.len() as u64);
            let asked = Verdicts {
                by_call: 1 + random.below(12),
                ..Verdicts::new(&tables, &site)
            };
            random.shuffle(&mut positions);
            for position in positions {
                let class = alone(&tables, position);
                assert_eq!(told.at(position), Ok(class), "{position:?}");
                assert_eq!(asked.at(position), Ok(class), "{position:?}");
                met[class.number()] += 1;
            }
        }
        println!("{met:?}");
        assert!(met.iter().all(|&count| count > 100), "{met:?}");
    }

    #[test]
    fn the_steps_left_are_the_library_s_count_at_the_start() {
        let mut random = Random::for_test("steps left");
        for _ in 0..2_000 {
            let tables = Tables::random(SHAPE, &mut random);
            let (parents, objects) = (&tables.parents, &tables.objects);
            let mut count = [0];
            assert_eq!(lfsck_sys::steps(parents, objects, &mut count), 0);
            let mut start = [0; 3];
            assert_eq!(lfsck_sys::start(parents, objects, &mut start), 0);
            let site = Site::new(&tables);
            let start = Position::of_numbers(start).expect("a position");
            assert_eq!(start.steps_left(&site), count[0]);
            let all: Vec<Position> = Position::all(&site).collect();
            for (done, position) in all.iter().enumerate() {
                assert_eq!(position.steps_left(&site), count[0] - done as u64);
                let numbers = position.to_numbers();
                assert_eq!(Position::of_numbers(numbers), Some(*position));
            }
        }
    }
}
