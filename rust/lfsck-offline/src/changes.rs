//! What a run has changed: the tables before and after it, compared row by row.

use crate::change::{Change, Values, What};
use crate::fid::OstFid;
use crate::rows::{File, Object, Stripe};
use crate::site::Site;
use crate::tables::Table;

/// Everything that differs, file by file and slot by slot. Rows are neither added nor moved by a
/// run.
pub fn changes(before: &Site, after: &Site) -> Vec<Change> {
    let mut list = Vec::new();
    for (row, (old, new)) in before.files.iter().zip(&after.files).enumerate() {
        match (old, new) {
            (Some(old), Some(new)) if old.fid == new.fid => file_changes(row, old, new, &mut list),
            _ => {
                old.iter().for_each(|old| file_gone(row, old, &mut list));
                new.iter().for_each(|new| file_made(row, new, &mut list));
            }
        }
    }
    for (row, (old, new)) in before.objects.iter().zip(&after.objects).enumerate() {
        match (old, new) {
            (Some(old), Some(new)) if old.fid == new.fid => {
                object_changes(row, old, new, &mut list)
            }
            _ => {
                list.extend(old.map(|old| of_object(row, &old, What::ObjectDestroyed(old))));
                list.extend(new.map(|new| of_object(row, &new, What::ObjectMade(new))));
            }
        }
    }
    list.sort_by_key(|change| (change.file, change.slot));
    list
}

fn of_file(row: usize, file: &File, what: What) -> Change {
    Change {
        table: Table::Parents,
        row,
        file: Some(file.fid),
        slot: None,
        object: None,
        what,
        undone: false,
    }
}

/// What differs in a file that was there before.
fn file_changes(row: usize, old: &File, new: &File, list: &mut Vec<Change>) {
    let own = Values {
        old: old.header.own,
        new: new.header.own,
    };
    let generation = Values {
        old: old.header.generation,
        new: new.header.generation,
    };
    let count = Values {
        old: old.slots.len(),
        new: new.slots.len(),
    };
    let whats = [
        own.differ().then_some(What::Own(own)),
        generation.differ().then_some(What::Generation(generation)),
        count.differ().then_some(What::SlotCount(count)),
    ];
    let whats = whats.into_iter().flatten();
    list.extend(whats.map(|what| of_file(row, new, what)));
    slot_changes(row, new, &old.slots, &new.slots, list);
}

fn file_made(row: usize, file: &File, list: &mut Vec<Change>) {
    list.push(of_file(row, file, What::FileMade(file.clone())));
    slot_changes(row, file, &[], &file.slots, list);
}

fn file_gone(row: usize, file: &File, list: &mut Vec<Change>) {
    list.push(of_file(row, file, What::FileRemoved(file.clone())));
    slot_changes(row, file, &file.slots, &[], list);
}

/// The slots of a file that name something else than before.
fn slot_changes(
    row: usize,
    file: &File,
    old: &[Option<Stripe>],
    new: &[Option<Stripe>],
    list: &mut Vec<Change>,
) {
    for index in 0..old.len().max(new.len()) {
        let at = |slots: &[Option<Stripe>]| slots.get(index).copied().flatten();
        let values = Values {
            old: at(old),
            new: at(new),
        };
        if values.differ() {
            list.push(Change {
                slot: Some(index as u32),
                object: named(values),
                ..of_file(row, file, What::Slot(values))
            });
        }
    }
}

/// The object that a slot names, or else the one that it named.
fn named(slot: Values<Option<Stripe>>) -> Option<OstFid> {
    slot.new.or(slot.old).map(|stripe| stripe.object)
}

fn of_object(row: usize, object: &Object, what: What) -> Change {
    Change {
        table: Table::Objects,
        row,
        file: object.claim.map(|claim| claim.file),
        slot: object.claim.map(|claim| claim.index),
        object: Some(object.fid),
        what,
        undone: false,
    }
}

/// What differs in an object that was there before.
fn object_changes(row: usize, old: &Object, new: &Object, list: &mut Vec<Change>) {
    let claim = Values {
        old: old.claim,
        new: new.claim,
    };
    let owner = Values {
        old: old.owner,
        new: new.owner,
    };
    let claimant = if new.claim.is_some() { new } else { old };
    let claim = claim.differ().then_some(What::Claim(claim));
    let owner = owner.differ().then_some(What::Owner(owner));
    for what in claim.into_iter().chain(owner) {
        list.push(of_object(row, claimant, what));
    }
}

#[cfg(test)]
mod tests {
    use super::*;
    use crate::position::Position;
    use crate::slices;
    use crate::tables::Tables;
    use difftest::Random;
    use difftest::tables::{OBJECTS, Shape, random_tables, to_bytes};
    use std::collections::BTreeMap;

    const SHAPE: Shape = Shape {
        parents: 5,
        objects: 9,
        slots: 4,
        files: 5,
        fids: 9,
    };

    type Rows = (Vec<Option<File>>, Vec<Option<Object>>);

    fn rows(site: &Site) -> Rows {
        (site.files.clone(), site.objects.clone())
    }

    /// Puts the new value where the old one stands.
    fn put<Of: PartialEq + Copy + std::fmt::Debug>(place: &mut Of, values: Values<Of>) {
        assert_eq!(*place, values.old);
        assert_ne!(values.old, values.new);
        *place = values.new;
    }

    /// Makes a change, of something that stands there as the change says.
    fn make(change: &Change, (files, objects): &mut Rows) {
        match change.table {
            Table::Parents => make_in_file(change, &mut files[change.row]),
            _ => make_in_object(change, &mut objects[change.row]),
        }
    }

    fn make_in_file(change: &Change, row: &mut Option<File>) {
        match &change.what {
            What::FileMade(file) => {
                assert_eq!(*row, None);
                let slots = vec![None; file.slots.len()];
                *row = Some(File {
                    slots,
                    ..file.clone()
                });
            }
            What::FileRemoved(file) => {
                // Its slots are told one by one, and are gone by then.
                assert_eq!(row.as_ref().map(|row| row.fid), Some(file.fid));
            }
            what => {
                let file = row.as_mut().expect("a file");
                assert_eq!(Some(file.fid), change.file);
                make_in_layout(change.slot, what, file);
            }
        }
    }

    fn make_in_layout(slot: Option<u32>, what: &What, file: &mut File) {
        match what {
            What::Own(own) => put(&mut file.header.own, *own),
            What::Generation(generation) => put(&mut file.header.generation, *generation),
            What::SlotCount(count) => {
                put(&mut file.slots.len(), *count);
                // Slots that go are told one by one.
                file.slots.resize(count.new.max(count.old), None);
            }
            What::Slot(stripe) => put(&mut file.slots[slot.expect("a slot") as usize], *stripe),
            other => panic!("{other:?} of a file"),
        }
    }

    fn make_in_object(change: &Change, row: &mut Option<Object>) {
        match change.what {
            What::ObjectMade(object) => {
                assert_eq!(*row, None);
                *row = Some(object);
            }
            What::ObjectDestroyed(object) => {
                assert_eq!(*row, Some(object));
                *row = None;
            }
            What::Claim(claim) => put(&mut row.as_mut().expect("an object").claim, claim),
            What::Owner(owner) => put(&mut row.as_mut().expect("an object").owner, owner),
            ref other => panic!("{other:?} of an object"),
        }
    }

    /// Files that are removed, and slots that are cut off: empty by now.
    fn settle(list: &[Change], (files, _): &mut Rows) {
        for change in list {
            match &change.what {
                What::FileRemoved(_) => {
                    let file = files[change.row].take().expect("a file");
                    assert!(file.slots.iter().all(Option::is_none));
                }
                What::SlotCount(count) if count.new < count.old => {
                    let file = files[change.row].as_mut().expect("a file");
                    let cut = file.slots.split_off(count.new);
                    assert!(cut.iter().all(Option::is_none));
                }
                _ => (),
            }
        }
    }

    /// The changes, made on the old rows, give the new ones, and each is of something that
    /// differs.
    fn expect_whole(before: &Site, after: &Site, kinds: &mut BTreeMap<&'static str, u64>) {
        let list = changes(before, after);
        let mut made = rows(before);
        for change in &list {
            make(change, &mut made);
            *kinds.entry(change.what.kind()).or_default() += 1;
        }
        settle(&list, &mut made);
        assert_eq!(made, rows(after));
    }

    #[test]
    fn the_changes_are_the_difference_of_the_tables() {
        let mut random = Random::for_test("changes");
        let mut kinds = BTreeMap::new();
        for _ in 0..20_000 {
            let (parents, objects) = to_bytes(&random_tables(SHAPE, &mut random), &mut random);
            let reserve = OBJECTS.iter().flat_map(|fid| fid.to_bytes()).collect();
            let mut tables = Tables {
                parents,
                objects: [objects, vec![0; 46 * random.below(3)]].concat(),
                reserve,
            };
            let before = Site::new(&tables);
            let start = Position::start(&before);
            let most = random.pick(&[1, 7, u64::MAX]);
            let policy = random.below(4) as u64;
            slices::run(&mut tables, policy, most, start.to_numbers());
            let after = Site::new(&tables);
            expect_whole(&before, &after, &mut kinds);
            // And back again, as somebody does who takes a run back.
            expect_whole(&after, &before, &mut kinds);
        }
        println!("{kinds:?}");
        assert_eq!(kinds.len(), 10);
        assert!(kinds.values().all(|&count| count > 100), "{kinds:?}");
    }
}
