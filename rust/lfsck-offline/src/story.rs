//! Why something was changed: the class that a run mended, told from what it changed.
//!
//! A run reports how many repairs it made of each class and not where. Each repair leaves its
//! own kind of change, so the class can be told; one that a later repair of the same run took
//! back leaves no change but the generation that it raised. A redirect to an object that was there
//! looks like an orphan that takes its place, so which objects redirects used is known beside that.

use crate::change::{Change, Values, What};
use crate::class::Class;
use crate::fid::{Fid, MdtFid, OstFid};
use crate::rows::{Claim, Stripe, raises};

/// The class that was mended where a run changed something, told from all that it changed and from
/// the objects that its redirects used; none where repairs of several classes raised a generation.
pub fn mended(change: &Change, all: &[Change], reused: &[OstFid]) -> Option<Class> {
    let is_reused = |object: OstFid| reused.contains(&object);
    Some(match &change.what {
        What::Own(_) => Class::SelfId,
        What::Generation(generation) => return raised_by(change.file, *generation, all, reused),
        What::ObjectMade(object) if newly_named(object.fid, all) => Class::Multiple,
        What::ObjectMade(_) => Class::Dangling,
        What::ObjectDestroyed(object) if formerly_named(object.fid, all) => Class::Orphan,
        // A slot came to name it before it gave way.
        What::ObjectDestroyed(object) if is_reused(object.fid) => Class::Orphan,
        What::ObjectDestroyed(_) => Class::Empty,
        What::Slot(slot) => match (slot.old, slot.new) {
            (Some(old), Some(new)) if old.object == new.object => index_mended(old.object, all),
            (_, Some(stripe)) if made(stripe.object, all) => Class::Multiple,
            (_, Some(stripe)) if is_reused(stripe.object) => Class::Multiple,
            _ => Class::Orphan,
        },
        What::Claim(claim) => claim_mended(*claim),
        What::Owner(_) => owner_mended(change, all, reused),
        What::FileMade(_) | What::FileRemoved(_) | What::SlotCount(_) => Class::Orphan,
    })
}

/// The class whose repairs alone raised the generation of a file. Each change of a slot raised it
/// once; where an orphan took a slot that was mended in the same run it was raised twice, by two
/// classes, and one change is left.
fn raised_by(
    file: Option<MdtFid>,
    generation: Values<u64>,
    all: &[Change],
    reused: &[OstFid],
) -> Option<Class> {
    let is_slot = |change: &&Change| change.file == file && matches!(change.what, What::Slot(_));
    let slots = all.iter().filter(is_slot);
    let classes: Vec<Class> = slots.filter_map(|slot| mended(slot, all, reused)).collect();
    let first = *classes.first()?;
    let alone = classes.iter().all(|class| class.name() == first.name());
    let once = classes.len() as u64 == raises(generation.old, generation.new);
    (alone && once).then_some(first)
}

/// A claim is written where there is none, or instead of another.
fn claim_mended(claim: Values<Option<Claim>>) -> Class {
    claim.old.map_or(Class::Blank, Class::Unmatched)
}

/// An owner is written with a claim, or when an object is used for a slot or put in its place, or
/// with the OST index of its slot, or by itself.
fn owner_mended(change: &Change, all: &[Change], reused: &[OstFid]) -> Class {
    let Some(object) = change.object else {
        return Class::Owner;
    };
    match claim_written(object, all) {
        Some(claim) => claim_mended(claim),
        None if reused.contains(&object) => Class::Multiple,
        None if newly_named(object, all) => Class::Orphan,
        None if index_written(object, all) => Class::WrongOst,
        None => Class::Owner,
    }
}

/// An OST index is written with a claim, or for itself.
fn index_mended(object: OstFid, all: &[Change]) -> Class {
    claim_written(object, all).map_or(Class::WrongOst, claim_mended)
}

/// The change of an object's claim.
fn claim_written(object: OstFid, all: &[Change]) -> Option<Values<Option<Claim>>> {
    let mut of_object = all.iter().filter(|change| change.object == Some(object));
    of_object.find_map(|change| match change.what {
        What::Claim(claim) => Some(claim),
        _ => None,
    })
}

/// Whether a slot names an object that it did not name before.
fn newly_named(object: OstFid, all: &[Change]) -> bool {
    slots(all).any(|(old, new)| new == Some(object) && old != new)
}

/// Whether a slot named an object that it does not name now.
fn formerly_named(object: OstFid, all: &[Change]) -> bool {
    slots(all).any(|(old, new)| old == Some(object) && old != new)
}

/// Whether a slot that named an object, and names it still, was changed: its OST index was.
fn index_written(object: OstFid, all: &[Change]) -> bool {
    slots(all).any(|(old, new)| new == Some(object) && old == new)
}

/// The objects that changed slots named and name.
fn slots(all: &[Change]) -> impl Iterator<Item = (Option<OstFid>, Option<OstFid>)> {
    let named = |stripe: Option<Stripe>| stripe.map(|stripe| stripe.object);
    all.iter().filter_map(move |change| match &change.what {
        What::Slot(slot) => Some((named(slot.old), named(slot.new))),
        _ => None,
    })
}

/// Whether an object was made.
fn made(object: OstFid, all: &[Change]) -> bool {
    all.iter().any(|change| match &change.what {
        What::ObjectMade(made) => made.fid == object,
        _ => false,
    })
}

/// Whether a change concerns a file or an object: it is changed itself, or was or is named or
/// claimed there.
pub fn concerns(change: &Change, fid: Fid) -> bool {
    let file = change.file.is_some_and(|file| file.0 == fid);
    let object = change.object.is_some_and(|object| object.0 == fid);
    let other = match &change.what {
        What::Slot(slot) => slot.old.is_some_and(|stripe| stripe.object.0 == fid),
        What::Claim(claim) => claim.old.is_some_and(|claim| claim.file.0 == fid),
        _ => false,
    };
    file || object || other
}

#[cfg(test)]
mod tests {
    use super::*;
    use crate::changes::changes;
    use crate::position::Position;
    use crate::reuse;
    use crate::site::Site;
    use crate::slices::{self, COUNTED, Run};
    use crate::tables::Tables;
    use difftest::tables::{OBJECTS, Shape};
    use difftest::{Coverage, Random};
    use numbers::answer::STEPS_USED;
    use numbers::object;
    use std::collections::{BTreeMap, BTreeSet};

    const SHAPE: Shape = Shape {
        parents: 5,
        objects: 9,
        slots: 4,
        files: 5,
        fids: 9,
    };

    fn random_case(random: &mut Random) -> Tables {
        let mut tables = Tables::random_or_cut(SHAPE, random);
        tables.objects.extend([0; 3 * object::BYTES]);
        tables.reserve = OBJECTS.iter().flat_map(|fid| fid.to_bytes()).collect();
        tables
    }

    /// A step at a time the class is known: it is the one whose repair was counted.
    #[test]
    fn a_step_mended_the_class_that_it_counted() {
        let mut random = Random::for_test("story");
        let (mut met, mut used) = (BTreeMap::new(), 0);
        for _ in 0..2_000 {
            let mut tables = random_case(&mut random);
            let start = Position::all(&Site::new(&tables)).next();
            let mut position = start.unwrap_or(Position::End).to_numbers();
            for _ in 0..60 {
                let before = Site::new(&tables);
                let run = slices::run(&mut tables, 3, 1, position);
                let after = Site::new(&tables);
                let (list, reused) = (changes(&before, &after), reuse::used(&before, &after));
                for change in &list {
                    let class = mended(change, &list, &reused).expect("one class").name();
                    let at = COUNTED.iter().position(|name| *name == class);
                    assert_eq!(run.repairs[at.expect(class)], 1, "{change:?} of {list:?}");
                    *met.entry(class).or_insert(0) += 1;
                }
                used += reused.len();
                position = run.position;
                if run.answer != 1 {
                    break;
                }
            }
        }
        println!("classes mended: {met:?}; objects used: {used}");
        assert!(COUNTED.iter().all(|class| met.get(class) > Some(&20)) && used > 20);
    }

    /// Of a whole run, no class is told that was not mended.
    #[test]
    fn a_run_mended_the_classes_that_it_counted() {
        let mut random = Random::for_test("stories");
        let mut met = Coverage::of("objects used", ["named", "destroyed"]);
        for _ in 0..4_000 {
            let mut tables = random_case(&mut random);
            let before = Site::new(&tables);
            let start = Position::all(&before).next().unwrap_or(Position::End);
            let policy = random.pick(&[0, 1, 2, 3, 3, 3]);
            let run = slices::run(&mut tables, policy, u64::MAX, start.to_numbers());
            let after = Site::new(&tables);
            let (list, reused) = (changes(&before, &after), reuse::used(&before, &after));
            for fid in &reused {
                let there = after.object_row(*fid).is_some();
                met.met(if there { "named" } else { "destroyed" });
            }
            let classes = list
                .iter()
                .filter_map(|change| mended(change, &list, &reused));
            for class in classes {
                let class = class.name();
                let at = COUNTED.iter().position(|name| *name == class);
                assert!(run.repairs[at.expect(class)] > 0, "{class} of {list:?}");
            }
        }
        met.require(20);
    }

    /// The changes of generations in a list, each with its file.
    fn generations(list: &[Change]) -> Vec<(&Change, MdtFid, Values<u64>)> {
        let of_file = list
            .iter()
            .filter_map(|change| Some((change, change.file?)));
        of_file
            .filter_map(|(change, file)| match change.what {
                What::Generation(generation) => Some((change, file, generation)),
                _ => None,
            })
            .collect()
    }

    /// The class whose repair a run of one step counted.
    fn counted(run: &Run) -> &'static str {
        let class = run.repairs.iter().position(|&count| count == 1);
        COUNTED[class.expect("a repair")]
    }

    /// Runs a step at a time, and tells by which classes the generation of each file was raised.
    fn raisers(tables: &mut Tables, policy: u64) -> BTreeMap<MdtFid, BTreeSet<&'static str>> {
        let mut raisers: BTreeMap<MdtFid, BTreeSet<&str>> = BTreeMap::new();
        let mut before = Site::new(tables);
        let mut position = Position::start(&before).to_numbers();
        loop {
            let run = slices::run(tables, policy, 1, position);
            let after = Site::new(tables);
            let list = changes(&before, &after);
            if let Some((_, file, _)) = generations(&list).first() {
                raisers.entry(*file).or_default().insert(counted(&run));
            }
            if run.answer != STEPS_USED {
                return raisers;
            }
            (before, position) = (after, run.position);
        }
    }

    /// How generations are raised in a run.
    const RAISED: [&str; 3] = ["by one class", "by several classes", "twice in one slot"];

    /// A generation has the class that alone raised it, and none where several did.
    fn expect_raiser(
        (change, file, generation): (&Change, MdtFid, Values<u64>),
        classes: &BTreeSet<&str>,
        list: &[Change],
        reused: &[OstFid],
    ) -> &'static str {
        let is_slot = |it: &&Change| it.file == Some(file) && matches!(it.what, What::Slot(_));
        let slots = list.iter().filter(is_slot).count() as u64;
        let twice = raises(generation.old, generation.new) > slots;
        let told = mended(change, list, reused).map(Class::name);
        let alone = classes.first().copied().filter(|_| classes.len() == 1);
        assert_eq!(told, alone, "{classes:?} of {list:?}");
        match (told, twice) {
            (Some(_), false) => RAISED[0],
            (None, false) => RAISED[1],
            (None, true) => RAISED[2],
            (Some(_), true) => panic!("{change:?} of {list:?}"),
        }
    }

    #[test]
    fn a_generation_has_the_class_that_raised_it() {
        let mut random = Random::for_test("generations");
        let mut met = Coverage::of("raised", RAISED);
        for _ in 0..4_000 {
            let mut tables = random_case(&mut random);
            let before = Site::new(&tables);
            let raisers = raisers(&mut tables, random.below(4) as u64);
            let after = Site::new(&tables);
            let (list, reused) = (changes(&before, &after), reuse::used(&before, &after));
            generations(&list).into_iter().for_each(|raised| {
                met.met(expect_raiser(raised, &raisers[&raised.1], &list, &reused));
            });
        }
        met.require(20);
    }
}
