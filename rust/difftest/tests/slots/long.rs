//! Random tables in which one layout is long, most of its slots holes, and objects claim slots at
//! its end: checks, classes, keepers, listings and runs about the last slot.

use std::time::Instant;

use difftest::tables::{Lent, OBJECTS, TINY, random_tables, to_bytes};
use difftest::{Coverage, Random};
use numbers::call::BOTH;
use reference::class::{Class, Denial, Way, way_to};
use reference::fid::Fid;
use reference::layout::{Stripe, Version};
use reference::position::Position;
use reference::site::{Place, Site};
use reference::tables::{Claim, Object, Owner, Tables};

use crate::sides;

const TABLES: usize = 2_500;

/// The slots of long layouts.
const COUNTS: [usize; 4] = [160, 161, 1_999, 2_000];
/// The owner of the long file and of some objects.
const OWNER: Owner = Owner { uid: 0, gid: 0 };

/// Everything that the test is to meet.
struct Seen {
    /// The slots of long layouts, and their version.
    counts: Coverage<(usize, u32)>,
    /// The class of the last slot of a layout of 2,000 slots.
    last: Coverage<u64>,
    /// Claimed indices at the end of long layouts, and what there is of the place.
    places: Coverage<(u32, &'static str)>,
    /// Where keepers are.
    keepers: Coverage<&'static str>,
    /// What runs answer.
    answers: Coverage<u32>,
    /// The numbers of slots that the long layout ends with, where it has grown.
    grown: Coverage<usize>,
}

/// The claimed indices that are met, each with what there can be of the place.
fn all_places() -> impl Iterator<Item = (u32, &'static str)> {
    let some = [160, 1_998, 1_999].into_iter().flat_map(|index| {
        let ways = ["a hole", "a fresh object", "past the count", "taken"];
        ways.map(move |way| (index, way))
    });
    some.chain([(2_000, "no such slot"), (2_001, "no such slot")])
}

impl Seen {
    fn nothing() -> Seen {
        let versions = COUNTS.map(|count| [(count, 1), (count, 3)]);
        Seen {
            counts: Coverage::of("slots and version", versions.into_iter().flatten()),
            last: Coverage::of("classes of slot 1,999", [0, 2, 3, 4, 5, 6, 7, 14]),
            places: Coverage::of("claimed places", all_places()),
            keepers: Coverage::of("keepers", ["slot 1,999", "elsewhere", "none"]),
            answers: Coverage::of("answers of runs", [0, 1, 21, 22, 23]),
            grown: Coverage::of("slots of grown layouts", [161, 162, 1_999, 2_000]),
        }
    }

    fn require(&self) {
        self.counts.require(50);
        self.last.require(3);
        self.places.require(5);
        self.keepers.require(50);
        self.answers.require(5);
        self.grown.require(5);
    }

    /// Counts the places that orphans and objects in conflict claim.
    fn note_places(&mut self, site: &Site) {
        let rows = 0..site.tables().objects.len();
        for object in rows.filter(|&row| is_unnamed(site, row)) {
            let claim = site.object(object).and_then(|object| object.claim);
            let Some(claim) = claim.filter(|claim| claim.index >= 160) else {
                continue;
            };
            let what = match way_to(site, claim) {
                Ok(Way::FillHole) => "a hole",
                Ok(Way::ReplaceFresh) => "a fresh object",
                Ok(Way::Grow) => "past the count",
                Ok(Way::MakeParent) | Err(Denial::Plain) => continue,
                Err(Denial::Index) => "no such slot",
                Err(_) => "taken",
            };
            if all_places().any(|place| place == (claim.index, what)) {
                self.places.met((claim.index, what));
            }
        }
    }
}

/// Whether an object is an orphan or in conflict.
fn is_unnamed(site: &Site, row: usize) -> bool {
    let class = Class::at(site, Position::Object { row });
    matches!(class, Some(Class::Orphan | Class::Conflict))
}

#[test]
fn long_layouts_are_taken_alike() {
    let started = Instant::now();
    let mut random = Random::for_test("long layouts");
    let mut seen = Seen::nothing();
    let mut made = 0;
    while made < TABLES {
        let mut tables = random_tables(TINY, &mut random);
        let Some(row) = lengthen(&mut tables, &mut random) else {
            continue;
        };
        made += 1;
        let (parents, objects) = to_bytes(&tables, &mut random);
        let lent = Lent::new(parents, objects);
        let site = Site::new(tables);
        seen.note_places(&site);
        compare_told(&lent, &site, row, &mut random, &mut seen);
        compare_runs(&lent, &site, row, &mut random, &mut seen);
    }
    println!("{made} tables in {:.1} s", started.elapsed().as_secs_f64());
    seen.require();
}

/// Makes the layout of a file long, if there is one: mostly holes, and at its end what claims and
/// objects meet. Gives the file's row.
fn lengthen(tables: &mut Tables, random: &mut Random) -> Option<usize> {
    let used: Vec<usize> = (0..tables.parents.len())
        .filter(|&row| tables.parents[row].is_some())
        .collect();
    if used.is_empty() {
        return None;
    }
    let row = random.pick(&used);
    let parent = tables.parents[row].as_mut()?;
    let count = random.pick(&COUNTS);
    parent.layout.holes_allowed = true;
    parent.layout.slots.resize(count, None);
    for slot in &mut parent.layout.slots[count - 3..] {
        *slot = (!random.one_in(3)).then(|| Stripe {
            object: random.pick(&OBJECTS[..TINY.fids]),
            generation: random.below(3) as u32,
            ost: random.pick(&[0, 1]),
        });
    }
    parent.owner = OWNER;
    let fid = parent.fid;
    for object in tables.objects.iter_mut().flatten() {
        claim_end(object, fid, count as u32, random);
    }
    if random.one_in(4) {
        let slot = random.pick(&[160.min(count - 1), count - 2, count - 1]);
        put_fresh(tables, Place { row, slot });
    }
    Some(row)
}

/// Puts a fresh object in a place that alone names it, and lets one that may hold data, which no
/// slot names, claim the place.
fn put_fresh(tables: &mut Tables, place: Place) {
    let [Some(fresh), Some(other), ..] = &mut tables.objects[..] else {
        return;
    };
    let fids = [fresh.fid, other.fid];
    for file in tables.parents.iter_mut().flatten() {
        for stripe in file.layout.slots.iter_mut().flatten() {
            if fids.contains(&stripe.object) {
                stripe.object = OBJECTS[TINY.fids];
            }
        }
    }
    let file = tables.parents[place.row].as_mut().expect("a file");
    file.layout.slots[place.slot] = Some(Stripe {
        object: fresh.fid,
        generation: 0,
        ost: fresh.ost,
    });
    let claim = Some(Claim {
        parent: file.fid,
        index: place.slot as u32,
    });
    (fresh.claim, fresh.fresh) = (claim, true);
    (other.claim, other.fresh) = (claim, false);
}

/// Lets an object claim a slot about the end of a long layout, nothing, or what it claims.
fn claim_end(object: &mut Object, parent: Fid, end: u32, random: &mut Random) {
    let ends = [end - 3, end - 2, end - 1, end];
    let index = match random.below(8) {
        0 => return,
        1 => {
            object.claim = None;
            object.fresh = false;
            return;
        }
        2 | 3 => random.pick(&[160, 1_998, 1_999, 2_000, 2_001]),
        _ => random.pick(&ends),
    };
    object.claim = Some(Claim { parent, index });
    object.ost = random.pick(&[0, 1]);
    if random.one_in(2) {
        object.owner = OWNER;
    }
}

/// The check, the classes, the keepers and a listing.
fn compare_told(lent: &Lent, site: &Site, row: usize, random: &mut Random, seen: &mut Seen) {
    let layout = &site.parent(row).expect("a file").layout;
    let count = layout.slots.len() as u64;
    let version = match layout.version {
        Version::One => 1,
        Version::Three(_) => 3,
    };
    seen.counts.met((count as usize, version));
    let row = row as u64;
    assert_eq!(sides::check(lent, BOTH, [1, row, count]), 0);
    assert_eq!(sides::check(lent, BOTH, [1, row, count + 1]), 16);
    sides::start_and_steps(lent);
    let last = sides::class(lent, [1, row, count])[0];
    if count == 2_000 {
        seen.last.met(last);
    }
    sides::class(lent, [1, row, 1 + random.below(count as usize) as u64]);
    for object in 0..site.tables().objects.len() as u64 {
        sides::class(lent, [2, object, 0]);
    }
    for fid in &OBJECTS[..TINY.fids] {
        seen.keepers.met(match sides::keeper(lent, *fid) {
            [1, at, 1_999, _] if at == row => "slot 1,999",
            [1, ..] => "elsewhere",
            _ => "none",
        });
    }
    let listed = random.below(12);
    sides::classes(lent, [1, row, count - 1], listed);
}

/// A run about the last slot, one from the start, and the same once more, which changes nothing.
fn compare_runs(lent: &Lent, site: &Site, row: usize, random: &mut Random, seen: &mut Seen) {
    let before = site.parent(row).expect("a file").layout.slots.len();
    let near = [1, row as u64, before as u64 - 2];
    let policy = random.below(4) as u64;
    let most = random.pick(&[1, 3, 6, 12, u64::MAX]);
    seen.answers
        .met(sides::run(lent, policy, near, most).answer);

    let (start, _) = sides::start_and_steps(lent);
    let policy = random.pick(&[0, 1, 2, 2, 3]);
    let whole = sides::run(lent, policy, start, u64::MAX);
    seen.answers.met(whole.answer);
    let (tables, faults) = reference::check::read_tables(&whole.parents, &whole.objects);
    assert!(faults.is_empty(), "{faults:?}");
    let after = tables.parents[row]
        .as_ref()
        .map(|file| file.layout.slots.len());
    if let Some(after) = after.filter(|&after| after > before) {
        seen.grown.met(after);
    }
    if whole.answer == 0 {
        let ran = Lent::new(whole.parents, whole.objects);
        let again = sides::run(&ran, policy, start, u64::MAX);
        assert_eq!(again.answer, 0);
        assert!(again.report[1..].iter().all(|&count| count == 0));
        assert!(again.parents == ran.parents && again.objects == ran.objects);
    }
}
