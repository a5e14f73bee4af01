//! The class of every position of random tables, in which few FIDs meet in every way.

use std::time::Instant;

use difftest::indices::Indexed;
use difftest::tables::{FAR, Lent, TINY, TOO_FAR, damage, random_tables, to_bytes};
use difftest::{Coverage, Random};
use numbers::call;
use numbers::layout::MOST_SLOTS;
use reference::class::{Class, Denial, Way, way_to};
use reference::fid::Fid;
use reference::interface;
use reference::position::Position;
use reference::site::{Place, Reason, Site};

const CLASSES: u64 = 1_000_000;

/// Everything that the test is to meet.
struct Seen {
    answers: Coverage<u32>,
    /// Positions that are not there, asked with too few places for the class.
    no_position_before_room: Coverage<&'static str>,
    classes: Coverage<u64>,
    /// Slots by the OST index and the owner of their object.
    indices: Coverage<Indexed>,
    keepers: Coverage<Kept>,
    ways: Coverage<Way>,
    denials: Coverage<Denial>,
    /// Indices far past the slots of these layouts, and whether an orphan can have the place.
    far: Coverage<(u32, &'static str)>,
}

/// Over which other slots, and against what claim, a keeper was chosen.
#[derive(Clone, Copy, Debug, PartialEq, Eq, PartialOrd, Ord)]
enum Kept {
    ClaimedAlone,
    ClaimedOverEarlierSlot,
    ClaimedOverEarlierParent,
    FirstInClaimedParentAlone,
    FirstInClaimedParentOverLaterSlot,
    FirstInClaimedParentOverEarlierParent,
    FirstAlone,
    FirstOfSeveral,
    FirstOfSeveralThoughClaimed,
    FirstOfSeveralOfAbsentObject,
}

impl Seen {
    fn nothing() -> Seen {
        use Kept::*;
        Seen {
            answers: Coverage::of("class answers", [0, 11, 13, 14, 15, 16, 17]),
            no_position_before_room: Coverage::of("16 before 17", ["end", "elsewhere"]),
            classes: Coverage::of("classes", 0..call::CLASSES as u64),
            indices: Indexed::none_met("slots by index and owner"),
            keepers: Coverage::of(
                "keepers",
                [
                    ClaimedAlone,
                    ClaimedOverEarlierSlot,
                    ClaimedOverEarlierParent,
                    FirstInClaimedParentAlone,
                    FirstInClaimedParentOverLaterSlot,
                    FirstInClaimedParentOverEarlierParent,
                    FirstAlone,
                    FirstOfSeveral,
                    FirstOfSeveralThoughClaimed,
                    FirstOfSeveralOfAbsentObject,
                ],
            ),
            ways: Coverage::of(
                "ways to have a place",
                [Way::MakeParent, Way::FillHole, Way::Grow, Way::ReplaceFresh],
            ),
            denials: Coverage::of(
                "places that cannot be had",
                [
                    Denial::Index,
                    Denial::Plain,
                    Denial::Absent,
                    Denial::Data,
                    Denial::OtherClaim,
                    Denial::OtherSlot,
                ],
            ),
            far: Coverage::of("places far away", far_places()),
        }
    }

    fn require(&self) {
        self.answers.require(100);
        self.no_position_before_room.require(100);
        self.classes.require(1000);
        self.indices.require(1000);
        self.keepers.require(1000);
        self.ways.require(200);
        self.denials.require(200);
        self.far.require(20);
    }
}

/// Where an index is far, what there is to be done or in the way.
fn far_places() -> impl Iterator<Item = (u32, &'static str)> {
    let ways = ["a file to be made", "a layout to grow", "a plain layout"];
    let some = FAR
        .into_iter()
        .flat_map(move |at| ways.map(|way| (at, way)));
    some.chain(TOO_FAR.map(|at| (at, "no such slot")))
}

#[test]
fn every_position_is_classed_alike() {
    let started = Instant::now();
    let mut random = Random::for_test("classes");
    let mut seen = Seen::nothing();
    while seen.classes.total() < CLASSES {
        let tables = random_tables(TINY, &mut random);
        let (parents, objects) = to_bytes(&tables, &mut random);
        let lent = Lent::new(parents, objects);
        let site = Site::new(tables);
        note_keepers(&site, &mut seen);
        note_places(&site, &mut seen);
        for position in Position::all(site.tables()) {
            compare(&lent, position.to_numbers(), &mut random, &mut seen);
            if let Some(slot) = Indexed::at(&site, position) {
                seen.indices.met(slot);
            }
        }
        compare_refusals(lent, &mut random, &mut seen);
    }
    println!(
        "{} classes in {:.1} s",
        seen.classes.total(),
        started.elapsed().as_secs_f64()
    );
    seen.require();
}

/// Asks both sides for a class and compares the answer and whatever was lent.
fn compare(lent: &Lent, position: [u64; 3], random: &mut Random, seen: &mut Seen) {
    let room = random.pick(&[4, 4, 4, 4, 4, 4, 5, 6, 3, 0]);
    let places = random.numbers(room);
    let (mut ours, mut theirs) = (places.clone(), places);
    let answer =
        lent.to(|parents, objects| lfsck_sys::class(parents, objects, position, &mut theirs));
    let expected = interface::class(&lent.parents, &lent.objects, position, &mut ours);
    assert_eq!(
        (answer, &theirs),
        (expected, &ours),
        "class at {position:?} of {}",
        lent.describe()
    );
    seen.answers.met(answer);
    match answer {
        0 => seen.classes.met(theirs[0]),
        16 if room < 4 && position[0] == 3 => seen.no_position_before_room.met("end"),
        16 if room < 4 => seen.no_position_before_room.met("elsewhere"),
        _ => (),
    }
}

/// A position that is not there, and tables that do not pass the check.
fn compare_refusals(lent: Lent, random: &mut Random, seen: &mut Seen) {
    let row = random.below(4) as u64;
    let part = random.pick(&[0, 1, 2, 4, MOST_SLOTS as u64 + 1, u64::MAX]);
    let position = [random.below(5) as u64, row, part];
    compare(&lent, position, random, seen);
    let Lent {
        mut parents,
        mut objects,
        ..
    } = lent;
    if damage(&mut parents, &mut objects, random) {
        let damaged = Lent::new(parents, objects);
        compare(&damaged, position, random, seen);
        compare(&damaged, [1, 0, 0], random, seen);
    }
}

/// Counts how the keeper of each object that a slot names was chosen.
fn note_keepers(site: &Site, seen: &mut Seen) {
    let mut known: Vec<Fid> = Vec::new();
    for (row, parent) in site.tables().parents.iter().enumerate() {
        let slots = parent.iter().flat_map(|parent| &parent.layout.slots);
        for (slot, stripe) in slots.enumerate() {
            let Some(stripe) = stripe else { continue };
            let is_first = !known.contains(&stripe.object);
            if is_first {
                known.push(stripe.object);
                seen.keepers
                    .met(kept(site, stripe.object, Place { row, slot }));
            }
        }
    }
}

/// How the keeper of an object was chosen, given the first slot that names it.
fn kept(site: &Site, object: Fid, first: Place) -> Kept {
    let (keeper, reason) = site.keeper(object).expect("a slot names it");
    let several = site.named_by(object).count() > 1;
    let in_row = site
        .named_by(object)
        .filter(|place| place.row == keeper.row);
    match reason {
        Reason::ClaimedSlot if first.row < keeper.row => Kept::ClaimedOverEarlierParent,
        Reason::ClaimedSlot if first < keeper => Kept::ClaimedOverEarlierSlot,
        Reason::ClaimedSlot => Kept::ClaimedAlone,
        Reason::ClaimedParent if first.row < keeper.row => {
            Kept::FirstInClaimedParentOverEarlierParent
        }
        Reason::ClaimedParent if in_row.count() > 1 => Kept::FirstInClaimedParentOverLaterSlot,
        Reason::ClaimedParent => Kept::FirstInClaimedParentAlone,
        Reason::ScanOrder if !several => Kept::FirstAlone,
        Reason::ScanOrder => match site.object_row(object).and_then(|row| site.object(row)) {
            None => Kept::FirstOfSeveralOfAbsentObject,
            Some(object) if object.claim.is_some() => Kept::FirstOfSeveralThoughClaimed,
            Some(_) => Kept::FirstOfSeveral,
        },
    }
}

/// Counts how the place of each orphan can be had, and why that of each conflict cannot.
fn note_places(site: &Site, seen: &mut Seen) {
    for (row, object) in site.tables().objects.iter().enumerate() {
        let class = Class::at(site, Position::Object { row });
        let claim = object.as_ref().and_then(|object| object.claim);
        if let (Some(Class::Orphan | Class::Conflict), Some(claim)) = (class, claim) {
            let way = way_to(site, claim);
            match way {
                Ok(way) => seen.ways.met(way),
                Err(denial) => seen.denials.met(denial),
            }
            if FAR.contains(&claim.index) || TOO_FAR.contains(&claim.index) {
                seen.far.met((claim.index, far_place(way)));
            }
        }
    }
}

/// A way to a place that is far past the slots of a layout, in words.
fn far_place(way: Result<Way, Denial>) -> &'static str {
    match way {
        Ok(Way::MakeParent) => "a file to be made",
        Ok(Way::Grow) => "a layout to grow",
        Err(Denial::Plain) => "a plain layout",
        Err(Denial::Index) => "no such slot",
        other => panic!("{other:?} of a place that is far away"),
    }
}
