//! The keeper and the slots compared: of every FID that random tables know, of others and of FIDs
//! that are not good, in tables that pass the check and in damaged ones.

mod above;
mod asked;
mod limits;
mod seen;

use std::time::Instant;

use asked::{Asked, bad_fid, known, questions};
use difftest::Random;
use difftest::tables::{Lent, OBJECTS, Shape, TINY, damage, random_tables, to_bytes};
use numbers::call::KEEPER;
use reference::check::read_tables;
use reference::fid::Fid;
use reference::interface;
use reference::search::Search;
use reference::site::{Reason, Site};
use reference::tables::Tables;
use seen::Seen;

const TABLES: usize = 80_000;

/// Longer layouts than those of [`TINY`], and every FID.
const WIDE: Shape = Shape {
    parents: 6,
    objects: 10,
    slots: 8,
    files: 6,
    fids: 10,
};

#[test]
fn keepers_are_found_alike() {
    let started = Instant::now();
    let mut random = Random::for_test("keepers");
    let mut seen = Seen::nothing();
    for _ in 0..TABLES {
        let shape = random.pick(&[TINY, TINY, WIDE]);
        let tables = random_tables(shape, &mut random);
        let (parents, objects) = to_bytes(&tables, &mut random);
        let lent = Lent::new(parents, objects);
        let site = Site::new(tables);
        for (asked, fid) in questions(site.tables(), &mut random) {
            let is_short = random.one_in(8);
            let room = if is_short {
                short(&mut random)
            } else {
                long(&mut random)
            };
            let told = ask(&lent, (asked, fid), room, &mut random, &mut seen);
            if let Some(numbers) = told {
                hold(&site, fid, numbers, &mut seen);
            }
        }
        ask_damaged(site.tables(), lent, &mut random, &mut seen);
    }
    let took = started.elapsed().as_secs_f64();
    println!("{} questions in {took:.1} s", seen.questions());
    seen.require();
}

/// Asks both sides, compares the answer and whatever was lent, and holds the answer to the order of
/// the refusals. Gives the numbers that were told.
fn ask(
    lent: &Lent,
    (asked, fid): (Asked, [u64; 2]),
    room: usize,
    random: &mut Random,
    seen: &mut Seen,
) -> Option<[u64; KEEPER]> {
    let places = random.numbers(room);
    let (answer, after) = compare(lent, fid, &places);
    let (_, faults) = read_tables(&lent.parents, &lent.objects);
    let fault = faults.first().copied().unwrap_or(0);
    let (is_bad, is_short) = (asked.is_bad(), room < KEEPER);
    assert_eq!(answer, first_of(fault, is_bad, is_short), "{asked:?}");
    seen.answered(answer, asked, room);
    if faults.len() < 2 {
        seen.order.met((fault, is_bad, is_short));
    }
    (answer == 0).then(|| after[..KEEPER].try_into().expect("so many numbers"))
}

/// Too few places.
fn short(random: &mut Random) -> usize {
    random.below(KEEPER)
}

/// As many places as are needed, or a few more.
fn long(random: &mut Random) -> usize {
    KEEPER + random.below(3)
}

/// The first that applies of 11, 13, 14, 15 and 17; 14 also where the FID is not good.
fn first_of(fault: u32, is_bad: bool, is_short: bool) -> u32 {
    match fault {
        11 | 13 | 14 => fault,
        _ if is_bad => 14,
        15 => 15,
        _ if is_short => 17,
        _ => 0,
    }
}

/// The answer of both sides, and what was lent to be written after the call.
fn compare(lent: &Lent, [sequence, id]: [u64; 2], places: &[u64]) -> (u32, Vec<u64>) {
    let (mut ours, mut theirs) = (places.to_vec(), places.to_vec());
    let answer =
        lent.to(|parents, objects| lfsck_sys::keeper(parents, objects, sequence, id, &mut theirs));
    let expected = interface::keeper(&lent.parents, &lent.objects, sequence, id, &mut ours);
    assert_eq!(
        (answer, &theirs),
        (expected, &ours),
        "keeper of {sequence:#x}:{id:#x} in {}",
        lent.describe()
    );
    let written = if answer == 0 { KEEPER } else { 0 };
    assert_eq!(
        theirs[written..],
        places[written..],
        "written past the keeper"
    );
    (answer, theirs)
}

/// What was told is the keeper that the site knows and the length of the walk, within the bound.
fn hold(site: &Site, [sequence, id]: [u64; 2], numbers: [u64; KEEPER], seen: &mut Seen) {
    let fid = Fid::new(sequence, id as u32);
    let search = Search::of(site.tables(), fid);
    let keeper = site.keeper(fid);
    assert_eq!(search.keeper, keeper);
    let place = keeper.map_or([0; 3], |(place, _)| {
        [1, place.row as u64, place.slot as u64]
    });
    let [found, row, slot, compared] = numbers;
    assert_eq!([found, row, slot], place);
    assert_eq!(compared, search.compared.len() as u64);
    let most = 2 * slot_count(site.tables()) as u64 + 1;
    assert!(
        compared <= most,
        "{compared} slots compared, {most} allowed"
    );
    if keeper.is_some_and(|(_, reason)| reason == Reason::ClaimedSlot) {
        assert_eq!(compared, 1);
    }
    seen.searched(site.tables(), &search);
}

/// The slots of all files.
fn slot_count(tables: &Tables) -> usize {
    let files = tables.parents.iter().flatten();
    files.map(|file| file.layout.slots.len()).sum()
}

/// Damaged tables, asked for a good FID and for a bad one, with room and without.
fn ask_damaged(tables: &Tables, lent: Lent, random: &mut Random, seen: &mut Seen) {
    let Lent {
        mut parents,
        mut objects,
        ..
    } = lent;
    if !damage(&mut parents, &mut objects, random) {
        return;
    }
    let lent = Lent::new(parents, objects);
    let known = known(tables);
    let fid = known.first().copied().unwrap_or(OBJECTS[0]);
    let good = (Asked::Known, [fid.sequence, fid.id.into()]);
    let bad = bad_fid(fid, random);
    for question in [good, bad] {
        for room in [short(random), long(random)] {
            ask(&lent, question, room, random, seen);
        }
    }
}
