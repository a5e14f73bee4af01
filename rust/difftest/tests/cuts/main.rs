//! Cuts between two writes. The writes of a step are told alike, at every position of random tables,
//! in large tables, and with every refusal. And an uncut run that C programs could make, cut after
//! each of its writes: the named rows are copied in their order, and a run from the start ends with
//! the tables of the uncut one.

mod cut;
mod kind;
mod large;
mod lists;
mod side;

use std::time::Instant;

use cut::Tried;
use difftest::Random;
use difftest::tables::{OBJECTS, Shape, crowd, random_tables, to_bytes};
use lists::Asked;
use side::{LIBRARY, Lent, REFERENCE, Side, Terms};

/// The lists that are asked for.
const LISTS: u64 = 500_000;
/// The seconds that all cuts of the library may take.
const SECONDS: f64 = 60.0;

/// Few objects for many slots and rows.
const SMALL: Shape = Shape {
    parents: 3,
    objects: 10,
    slots: 3,
    files: 3,
    fids: 6,
};

#[test]
fn the_writes_of_a_step_are_told_alike() {
    let started = Instant::now();
    let mut random = Random::for_test("lists of writes");
    let mut asked = Asked::nothing();
    while asked.total() < LISTS {
        let (tables, terms) = random_case(&mut random);
        asked.ask_all(&tables, &terms, &mut random);
        asked.ask_refused(tables, terms, &mut random);
    }
    let took = started.elapsed().as_secs_f64();
    println!("{} lists in {took:.1} s", asked.total());
    asked.require();
}

#[test]
fn a_run_after_a_cut_ends_as_the_uncut_one() {
    let took = cut_runs(LIBRARY, "cuts", 110_000, 100);
    assert!(took < SECONDS, "the cuts took {took:.1} s");
}

#[test]
fn so_does_a_run_of_the_reference() {
    cut_runs(REFERENCE, "cuts of the reference", 10_000, 5);
}

/// Cuts runs of one side so many times, each kind of cut at least `least` times. Gives the seconds.
fn cut_runs(side: Side, name: &'static str, cuts: u64, least: u64) -> f64 {
    let started = Instant::now();
    let mut random = Random::for_test(name);
    let mut tried = Tried::nothing(side);
    while tried.cuts()[0] < cuts {
        let (tables, terms) = random_case(&mut random);
        tried.play(&tables, &terms, &mut random);
    }
    let took = started.elapsed().as_secs_f64();
    let [first, again] = tried.cuts();
    println!("{name}: {first}, and {again} in runs after a cut, in {took:.1} s");
    tried.require(least);
    took
}

/// Tables that pass the check, and what all calls with them share.
fn random_case(random: &mut Random) -> (Lent, Terms) {
    let mut tables = random_tables(SMALL, random);
    if random.one_in(2) {
        crowd(&mut tables, random);
    }
    let (parents, objects) = to_bytes(&tables, random);
    let terms = Terms {
        policy: random.pick(&[0, 1, 2, 3, 3, 3]),
        reserve: random_reserve(random),
    };
    (Lent { parents, objects }, terms)
}

/// Few FIDs, with repeats and with those of rows and slots.
fn random_reserve(random: &mut Random) -> Vec<u8> {
    let from = random.pick(&[0, 3, 5, 6]);
    let entries = (0..random.below(6)).flat_map(|_| random.pick(&OBJECTS[from..]).to_bytes());
    entries.collect()
}
