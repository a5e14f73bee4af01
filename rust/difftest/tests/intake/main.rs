//! Intake: the library and the reference on the same dumps, cut in the same and in other ways.
//! Every buffer that is lent is compared after each call.

mod cut;
mod hostile;
mod lent;
mod seen;
mod side;

use std::time::Instant;

use cut::Cut;
use difftest::Random;
use difftest::dumps::{Dump, Flaw};
use numbers::{object, parent};
use seen::Seen;
use side::Both;

/// So many dumps are compared.
const DUMPS: usize = 100_000;

#[test]
fn dumps_are_taken_in_alike() {
    let started = Instant::now();
    let mut random = Random::for_test("intake");
    let mut seen = Seen::nothing();
    for _ in 0..DUMPS {
        let dump = random_dump(&mut random);
        let mut both = Both::begin(&dump);
        compare_whole(&mut both, &mut seen, &mut random);
        for cut in [Cut::Few, Cut::Disturbed] {
            compare(&mut both, cut, &mut seen, &mut random);
        }
        let is_small = dump.parents.len() <= 2 * parent::BYTES;
        if random.one_in(20) && dump.text.len() < 1000 && is_small {
            compare(&mut both, Cut::SingleBytes, &mut seen, &mut random);
        }
        if random.one_in(50) && dump.text.len() < 400 && is_small {
            compare_at_every_cut(&mut both, &mut seen, &mut random);
        }
    }
    let took = started.elapsed().as_secs_f64();
    println!("{DUMPS} dumps in {took:.1} s");
    seen.require();
}

/// A good dump, one with a flaw, or one with two.
fn random_dump(random: &mut Random) -> Dump {
    match random.below(4) {
        0 => Dump::good(random),
        1 => Dump::with(&[Flaw::any(random)], random),
        _ => {
            let flaws = [Flaw::any(random), Flaw::any(random)];
            Dump::with(&flaws, random)
        }
    }
}

/// The whole dump in one piece, or in pieces as long as they may be, then its end.
fn compare_whole(both: &mut Both, seen: &mut Seen, random: &mut Random) {
    let dump = both.restart();
    seen.cuts.met(Cut::Whole);
    let pieces = Cut::Whole.pieces(dump.text.len(), random);
    let answers = pieces.into_iter().map(|piece| both.feed(piece, random));
    seen.feeds.met(answers.last().expect("a piece"));
    seen.ends.met(both.end(random));
    let filled = both.has_filled();
    seen.note(dump, both.require_whole(), filled);
}

/// A dump cut in some way; tables and answers must be those of the whole.
fn compare(both: &mut Both, cut: Cut, seen: &mut Seen, random: &mut Random) {
    let dump = both.restart();
    seen.cuts.met(cut);
    for piece in cut.pieces(dump.text.len(), random) {
        if cut == Cut::Disturbed {
            both.disturb(seen, random);
        }
        both.feed(piece, random);
    }
    both.end(random);
    both.require_whole();
}

/// A dump in two pieces, cut at every place.
fn compare_at_every_cut(both: &mut Both, seen: &mut Seen, random: &mut Random) {
    seen.cuts.met(Cut::EveryPlace);
    let dump = both.restart();
    for at in 0..=dump.text.len() {
        both.restart();
        both.feed(at, random);
        both.feed(dump.text.len() - at, random);
        both.end(random);
        both.require_whole();
    }
}

/// The dump that getfattr printed.
#[test]
fn a_real_dump_is_taken_in_alike() {
    let mut random = Random::for_test("real dump");
    let mut seen = Seen::nothing();
    let dump = Dump {
        text: include_bytes!("../../../../tests/data/site/dump.txt").to_vec(),
        owners: include_bytes!("../../../../tests/data/site/owners.txt").to_vec(),
        parents: vec![0; 4 * parent::BYTES],
        objects: vec![0; 5 * object::BYTES],
        flaws: Vec::new(),
        traits: Vec::new(),
    };
    let mut both = Both::begin(&dump);
    compare_whole(&mut both, &mut seen, &mut random);
    compare(&mut both, Cut::SingleBytes, &mut seen, &mut random);
    compare_at_every_cut(&mut both, &mut seen, &mut random);
}

/// Dumps that are longer than a piece may be.
#[test]
fn long_dumps_are_taken_in_alike() {
    let mut random = Random::for_test("long dumps");
    let mut seen = Seen::nothing();
    for _ in 0..40 {
        let dump = Dump::long(600, &mut random);
        assert!(dump.text.len() > 65_536);
        let mut both = Both::begin(&dump);
        for cut in [Cut::Whole, Cut::Few, Cut::Disturbed] {
            compare(&mut both, cut, &mut seen, &mut random);
        }
    }
}

/// A piece of 65,536 bytes is taken, and one more is 11.
#[test]
fn the_longest_piece() {
    let mut random = Random::for_test("longest piece");
    let mut dump = Dump::good(&mut random);
    dump.text = [b"# file:", &[b'n'; 70_000][..]].concat();
    let mut both = Both::begin(&dump);
    assert_eq!(both.feed(65_537, &mut random), 11);
    assert_eq!(both.feed(65_536, &mut random), 0);
    assert_eq!(both.feed(4000, &mut random), 0);
    assert_eq!(both.end(&mut random), 33);
}
