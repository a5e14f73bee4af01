//! The namespace check on random namespaces: what is refused and in which order, what is found,
//! which directories are visible, and what the mending makes of it.

mod big;
mod calls;
mod climbs;
mod hold;
mod seen;
mod sweeps;

use std::time::Instant;

use difftest::Random;
use difftest::names::{Call, Flaw, Lent, describe, random_names, wide_names};
use reference::names::Namespace;
use seen::Seen;

/// So many namespaces are tried.
const NAMESPACES: usize = 500_000;
/// One in so many has many rows.
const WIDE: usize = 1000;

#[test]
fn namespaces_are_judged_and_mended() {
    let started = Instant::now();
    let mut random = Random::for_test("names");
    let mut seen = Seen::nothing();
    for _ in 0..NAMESPACES {
        let names = if random.one_in(WIDE) {
            wide_names(&mut random)
        } else {
            random_names(&mut random)
        };
        let mut lent = Lent::of(&names, &mut random);
        let flaws = put_flaws(&mut lent, &mut random);
        seen.note_size(&names);
        match flaws[..] {
            [] => take_good(&names, lent, &mut seen, &mut random),
            _ => take_flawed(&names, &lent, &flaws, &mut seen),
        }
    }
    let took = started.elapsed().as_secs_f64();
    println!("{NAMESPACES} namespaces in {took:.1} s");
    seen.require();
}

/// None, one or two flaws, as far as there is a place for them.
fn put_flaws(lent: &mut Lent, random: &mut Random) -> Vec<Flaw> {
    let flaws = [random.pick(&Flaw::ALL), random.pick(&Flaw::ALL)];
    let count = random.pick(&[0, 0, 0, 1, 2]);
    let put = flaws[..count].iter().filter(|flaw| flaw.put(lent, random));
    put.copied().collect()
}

/// A namespace that is refused by those functions that see a flaw of it.
fn take_flawed(names: &Namespace, lent: &Lent, flaws: &[Flaw], seen: &mut Seen) {
    for call in Call::ALL {
        let answer = calls::answer(call, lent);
        if let Some(refusal) = Flaw::refusal(flaws, call) {
            assert_eq!(answer, refusal, "{call:?}, {flaws:?}: {}", describe(names));
        }
        seen.answered(call, answer);
    }
    seen.note_flaws(names, flaws);
}

/// A namespace without flaws.
fn take_good(names: &Namespace, mut lent: Lent, seen: &mut Seen, random: &mut Random) {
    let (answer, findings) = calls::find(&lent);
    assert_eq!(answer, 0);
    seen.answered(Call::Find, answer);
    let (answer, marks) = calls::judge(&lent);
    seen.answered(Call::Judge, answer);
    seen.note_climbs(names);
    let passed = calls::pass(&lent);
    seen.answered(Call::Pass, passed.answer);
    let judged = answer == 0;
    if judged {
        lent.marks = marks;
        seen.note_findings(names, &findings, &lent.marks);
        hold::mended(names, &lent.marks, &passed);
        seen.note_sweeps(names, &lent.marks, &passed);
    } else {
        assert_eq!((answer, passed.answer), (39, 39), "{}", describe(names));
        seen.note_order(names);
    }
    let as_judged = judged && random.one_in(2);
    if as_judged {
        lent.handed = lent.marks[..names.children.len()].to_vec();
    }
    let mended = calls::mend(&lent);
    seen.answered(Call::Mend, mended.answer);
    hold::mended(names, &lent.handed, &mended);
    if as_judged {
        hold::same(&mended, &passed);
    }
    if mended.answer == 0 {
        let again = calls::mend(&mended.lent_again(&lent));
        hold::unchanged(names, &mended, &again);
        seen.note_again(&mended, as_judged);
    }
}
