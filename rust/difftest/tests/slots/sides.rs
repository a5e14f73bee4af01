//! Calls on both sides, compared with all that was lent.

use difftest::tables::Lent;
use numbers::call::{CLASS, KEEPER, POSITION, REPORT};
use reference::fid::Fid;
use reference::interface;

/// The check.
pub fn check(lent: &Lent, policy: u64, position: [u64; POSITION]) -> u32 {
    let answer =
        lent.to(|parents, objects| lfsck_sys::check(parents, objects, &[], policy, position));
    let expected = interface::check(&lent.parents, &lent.objects, &[], policy, position);
    assert_eq!(answer, expected, "check of {}", lent.describe());
    answer
}

/// Where a run begins, and how many steps there are.
pub fn start_and_steps(lent: &Lent) -> ([u64; POSITION], u64) {
    let (mut start, mut steps) = ([9; POSITION], [9]);
    let (mut our_start, mut our_steps) = (start, steps);
    lent.to(|parents, objects| {
        assert_eq!(lfsck_sys::start(parents, objects, &mut start), 0);
        assert_eq!(lfsck_sys::steps(parents, objects, &mut steps), 0);
    });
    assert_eq!(
        interface::start(&lent.parents, &lent.objects, &mut our_start),
        0
    );
    assert_eq!(
        interface::steps(&lent.parents, &lent.objects, &mut our_steps),
        0
    );
    assert_eq!(
        (start, steps),
        (our_start, our_steps),
        "{}",
        lent.describe()
    );
    (start, steps[0])
}

/// The class at a position that is there.
pub fn class(lent: &Lent, position: [u64; POSITION]) -> [u64; CLASS] {
    let mut theirs = [99; CLASS];
    let mut ours = theirs;
    let answer =
        lent.to(|parents, objects| lfsck_sys::class(parents, objects, position, &mut theirs));
    let expected = interface::class(&lent.parents, &lent.objects, position, &mut ours);
    assert_eq!(
        (answer, theirs),
        (expected, ours),
        "{position:?} of {}",
        lent.describe()
    );
    assert_eq!(answer, 0, "{position:?}");
    theirs
}

/// The keeper of an object, and the slots compared.
pub fn keeper(lent: &Lent, fid: Fid) -> [u64; KEEPER] {
    let mut theirs = [99; KEEPER];
    let mut ours = theirs;
    let (sequence, id) = (fid.sequence, fid.id.into());
    let answer =
        lent.to(|parents, objects| lfsck_sys::keeper(parents, objects, sequence, id, &mut theirs));
    let expected = interface::keeper(&lent.parents, &lent.objects, sequence, id, &mut ours);
    assert_eq!(
        (answer, theirs),
        (expected, ours),
        "{fid:?} in {}",
        lent.describe()
    );
    assert_eq!(answer, 0);
    theirs
}

/// The classes of so many positions from one on, at most; then the position after them.
pub fn classes(lent: &Lent, from: [u64; POSITION], most: usize) -> (Vec<u64>, [u64; POSITION]) {
    let (mut out, mut done, mut position) = (vec![99; CLASS * most], [99], from);
    let (mut our_out, mut our_done, mut our_position) = (out.clone(), done, from);
    let answer = lent.to(|parents, objects| {
        lfsck_sys::classes(parents, objects, &mut position, &mut out, &mut done)
    });
    let expected = interface::classes(
        &lent.parents,
        &lent.objects,
        &mut our_position,
        &mut our_out,
        &mut our_done,
    );
    assert_eq!(
        (answer, &out, done, position),
        (expected, &our_out, our_done, our_position),
        "from {from:?} in {}",
        lent.describe()
    );
    assert_eq!(answer, 0);
    out.truncate(CLASS * done[0] as usize);
    let classes = out.chunks(CLASS).map(|class| class[0]).collect();
    (classes, position)
}

/// What a run left.
pub struct Ran {
    pub answer: u32,
    pub parents: Vec<u8>,
    pub objects: Vec<u8>,
    pub position: [u64; POSITION],
    pub report: [u64; REPORT],
}

/// A run on copies of the tables, without a reserve.
pub fn run(lent: &Lent, policy: u64, from: [u64; POSITION], most: u64) -> Ran {
    let mut theirs = unrun(lent, from);
    let mut ours = unrun(lent, from);
    theirs.answer = lfsck_sys::run(
        &mut theirs.parents,
        &mut theirs.objects,
        &[],
        policy,
        most,
        &mut theirs.position,
        &mut theirs.report,
    );
    ours.answer = interface::run(
        &mut ours.parents,
        &mut ours.objects,
        &[],
        policy,
        most,
        &mut ours.position,
        &mut ours.report,
    );
    assert_eq!(
        (theirs.answer, theirs.position, theirs.report),
        (ours.answer, ours.position, ours.report),
        "policy {policy} from {from:?} in {}",
        lent.describe()
    );
    assert!(
        theirs.parents == ours.parents && theirs.objects == ours.objects,
        "policy {policy} from {from:?} leaves other tables in {}",
        lent.describe()
    );
    theirs
}

fn unrun(lent: &Lent, position: [u64; POSITION]) -> Ran {
    Ran {
        answer: 99,
        parents: lent.parents.clone(),
        objects: lent.objects.clone(),
        position,
        report: [99; REPORT],
    }
}
