//! Chains of as many directories as a climb may have levels, and tables at their limits.

use std::time::Instant;

use difftest::Random;
use difftest::names::{Lent, Top, chain};
use reference::names::{CHILD_BYTES, ENTRY_BYTES, Namespace};

use crate::calls;
use crate::hold;

/// The most levels.
const LEVELS: usize = 4096;
/// The most rows of either table.
const ROWS: usize = 65_536;

#[test]
fn long_chains_are_climbed() {
    let started = Instant::now();
    let mut random = Random::for_test("chains");
    let levels = [LEVELS - 1, LEVELS, LEVELS + 1];
    let chains = Top::ALL
        .into_iter()
        .flat_map(|top| levels.map(|levels| (top, levels)));
    for (top, levels) in chains {
        let names = chain(levels, top, &mut random);
        let good = levels <= LEVELS && top != Top::Circle;
        expect_chain(&names, top, good, &mut random);
    }
    let took = started.elapsed().as_secs_f64();
    println!(
        "chains of {LEVELS} and {} levels in {took:.1} s",
        LEVELS + 1
    );
}

/// A chain that can be judged or is 39. A visible one is mended: every entry gets its FID, and
/// every directory its record.
fn expect_chain(names: &Namespace, top: Top, good: bool, random: &mut Random) {
    let mut lent = Lent::of(names, random);
    let (answer, marks) = calls::judge(&lent);
    let passed = calls::pass(&lent);
    assert_eq!(calls::find(&lent).0, 0);
    let rows = names.children.len();
    if !good {
        assert_eq!((answer, passed.answer), (39, 39), "{top:?}");
        return;
    }
    assert_eq!((answer, passed.answer), (0, 0), "{top:?}");
    let mark = u64::from(top.is_visible());
    // The row of ROOT or with a linkEA is visible too, one that has neither is hidden.
    assert_eq!(marks[..rows], vec![mark; rows], "{top:?}");
    let entries = names.entries.len() as u64;
    let done = mark * entries;
    assert_eq!(passed.report[..5], [0, done, done, 0, entries], "{top:?}");
    lent.handed = marks[..rows].to_vec();
    let mended = calls::mend(&lent);
    hold::same(&mended, &passed);
    let changed = hold::changed_children(&lent.children, &mended);
    assert_eq!(changed as u64, done, "{top:?}");
    let again = calls::mend(&mended.lent_again(&lent));
    hold::unchanged(names, &mended, &again);
}

/// Zero rows: no FIDs, and names of no bytes, which come after 11.
#[test]
fn tables_have_at_most_so_many_rows() {
    for (entries, children, expected) in [
        (ROWS, 1, 31),
        (ROWS + 1, 1, 11),
        (0, ROWS, 0),
        (0, ROWS + 1, 11),
        (1, ROWS + 1, 11),
        (ROWS + 1, ROWS + 1, 11),
    ] {
        let rows = entries + children;
        let lent = Lent {
            entries: vec![0; entries * ENTRY_BYTES],
            children: vec![0; children * CHILD_BYTES],
            index: vec![0; 16 * rows],
            room: vec![0; 16 * rows],
            marks: vec![9; children],
            handed: vec![2; children],
            findings: vec![9; 2 * entries],
            report: vec![9; 5],
        };
        let (answer, marks) = calls::judge(&lent);
        let mark = if expected == 0 { 2 } else { 9 };
        assert_eq!(answer, expected, "{entries} entries, {children} children");
        assert!(marks.iter().all(|&it| it == mark));
        assert_eq!(calls::find(&lent).0, expected);
        assert_eq!(calls::mend(&lent).answer, expected);
        assert_eq!(calls::pass(&lent).answer, expected);
    }
}
