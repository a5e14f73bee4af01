//! The plain namespace check and the reference on the same namespaces, small and middle ones.

use bench::namespace::Namespace as Large;
use bench::plain;
use difftest::names::{Call, Flaw, Lent, Top, chain, random_names};
use difftest::{Coverage, Random};
use numbers::call::MENDED;
use reference::interface::{self, Working};

const NAMESPACES: usize = 100_000;
/// Places enough for everything that the reference is not asked about here.
const ENOUGH: Working = Working {
    index: usize::MAX,
    room: usize::MAX,
};

/// Tables and report after a mending or a pass.
type Mended = (Vec<u8>, Vec<u8>, [u64; MENDED]);

/// Flaws of the tables and of the marks.
fn is_of_tables(flaw: &Flaw) -> bool {
    flaw.number() != 17
}

#[test]
fn small_namespaces_are_those_of_the_reference() {
    let mut random = Random::for_test("plain names");
    let answers = [0, 11, 16, 31, 38, 39];
    let given = |call| {
        let skipped = match call {
            Call::Judge => &[38][..],
            Call::Find => &[38, 39],
            Call::Mend => &[39],
            Call::Pass => &[],
        };
        let given = answers.into_iter().filter(|it| !skipped.contains(it));
        given.map(move |answer| (call, answer))
    };
    let mut met = Coverage::of("plain names", Call::ALL.into_iter().flat_map(given));
    for _ in 0..NAMESPACES {
        let mut lent = Lent::of(&random_names(&mut random), &mut random);
        let flaw = random.pick(&Flaw::ALL);
        if random.one_in(3) && is_of_tables(&flaw) {
            flaw.put(&mut lent, &mut random);
        }
        compare(&lent, &mut met);
    }
    met.require(100);
}

#[test]
fn chains_are_those_of_the_reference() {
    let mut random = Random::for_test("plain chains");
    let good = Call::ALL.into_iter().map(|call| (call, 0));
    let long = [(Call::Judge, 39), (Call::Pass, 39)];
    let mut met = Coverage::of("plain chains", good.chain(long));
    let chains = Top::ALL
        .into_iter()
        .flat_map(|top| [(top, 4096), (top, 4097)]);
    for (top, levels) in chains {
        let names = chain(levels, top, &mut random);
        compare(&Lent::of(&names, &mut random), &mut met);
    }
    met.require(1);
}

/// They are made as it is said, and all directories are visible.
#[test]
fn middle_namespaces_are_those_of_the_reference() {
    for (children, chain) in [(2, 1), (1000, 100), (5000, 2500), (10_000, 4096)] {
        let names = Large::of(children, chain);
        let (report, marks) = compare_large(&names, children);
        let [taken, written, appended, removed] = Large::done(children);
        let expected = [taken, written, appended, removed, children as u64];
        assert_eq!(report, expected, "{children} children");
        let nameless = marks.iter().filter(|&&mark| mark == 2).count() as u64;
        assert_eq!(nameless, taken, "{children} children");
        assert!(marks[..children / 2].iter().all(|&mark| mark == 1));
    }
}

/// The same calls on both sides.
fn compare(lent: &Lent, met: &mut Coverage<(Call, u32)>) {
    let (entries, children) = (&lent.entries, &lent.children);
    let (mut marks, mut plain_marks) = (lent.marks.clone(), lent.marks.clone());
    let answer = interface::names_judge(entries, children, ENOUGH, &mut marks);
    let plain = plain::names_judge(entries, children, &mut plain_marks);
    assert_eq!((plain, plain_marks), (answer, marks), "judging {lent:?}");
    met.met((Call::Judge, answer));
    let (mut out, mut plain_out) = (lent.findings.clone(), lent.findings.clone());
    let answer = interface::names_find(entries, children, &mut out);
    let plain = plain::names_find(entries, children, &mut plain_out);
    assert_eq!((plain, plain_out), (answer, out), "findings of {lent:?}");
    met.met((Call::Find, answer));
    let answer = alike(
        lent,
        |entries, children, report| {
            interface::names_mend(entries, children, ENOUGH, &lent.handed, report)
        },
        |entries, children, report| plain::names_mend(entries, children, &lent.handed, report),
    );
    met.met((Call::Mend, answer));
    let (mut marks, mut plain_marks) = (lent.marks.clone(), lent.marks.clone());
    let answer = alike(
        lent,
        |entries, children, report| {
            interface::names_pass(entries, children, ENOUGH, &mut marks, report)
        },
        |entries, children, report| plain::names_pass(entries, children, &mut plain_marks, report),
    );
    assert_eq!(plain_marks, marks, "marks of {lent:?}");
    met.met((Call::Pass, answer));
}

/// A mending or a pass on both sides.
fn alike(
    lent: &Lent,
    reference: impl FnOnce(&mut [u8], &mut [u8], &mut [u64]) -> u32,
    plain: impl FnOnce(&mut [u8], &mut [u8], &mut [u64; MENDED]) -> u32,
) -> u32 {
    let before: Mended = (lent.entries.clone(), lent.children.clone(), [9; MENDED]);
    let (mut ours, mut theirs) = (before.clone(), before);
    let answer = reference(&mut ours.0, &mut ours.1, &mut ours.2);
    let plain = plain(&mut theirs.0, &mut theirs.1, &mut theirs.2);
    assert_eq!((plain, theirs.2), (answer, ours.2), "{lent:?}");
    assert!(theirs == ours, "tables of {lent:?}");
    answer
}

/// The report and the marks of a namespace as it is measured.
fn compare_large(names: &Large, children: usize) -> ([u64; MENDED], Vec<u64>) {
    let lent = Lent {
        entries: names.entries.clone(),
        children: names.children.clone(),
        index: Vec::new(),
        room: Vec::new(),
        marks: vec![0; children],
        handed: vec![2; children],
        findings: vec![0; 2 * children],
        report: Vec::new(),
    };
    let mut met = Coverage::of("large", Call::ALL.into_iter().map(|call| (call, 0)));
    compare(&lent, &mut met);
    met.require(1);
    let (mut marks, mut report) = (vec![0; children], [0; MENDED]);
    let (mut entries, mut rows) = (lent.entries, lent.children);
    plain::names_pass(&mut entries, &mut rows, &mut marks, &mut report);
    (report, marks)
}
