//! What is foretold comes to pass: dry runs, and classes that turn in the course of a run.

use difftest::tables::{OBJECTS, Shape, random_tables, to_bytes};
use difftest::{Coverage, Random};

use crate::bytes::{PARENT, object_row, parent_row};
use crate::json::Value;
use crate::tool::Case;

const SHAPE: Shape = Shape {
    parents: 5,
    objects: 8,
    slots: 3,
    files: 4,
    fids: 8,
};

const RUN: [&str; 3] = ["run", "--create", "--adopt"];

fn random_case(name: &str, random: &mut Random) -> Case {
    let (parents, objects) = to_bytes(&random_tables(SHAPE, random), random);
    let parents = [parents, vec![0; PARENT * random.below(2)]].concat();
    let objects = [objects, vec![0; 46 * random.below(4)]].concat();
    let reserve: Vec<u8> = OBJECTS.iter().flat_map(|fid| fid.to_bytes()).collect();
    Case::with(name, &parents, &objects, &reserve)
}

/// A dry run prints byte for byte what the run then prints, with its status, and writes nothing.
fn expect_foretold(case: &Case, words: &[&str], dry: &str) -> Option<i32> {
    let before = case.files();
    let dry_words = [words, &[dry]].concat();
    let foretold = case.run(&dry_words);
    assert_eq!(
        foretold.err,
        "lfsck-offline: a dry run: nothing is written\n"
    );
    assert_eq!(case.files(), before);
    let told = case.run(words);
    assert_eq!(told.err, "");
    assert_eq!((foretold.out, foretold.status), (told.out, told.status));
    told.status
}

#[test]
fn a_dry_run_prints_what_the_run_prints_and_writes_nothing() {
    let mut random = Random::for_test("dry runs");
    let mut met = Coverage::of("statuses", [Some(0), Some(1), Some(3)]);
    for round in 0..60 {
        let case = random_case(&format!("dry-{round}"), &mut random);
        // The second goes on from where the first stopped.
        for _ in 0..2 {
            let steps = random.pick(&["2", "9", "1000"]);
            let policies: [&[&str]; 3] = [&["--create", "--adopt"], &["--create"], &[]];
            let form: [&[&str]; 2] = [&[], &["--json"]];
            let (policy, form) = (random.pick(&policies), random.pick(&form));
            let words = [&["run", "--steps", steps], policy, form].concat();
            met.met(expect_foretold(
                &case,
                &words,
                random.pick(&["-n", "--dry-run"]),
            ));
        }
    }
    met.require(3);
}

#[test]
fn a_dry_run_is_refused_as_the_run_is() {
    let case = Case::sample("dry-refused");
    case.edit("parents.tbl", |bytes| bytes.push(0));
    let before = case.files();
    let told = case.run(&["run", "-n"]).expect_line(2, "refused with 11");
    assert_eq!(case.run(&["run"]).expect(2).err, told.err);
    assert_eq!(case.files(), before);
}

/// The object of a finding in CONFLICT, and whether it is said that a run adopts it.
fn conflicts(case: &Case) -> Vec<(u64, bool)> {
    let classes = case.json(&["classes", "--only", "CONFLICT"], 0);
    let turns = |finding: &Value| match finding.get("turn") {
        Value::Null => false,
        turn => {
            assert_eq!(turn.text("class"), "ORPHAN");
            true
        }
    };
    let findings = classes.list("findings").iter();
    findings
        .map(|finding| (finding.number("row"), turns(finding)))
        .collect()
}

/// A run to the end adopts the objects in CONFLICT of which it is said, and no others.
#[test]
fn a_conflict_that_a_run_adopts_is_marked() {
    let mut random = Random::for_test("conflicts");
    let mut met = Coverage::of("conflicts", [true, false]);
    for round in 0..150 {
        let case = random_case(&format!("conflict-{round}"), &mut random);
        let conflicts = conflicts(&case);
        let told = case.run(&RUN);
        if told.status != Some(0) {
            continue;
        }
        let kept = case.json(&["classes", "--only", "KEPT"], 0);
        let kept: Vec<u64> = kept
            .list("findings")
            .iter()
            .map(|it| it.number("row"))
            .collect();
        for (row, marked) in conflicts {
            assert_eq!(kept.contains(&row), marked, "round {round}, row {row}");
            met.met(marked);
        }
    }
    met.require(15);
}

/// An orphan whose place an earlier one takes is told so, and a run leaves it in CONFLICT.
#[test]
fn an_orphan_that_comes_too_late_is_marked() {
    let objects = [object_row(0x30, (1, 0)), object_row(0x31, (1, 0))].concat();
    let case = Case::with("late", &parent_row(1, &[0]), &objects, &[]);
    let told = case.run(&["classes"]).expect(0);
    let words = "but a run with --adopt first puts [0x240000400:0x30:0x0] there, which claims the \
                 same place and stands before it\n";
    assert_eq!(told.out.matches(words).count(), 1, "{}", told.out);
    let told = case.run(&["show", "0x240000400:0x31"]).expect(0);
    assert!(told.out.contains(words), "{}", told.out);
    case.run(&["run", "--adopt"]).expect(0);
    let classes = case.json(&["classes"], 0);
    assert_eq!(classes.get("summary").number("CONFLICT"), 1);
}
