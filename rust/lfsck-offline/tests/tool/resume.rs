//! Runs that stop and go on, and saved positions that do not count.

use difftest::Random;
use difftest::tables::{OBJECTS, Shape, random_tables, to_bytes};

use crate::bytes::PARENT;
use crate::commands::COUNTED;
use crate::json::Value;
use crate::oracle;
use crate::tool::{Case, POSITION};

const SHAPE: Shape = Shape {
    parents: 6,
    objects: 10,
    slots: 5,
    files: 6,
    fids: 8,
};

const RUN: [&str; 3] = ["run", "--create", "--adopt"];

fn resumed(told: &Value) -> bool {
    *told.get("resumed") == Value::Bool(true)
}

#[test]
fn a_run_in_pieces_is_the_uncut_run() {
    let mut random = Random::for_test("pieces");
    for round in 0..12 {
        let (parents, objects) = to_bytes(&random_tables(SHAPE, &mut random), &mut random);
        let objects = [objects, vec![0; 4 * 46]].concat();
        let reserve: Vec<u8> = OBJECTS.iter().flat_map(|fid| fid.to_bytes()).collect();
        let case = Case::with(&format!("pieces-{round}"), &parents, &objects, &reserve);
        let uncut = oracle::run(&case.files(), 3, u64::MAX);
        let mut sum = [0; 10];
        loop {
            let steps = (1 + random.below(9)).to_string();
            let words = [&RUN[..], &["--steps", &steps]].concat();
            let words: Vec<&str> = words.into_iter().chain(["--json"]).collect();
            let told = case.run(&words);
            let status = told.status;
            let report = crate::json::parse(&told.out);
            assert_eq!(resumed(&report), sum[0] > 0);
            sum[0] += report.number("steps_done");
            let repairs = report.get("repairs");
            for (sum, class) in sum[1..].iter_mut().zip(COUNTED) {
                *sum += repairs.number(class);
            }
            if status != Some(1) {
                assert_eq!(report.number("answer"), u64::from(uncut.answer));
                break;
            }
        }
        assert_eq!(sum, uncut.report);
        uncut.expect_in(&case);
    }
}

/// The sample, ten steps done with create and adopt.
fn begun(name: &str) -> Case {
    let case = Case::sample(name);
    case.run(&[&RUN[..], &["--steps", "10"]].concat()).expect(1);
    case
}

/// The next run begins at the start and says why, in both forms.
fn expect_start(case: &Case, words: &[&str], why: &str) {
    let files = case.files();
    let told = case.run(words).expect(0);
    let line = format!("The run begins at the start; the saved position does not count: {why}");
    assert!(told.out.starts_with(&line), "{told:?}");
    case.restore(&files);
    let report = case.json(words, 0);
    assert!(!resumed(&report));
    assert!(report.text("beginning").contains(why));
}

#[test]
fn another_policy_begins_at_the_start() {
    let case = begun("other-policy");
    let why = "it was saved with create and adopt, and this run has create.";
    expect_start(&case, &["run", "--create"], &why[..why.len() - 1]);
    let case = begun("no-policy");
    expect_start(&case, &["run"], "it was saved with create and adopt");
}

#[test]
fn another_reserve_begins_at_the_start() {
    let case = begun("other-reserve");
    case.edit("reserve.tbl", |bytes| bytes.truncate(64));
    expect_start(&case, &RUN, "reserve.tbl has changed since it was saved");
}

/// A resumed job once passed by a file that was restored in between.
#[test]
fn a_restored_file_is_not_passed_by() {
    let damaged = Case::sample("restored-source");
    let row = damaged.read("parents.tbl")[PARENT..2 * PARENT].to_vec();
    let case = begun("restored");
    assert_ne!(case.read("parents.tbl")[PARENT..2 * PARENT], row[..]);
    case.edit("parents.tbl", |bytes| {
        bytes[PARENT..2 * PARENT].copy_from_slice(&row);
    });
    let files = case.files();
    expect_start(&case, &RUN, "parents.tbl has changed since it was saved");
    case.restore(&files);
    let uncut = oracle::run(&files, 3, u64::MAX);
    let report = case.json(&RUN, 0);
    assert_eq!(report.get("repairs").number("SELF"), 1);
    uncut.expect_in(&case);
}

#[test]
fn another_object_table_begins_at_the_start() {
    let case = begun("other-objects");
    case.edit("objects.tbl", |bytes| bytes.extend([0; 46]));
    expect_start(&case, &RUN, "objects.tbl has changed since it was saved");
}

#[test]
fn the_same_conditions_go_on() {
    let case = begun("same");
    let told = case.json(&[&RUN[..], &["--steps", "1"]].concat(), 1);
    assert!(resumed(&told));
    let told = case.run(&RUN).expect(0);
    assert!(
        told.out
            .starts_with("The run goes on from the saved position.\n")
    );
    let told = case.run(&[&RUN[..], &["--from-start"]].concat()).expect(0);
    assert!(
        told.out
            .starts_with("The run begins at the start, as asked.\n")
    );
}

#[test]
fn no_steps_change_nothing() {
    let case = Case::sample("no-steps");
    let before = case.files();
    let told = case.json(&[&RUN[..], &["--steps", "0"]].concat(), 1);
    assert_eq!(told.number("steps_done"), 0);
    assert_eq!(told.number("steps_left"), 55);
    assert_eq!(case.files(), before);
    assert!(!before.contains_key(POSITION));
}
