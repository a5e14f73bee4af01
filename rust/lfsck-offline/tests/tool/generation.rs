//! Generations of layouts: what `show` says of them, which a run raises, and what takes that back.

use crate::bytes::{object, object_row, parent_row};
use crate::json::Value;
use crate::oracle;
use crate::tool::{Case, LOG, expect_lines};

const RUN: [&str; 3] = ["run", "--create", "--adopt"];

/// A file of the sample.
fn file(id: u32) -> String {
    format!("[0x200000401:{id:#x}:0x0]")
}

/// The generations that a run of the sample to the end raises, with their files. File 6 has a hole
/// filled and grows, file 10 has the last generation, and file 8 is changed where its object was
/// made before.
fn raised() -> Vec<(String, u64, u64)> {
    let raised = [
        (3, 0, 1),
        (6, 0, 2),
        (7, 0, 1),
        (8, 0, 1),
        (10, 65_535, 0),
        (11, 0, 1),
        (13, 0, 1),
    ];
    raised.map(|(id, old, new)| (file(id), old, new)).to_vec()
}

/// Two members of a value as numbers.
fn values(value: &Value) -> (u64, u64) {
    (value.number("old"), value.number("new"))
}

#[test]
fn show_tells_the_generation_that_a_repair_leaves() {
    let case = Case::sample("generation-show");
    for (id, lines) in [
        (2, &[][..]),
        (3, &["from 0 to 1"]),
        (4, &[]),
        (5, &[]),
        (6, &["from 0 to 1", "from 0 to 1"]),
        (7, &["from 0 to 1"]),
        (8, &[]),
        (9, &[]),
        (10, &["from 65535 to 0"]),
        (11, &["from 0 to 1"]),
        (13, &["from 0 to 1"]),
    ] {
        let told = case.run(&["show", &file(id)]).expect(0).out;
        let shown = told.lines().filter(|line| line.contains("generation goes"));
        let expected = lines
            .iter()
            .map(|line| format!("      the layout's generation goes {line} with it"));
        assert!(shown.eq(expected), "{told}");
    }
    let ten = case.run(&["show", &file(10)]).expect(0).out;
    assert!(ten.contains("1048576, generation 65535, 1 slot\n"), "{ten}");
    let lines = "which names OST 1\n      the layout's generation goes from 65535 to 0 with it\n";
    assert!(ten.ends_with(lines), "{ten}");
    // Of an orphan it is the generation of the file that it claims.
    let told = case.run(&["show", "0x240000400:0x20"]).expect(0).out;
    let lines =
        "a hole\n      the layout's generation goes from 0 to 1 with it\n  no slot names it\n";
    assert!(told.contains(lines), "{told}");
    let told = case.run(&["show", "0x240000400:0x22"]).expect(0).out;
    assert!(!told.contains("generation"), "{told}");
}

/// A finding has the generation before and after its repair, in both commands.
#[test]
fn a_finding_has_the_generation_for_machines() {
    let case = Case::sample("generation-json");
    let classes = case.json(&["classes"], 0);
    let raising = |it: &&Value| *it.get("generation") != Value::Null;
    let findings = classes.list("findings").iter().filter(raising);
    let told: Vec<_> = findings
        .map(|it| {
            (
                it.text("class"),
                it.text("file"),
                values(it.get("generation")),
            )
        })
        .collect();
    let [three, six, seven, ten, eleven, thirteen] = [3, 6, 7, 10, 11, 13].map(file);
    let expected = [
        ("MULTIPLE", three.as_str(), (0, 1)),
        ("WRONG-OST", ten.as_str(), (65_535, 0)),
        ("WRONG-OST", eleven.as_str(), (0, 1)),
        ("MULTIPLE", thirteen.as_str(), (0, 1)),
        ("ORPHAN", six.as_str(), (0, 1)),
        ("ORPHAN", six.as_str(), (0, 1)),
        ("ORPHAN", seven.as_str(), (0, 1)),
    ];
    assert_eq!(told, expected);
    let shown = case.json(&["show", &ten], 0);
    let positions = shown.get("file").list("positions");
    assert_eq!(shown.get("file").number("generation"), 65_535);
    assert_eq!(positions[0].get("generation"), &Value::Null);
    assert_eq!(values(positions[1].get("generation")), (65_535, 0));
    let shown = case.json(&["show", &six], 0);
    let claimed_by = shown.list("claimed_by").iter().filter(raising);
    let told: Vec<_> = claimed_by.map(|it| values(it.get("generation"))).collect();
    assert_eq!(told, [(0, 1), (0, 1)]);
}

/// The changes of a kind.
fn of_kind<'report>(report: &'report Value, kind: &str) -> Vec<&'report Value> {
    let changes = report.list("changes").iter();
    changes.filter(|it| it.text("kind") == kind).collect()
}

#[test]
fn a_run_lists_the_generations_that_it_raised() {
    let case = Case::sample("generation-run");
    let start = case.files();
    let report = case.json(&RUN, 0);
    oracle::run(&start, 3, u64::MAX).expect_in(&case);
    let changes = of_kind(&report, "generation");
    let told: Vec<_> = changes
        .iter()
        .map(|it| {
            (
                it.text("file").to_string(),
                it.number("old"),
                it.number("new"),
            )
        })
        .collect();
    assert_eq!(told, raised());
    for change in changes {
        assert_eq!(change.text("table"), "parents.tbl");
        assert_eq!(
            (change.get("slot"), change.get("object")),
            (&Value::Null, &Value::Null)
        );
    }
    let made = of_kind(&report, "file_made");
    assert_eq!(made.len(), 1);
    assert_eq!(made[0].get("new").number("generation"), 0);
    assert_eq!(
        made[0].text("what"),
        "file made, owner 1001:100, 2 slots, generation 0"
    );
    // A second run finds nothing to change.
    let report = case.json(&[&RUN[..], &["--from-start"]].concat(), 0);
    assert!(report.list("changes").is_empty(), "{report:?}");
}

/// A line of the list of changes that stands with a file.
fn line(id: u32, words: &str) -> String {
    format!("  {:<24}    -  {:<24} {words}\n", file(id), "-")
}

/// For people, with a dry run before it and an undo after it.
#[test]
fn a_generation_is_raised_and_put_back() {
    let case = Case::sample("generation-undo");
    let start = case.files();
    let dry = case.run(&[&RUN[..], &["--dry-run"]].concat()).expect(0).out;
    let told = case.run(&RUN).expect(0).out;
    assert_eq!(told, dry);
    let grown =
        line(6, "generation raised from 0 to 2") + &line(6, "layout grown from 2 to 4 slots");
    let raised = [grown, line(10, "generation raised from 65535 to 0")];
    expect_lines(&told, &raised);
    expect_lines(&case.run(&["log"]).expect(0).out, &raised);
    let put_back = [
        line(6, "generation put back to 0, it was 2"),
        line(10, "generation put back to 65535, it was 0"),
    ];
    expect_lines(&case.run(&["undo"]).expect(0).out, &put_back);
    let log = case.run(&["log", &file(10)]).expect(0).out;
    assert!(log.contains("it was 0\n") && log.contains("raised from 65535 to 0; WRONG-OST: "));
    let mut after = case.files();
    after.remove(LOG);
    assert_eq!(after, start);
}

/// A generation has a class in the story of its file where one class alone raised it.
#[test]
fn a_generation_that_several_raised_has_no_class() {
    let parents = [parent_row(1, &[0x10, 0]), parent_row(2, &[0x10])].concat();
    let objects = [
        object_row(0x10, (2, 0)),
        object_row(0x11, (1, 1)),
        vec![0; 46],
    ]
    .concat();
    let reserve = object(0x20).to_bytes();
    let case = Case::with("generation-story", &parents, &objects, &reserve);
    let start = case.files();
    let told = case.run(&RUN).expect(0).out;
    assert!(told.contains("Repairs: MULTIPLE 1, ORPHAN 1.\n"), "{told}");
    oracle::run(&start, 3, u64::MAX).expect_in(&case);
    let told = case.run(&["log", &file(1)]).expect(0).out;
    let several = line(
        1,
        "generation raised from 0 to 2; by repairs of several classes",
    );
    assert!(told.contains(&several), "{told}");
    let told = case.json(&["log", &file(1)], 0);
    let first = &told.list("story")[0];
    assert_eq!(first.get("change").text("kind"), "generation");
    assert_eq!(
        (first.get("class"), first.get("why")),
        (&Value::Null, &Value::Null)
    );
    case.restore(&start);
    case.run(&["run", "--create"]).expect(0);
    let told = case.run(&["log", &file(1)]).expect(0).out;
    let one = "generation raised from 0 to 1; MULTIPLE: another slot keeps the object";
    assert!(told.contains(&line(1, one)), "{told}");
}
