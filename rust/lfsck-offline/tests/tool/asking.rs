//! What is asked for and how it is answered: versions, help, failures for machines, lists that
//! are narrowed, and the exit status that tells whether there is something to mend.

use std::process::Command;

use difftest::tables::{OBJECTS, Shape, random_tables, to_bytes};
use difftest::{Coverage, Random};

use crate::json::{Value, parse};
use crate::tool::{Case, TOOL, Told};

const SHAPE: Shape = Shape {
    parents: 3,
    objects: 4,
    slots: 2,
    files: 3,
    fids: 6,
};

fn tool(words: &[&str]) -> Told {
    Command::new(TOOL).args(words).output().unwrap().into()
}

#[test]
fn the_version_is_the_package_s() {
    for word in ["--version", "-V"] {
        let told = tool(&[word]).expect(0);
        let line = concat!("lfsck-offline ", env!("CARGO_PKG_VERSION"), "\n");
        assert_eq!(told.out, line);
        let json = parse(&tool(&[word, "--json"]).expect(0).out);
        assert_eq!(json.text("version"), env!("CARGO_PKG_VERSION"));
        tool(&[word, "more"]).expect_line(64, "one word too many");
    }
}

#[test]
fn help_may_be_asked_of_a_command() {
    for command in [
        "sample", "intake", "check", "classes", "run", "show", "log", "undo", "convert", "names",
        "link",
    ] {
        let told = tool(&["help", command]).expect(0);
        assert_eq!(told.out, tool(&[command, "--help"]).expect(0).out);
        assert!(told.out.lines().all(|line| line.len() <= 80), "{command}");
    }
    let all = tool(&["help"]).expect(0).out;
    assert!(all.lines().all(|line| line.len() <= 80));
    tool(&["help", "mend"]).expect_line(64, "there is no command 'mend'");
    tool(&["help", "run", "show"]).expect_line(64, "one word too many");
}

/// One object on standard output, and the line on standard error as without `--json`.
fn expect_failure(told: Told, status: i32, answer: Option<u64>) {
    let told = told.expect(status);
    let failure = parse(&told.out);
    assert_eq!(failure.number("status"), status as u64);
    assert_eq!(
        failure.get("answer"),
        &answer.map_or(Value::Null, Value::Number)
    );
    let line = format!("lfsck-offline: {}\n", failure.text("error"));
    assert_eq!(told.err, line);
}

#[test]
fn failures_are_json_for_machines() {
    let case = Case::sample("json-failures");
    expect_failure(tool(&["--json"]), 64, None);
    expect_failure(tool(&["mend", "--json"]), 64, None);
    expect_failure(tool(&["check", "--json"]), 64, None);
    expect_failure(tool(&["check", "/nowhere", "--json"]), 74, None);
    expect_failure(tool(&["link", "--json"]), 64, None);
    expect_failure(tool(&["link", "/nowhere", "--json"]), 74, None);
    expect_failure(tool(&["link", "/dev/null", "--json"]), 2, Some(31));
    expect_failure(case.run(&["run", "--steps", "x", "--json"]), 64, None);
    expect_failure(case.run(&["show", "1:1", "--json"]), 2, None);
    expect_failure(case.run(&["sample", "--json"]), 74, None);
    case.edit("parents.tbl", |bytes| bytes.push(0));
    for words in [&["run"][..], &["classes"], &["show", "1:1"], &["run", "-n"]] {
        let words = [words, &["--json"]].concat();
        expect_failure(case.run(&words), 2, Some(11));
    }
    // The words after `--` are no options.
    assert_eq!(tool(&["check", "--", "--json"]).expect(74).out, "");
}

/// The findings that a command lists.
fn listed(case: &Case, words: &[&str]) -> Vec<Value> {
    let words = [&["classes"], words].concat();
    case.json(&words, 0).list("findings").to_vec()
}

/// The findings of the sample that a test picks, which narrowing must list, and no others.
fn expect_narrowed(case: &Case, words: &[&str], pick: impl Fn(&Value) -> bool) {
    let all = listed(case, &[]);
    let expected: Vec<Value> = all.into_iter().filter(pick).collect();
    assert!(!expected.is_empty(), "{words:?}");
    assert_eq!(listed(case, words), expected, "{words:?}");
}

#[test]
fn a_list_is_narrowed_by_class_file_and_object() {
    let case = Case::sample("narrowed");
    let class = |it: &Value, names: &[&str]| names.contains(&it.text("class"));
    let is = |it: &Value, name: &str, text: &str| *it.get(name) == Value::Text(text.to_string());
    expect_narrowed(&case, &["--only", "owner", "--only=SELF"], |it| {
        class(it, &["OWNER", "SELF"])
    });
    let (five, eight) = ("[0x200000401:0x5:0x0]", "[0x200000401:0x8:0x0]");
    expect_narrowed(&case, &["--file", five], |it| is(it, "file", five));
    expect_narrowed(&case, &["--file", five, "--file", "0x200000401:8"], |it| {
        is(it, "file", five) || is(it, "file", eight)
    });
    expect_narrowed(&case, &["--file", five, "--only", "BLANK"], |it| {
        is(it, "file", five) && class(it, &["BLANK"])
    });
    let object = "[0x240000400:0x11:0x0]";
    expect_narrowed(&case, &["--object", object], |it| is(it, "object", object));
    assert!(listed(&case, &["--file", five, "--only", "SELF"]).is_empty());
    let told = case.run(&[
        "classes", "--only", "SELF", "--only", "BLANK", "--file", eight,
    ]);
    assert!(
        told.expect(0)
            .out
            .starts_with("Nothing is SELF or BLANK.\n")
    );
    let told = case.run(&["classes", "--file", "0x200000401:1", "--ost", "2"]);
    let line = "Nothing to report of what was asked for.\n";
    assert!(told.expect(0).out.starts_with(line));
}

/// OST and owner of a position of the sample, as `show` tells them.
fn ost_and_owner(case: &Case, finding: &Value) -> (Option<u64>, u64) {
    let stage = finding.number("stage");
    let shown = |name: &str| case.json(&["show", finding.text(name)], 0);
    if stage == 2 {
        let object = shown("object");
        let object = object.get("object");
        return (Some(object.number("ost")), object.number("uid"));
    }
    let file = finding.text("file");
    let told = case.run(&["show", file]).expect(0).out;
    let slot = finding.get("slot");
    let ost = match slot {
        Value::Number(slot) => {
            let start = format!("  slot {slot}: ");
            let line = told.lines().find(|line| line.starts_with(&start)).unwrap();
            let (_, rest) = line.split_once(" on OST ").unwrap();
            Some(rest.split(',').next().unwrap().parse().unwrap())
        }
        _ => None,
    };
    (ost, shown("file").get("file").number("uid"))
}

#[test]
fn a_list_is_narrowed_by_ost_and_owner() {
    let case = Case::sample("narrowed-ost");
    for ost in 0..4 {
        let word = ost.to_string();
        expect_narrowed(&case, &["--ost", &word], |it| {
            ost_and_owner(&case, it).0 == Some(ost)
        });
    }
    expect_narrowed(
        &case,
        &["--ost", "0", "--ost", "3", "--only", "ORPHAN"],
        |it| {
            let ost = ost_and_owner(&case, it).0;
            it.text("class") == "ORPHAN" && (ost == Some(0) || ost == Some(3))
        },
    );
    for (words, uid) in [("1001", 1001), ("1001:100", 1001), ("0", 0), ("0:0", 0)] {
        expect_narrowed(&case, &["--owner", words], |it| {
            ost_and_owner(&case, it).1 == uid
        });
    }
    assert!(listed(&case, &["--owner", "1001:0"]).is_empty());
    let both = listed(&case, &["--owner", "0", "--owner", "1001:100"]);
    assert_eq!(both, listed(&case, &[]));
}

#[test]
fn a_summary_leaves_the_list_out() {
    let case = Case::sample("summary");
    let whole = case.run(&["classes"]).expect(0).out;
    let summary = case.run(&["classes", "--summary"]).expect(0).out;
    assert!(summary.starts_with("Summary:\n") && whole.ends_with(&summary));
    let json = case.json(&["classes", "--summary"], 0);
    assert_eq!(json.get("findings"), &Value::Null);
    assert_eq!(
        json.get("summary"),
        case.json(&["classes"], 0).get("summary")
    );
    let five = case.json(&["classes", "--summary", "--file", "0x200000401:5"], 0);
    let counts =
        ["CLEAN", "BLANK", "UNMATCHED", "OWNER"].map(|name| five.get("summary").number(name));
    assert_eq!(counts, [1, 1, 1, 1]);
    assert_eq!(five.get("summary").number("SELF"), 0);

    let dry = case
        .run(&["run", "--create", "--adopt", "-n"])
        .expect(0)
        .out;
    let told = case
        .run(&["run", "--create", "--adopt", "--summary"])
        .expect(0)
        .out;
    let (before, rest) = dry.split_once("Changed:\n").unwrap();
    let (_, after) = rest.split_once("Repairs:").unwrap();
    assert_eq!(told, format!("{before}Repairs:{after}"));
    let json = case.json(&["run", "--summary"], 0);
    assert_eq!(json.get("changes"), &Value::Null);
}

/// The status is 4 exactly where a run with create and adopt has something to repair, and 0 after
/// it has reached the end.
#[test]
fn the_exit_code_tells_whether_there_is_something_to_mend() {
    let mut random = Random::for_test("exit codes");
    let mut met = Coverage::of("exit codes", [0, 4]);
    for round in 0..120 {
        let (parents, objects) = to_bytes(&random_tables(SHAPE, &mut random), &mut random);
        let reserve: Vec<u8> = OBJECTS.iter().flat_map(|fid| fid.to_bytes()).collect();
        let case = Case::with(&format!("exit-{round}"), &parents, &objects, &reserve);
        let told = case.run(&["run", "--create", "--adopt", "--json"]);
        let ended = told.status == Some(0);
        let report = parse(&told.out);
        let repairs: u64 = match report.get("repairs") {
            Value::Object(repairs) => repairs
                .keys()
                .map(|it| report.get("repairs").number(it))
                .sum(),
            other => panic!("{other:?}"),
        };
        let after = case.run(&["classes", "--exit-code"]);
        assert_eq!(after.status, Some(if ended { 0 } else { 4 }));
        let before = Case::with(&format!("exit-{round}"), &parents, &objects, &reserve);
        let to_mend = if repairs > 0 || !ended { 4 } else { 0 };
        before.run(&["classes", "--exit-code"]).expect(to_mend);
        before
            .run(&["classes", "--exit-code", "--summary", "--json"])
            .expect(to_mend);
        before.run(&["classes"]).expect(0);
        met.met(to_mend);
    }
    met.require(5);
}

#[test]
fn the_exit_code_is_of_what_is_listed() {
    let case = Case::sample("exit-listed");
    for (words, status) in [
        (&["--only", "OWNER"][..], 4),
        (&["--only", "SPARE"], 0),
        (&["--only", "CLEAN"], 0),
        (&["--object", "0x240000400:0x24"], 4),
        (&["--object", "0x240000400:0x25"], 0),
        (&["--file", "0x200000401:6"], 4),
    ] {
        let words = [&["classes", "--exit-code"], words].concat();
        case.run(&words).expect(status);
    }
}
