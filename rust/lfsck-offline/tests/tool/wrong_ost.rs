//! Stripes on the wrong OST: what is said of them, what a run writes, and what takes it back.

use crate::bytes::{object_row, parent_row};
use crate::json::Value;
use crate::oracle;
use crate::tool::{Case, LOG, expect_lines};

const TEN: &str = "[0x200000401:0xa:0x0]";
const ELEVEN: &str = "[0x200000401:0xb:0x0]";

/// Where an object row has the OST index, the uid, the claim and the fresh mark.
const OST: usize = 17;
const UID: usize = 21;
const CLAIM: usize = 29;
const FRESH: usize = 45;

/// File 1 names three objects on OST 3, which are on OST 5: the first claims its slot and has
/// another owner, the second claims nothing, and the third claims slot 7.
fn three(name: &str) -> Case {
    let mut rows = [0, 1, 7].map(|slot| object_row(0x10 + slot.min(2), (1, slot)));
    rows.iter_mut().for_each(|row| row[OST] = 5);
    rows[0][UID] = 0;
    rows[1][CLAIM..CLAIM + 16].fill(0);
    let parents = parent_row(1, &[0x10, 0x11, 0x12]);
    Case::with(name, &parents, &rows.concat(), &[])
}

#[test]
fn classes_tell_both_osts() {
    let case = Case::sample("wrong-ost-classes");
    for word in ["WRONG-OST", "wrong-ost"] {
        let told = case.run(&["classes", "--only", word]).expect(0).out;
        let list = "\
Files:
  file                     slot  object                   class      repair
  [0x200000401:0xa:0x0]       0  [0x240000400:0x28:0x0]   WRONG-OST  always: write OST 2, where the object is, into the slot, which names OST 1
  [0x200000401:0xb:0x0]       0  [0x240000400:0x29:0x0]   WRONG-OST  always: write the owner 1001:100, and OST 1, where the object is, into the slot, which names OST 2
Summary:
";
        assert!(told.starts_with(list), "{told}");
        let count = "  WRONG-OST       2  the object is on another OST than the slot names\n";
        assert!(told.contains(count), "{told}");
    }
    let json = case.json(&["classes", "--only", "WRONG-OST"], 0);
    let osts = |it: &Value| [it.number("slot_ost"), it.number("object_ost")];
    let findings = json.list("findings");
    let told: Vec<[u64; 2]> = findings.iter().map(osts).collect();
    assert_eq!(told, [[1, 2], [2, 1]]);
    assert!(findings.iter().all(|it| it.text("policy") == "always"));
    assert_eq!(json.get("summary").number("WRONG-OST"), 2);
    case.run(&["classes", "--only", "WRONG-OST", "--exit-code"])
        .expect(4);
    // The slot counts to the OST that it names.
    let one = case.json(&["classes", "--only", "WRONG-OST", "--ost", "1"], 0);
    assert_eq!(one.list("findings").len(), 1);
    assert_eq!(one.list("findings")[0].text("file"), TEN);
}

#[test]
fn show_tells_both_osts() {
    let case = Case::sample("wrong-ost-show");
    let told = case.run(&["show", ELEVEN]).expect(0).out;
    let lines = "\
  slot 0: WRONG-OST, names [0x240000400:0x29:0x0] on OST 2, generation 0
      the object is on OST 1, has owner 0:0 and claims slot 0 of [0x200000401:0xb:0x0]
      this slot is the keeper: the object claims this slot
      1 slot compared to find the keeper
      repair, always: write the owner 1001:100, and OST 1, where the object is, into the slot, which names OST 2
      the layout's generation goes from 0 to 1 with it
";
    assert!(told.ends_with(lines), "{told}");
    let told = case.run(&["show", "0x240000400:0x28"]).expect(0).out;
    expect_lines(
        &told,
        &[
            "  on OST 2, owner 1001:100\n",
            "  KEPT: a slot names it\n",
            "  named by slot 0 of [0x200000401:0xa:0x0], on OST 1: WRONG-OST\n",
        ],
    );
    let json = case.json(&["show", TEN], 0);
    let slot = &json.get("file").list("positions")[1];
    assert_eq!(slot.text("class"), "WRONG-OST");
    assert_eq!([slot.number("slot_ost"), slot.number("object_ost")], [1, 2]);
}

/// Under no policy at all, with a dry run before it and an undo after it.
#[test]
fn a_run_writes_the_index_and_an_undo_takes_it_back() {
    let case = Case::sample("wrong-ost-run");
    let start = case.files();
    let lines = [
        "  [0x200000401:0xa:0x0]       0  [0x240000400:0x28:0x0]   OST 2, where the object is, written into the slot, it was 1\n",
        "  [0x200000401:0xb:0x0]       0  [0x240000400:0x29:0x0]   OST 1, where the object is, written into the slot, it was 2\n",
        "  [0x200000401:0xb:0x0]       0  [0x240000400:0x29:0x0]   owner 1001:100 written, it was 0:0\n",
        "Repairs: SELF 1, BLANK 1, UNMATCHED 1, OWNER 1, WRONG-OST 2.\n",
    ];
    let dry = case.run(&["run", "--dry-run"]).expect(0).out;
    assert_eq!(case.files(), start);
    let told = case.run(&["run"]).expect(0).out;
    assert_eq!(told, dry);
    expect_lines(&told, &lines);
    oracle::run(&start, 0, u64::MAX).expect_in(&case);
    let told = case.run(&["classes", "--only", "WRONG-OST"]).expect(0).out;
    assert!(told.starts_with("Nothing is WRONG-OST.\n"), "{told}");
    let told = case.run(&["log", TEN]).expect(0).out;
    let why = "OST 2, where the object is, written into the slot, it was 1; \
               WRONG-OST: the object is on another OST than the slot names\n";
    expect_lines(&told, &[why]);
    expect_lines(&case.run(&["log"]).expect(0).out, &lines);
    let told = case.run(&["undo"]).expect(0).out;
    let back = "[0x240000400:0x28:0x0]   OST 1 written into the slot, it was 2\n";
    expect_lines(&told, &[back]);
    expect_lines(&case.run(&["log", TEN]).expect(0).out, &[why, back]);
    let mut after = case.files();
    after.remove(LOG);
    assert_eq!(after, start);
}

/// The index is a change of its slot, with all of the slot before and after it, and comes with one
/// of the generation.
#[test]
fn a_written_index_is_a_change_of_its_slot() {
    let case = Case::sample("wrong-ost-json");
    let report = case.json(&["run", "--create", "--adopt"], 0);
    assert_eq!(report.get("repairs").number("WRONG-OST"), 2);
    let is_ten = |it: &&Value| *it.get("file") == Value::Text(TEN.to_string());
    let changes: Vec<&Value> = report.list("changes").iter().filter(is_ten).collect();
    let kinds: Vec<&str> = changes.iter().map(|it| it.text("kind")).collect();
    assert_eq!(kinds, ["generation", "slot"]);
    for (side, ost) in [("old", 1), ("new", 2)] {
        let slot = changes[1].get(side);
        assert_eq!(slot.text("object"), "[0x240000400:0x28:0x0]");
        assert_eq!([slot.number("generation"), slot.number("ost")], [0, ost]);
    }
}

#[test]
fn blank_and_unmatched_tell_and_mend_the_index_too() {
    let case = three("wrong-ost-claims");
    let start = case.files();
    let index = "OST 5, where the object is, into the slot, which names OST 3\n";
    let told = case.run(&["classes"]).expect(0).out;
    for (class, before) in [
        ("WRONG-OST", "write the owner 500:600, and "),
        (
            "BLANK    ",
            "write this slot as the object's claim, the owner 500:600, and ",
        ),
        (
            "UNMATCHED",
            "write this slot as the object's claim, the owner 500:600, and ",
        ),
    ] {
        expect_lines(&told, &[&format!("{class}  always: {before}{index}")]);
    }
    let told = case.run(&["run"]).expect(0).out;
    let written = told.matches("   OST 5, where the object is, written into the slot, it was 3\n");
    assert_eq!(written.count(), 3, "{told}");
    expect_lines(
        &told,
        &[
            "claim written, it had none\n",
            "claim written, it was slot 7 of [0x200000401:0x1:0x0]\n",
            "Repairs: BLANK 1, UNMATCHED 1, WRONG-OST 1.\n",
        ],
    );
    oracle::run(&start, 0, u64::MAX).expect_in(&case);
    let told = case.run(&["run", "--from-start"]).expect(0).out;
    expect_lines(&told, &["Nothing was changed.\nRepairs: none.\n"]);
}

/// The story of each object has the class under which its slot's index was written.
#[test]
fn an_index_is_written_under_the_class_that_was_mended() {
    let case = three("wrong-ost-story");
    case.run(&["run"]).expect(0);
    for (id, class, kinds) in [
        (0x10, "WRONG-OST", &["slot", "owner"][..]),
        (0x11, "BLANK", &["slot", "claim"]),
        (0x12, "UNMATCHED", &["slot", "claim"]),
    ] {
        let told = case.json(&["log", &format!("0x240000400:{id}")], 0);
        let story = told.list("story");
        let told: Vec<&str> = story
            .iter()
            .map(|part| part.get("change").text("kind"))
            .collect();
        assert_eq!(told, kinds, "{id:#x}");
        assert!(
            story.iter().all(|part| part.text("class") == class),
            "{story:?}"
        );
    }
}

/// The index of a slot is mended, and then an orphan takes the slot of that fresh object: both are
/// counted, and what differs is what the slot names.
#[test]
fn an_index_is_mended_where_an_orphan_goes_then() {
    let mut fresh = object_row(0x10, (1, 0));
    fresh[OST] = 5;
    fresh[FRESH] = 1;
    let rows = [fresh, object_row(0x11, (1, 0))].concat();
    let case = Case::with("wrong-ost-orphan", &parent_row(1, &[0x10]), &rows, &[]);
    let start = case.files();
    let told = case.run(&["run", "--adopt"]).expect(0).out;
    expect_lines(
        &told,
        &[
            "slot names this object now, instead of [0x240000400:0x10:0x0]\n",
            "Repairs: ORPHAN 1, WRONG-OST 1.\n",
        ],
    );
    assert!(!told.contains("written into the slot"), "{told}");
    oracle::run(&start, 2, u64::MAX).expect_in(&case);
    let told = case.run(&["log", "0x200000401:1"]).expect(0).out;
    assert!(
        told.contains("ORPHAN") && !told.contains("WRONG-OST:"),
        "{told}"
    );
    case.run(&["undo"]).expect(0);
    let mut after = case.files();
    after.remove(LOG);
    assert_eq!(after, start);
}
