//! Tables as a cut between two writes leaves them: which records a step writes and in which order,
//! which object a redirect uses, and that a run from the start comes to the end of the uncut one.

use difftest::tables::{OBJECTS, Shape, random_cut_tables, to_bytes};
use difftest::{Coverage, Random};
use reference::class::Class;
use reference::position::Position;

use crate::bytes::{PARENT, object, object_row, parent_row};
use crate::commands::CLASSES;
use crate::earlier::{REUSED, position};
use crate::json::Value;
use crate::oracle;
use crate::tool::{Case, Files, LOG, POSITION, expect_lines};

const RUN: [&str; 3] = ["run", "--create", "--adopt"];

/// Where an object row has its OST index, its owner and its fresh mark.
const OST: usize = 17;
const UID: usize = 21;
const FRESH: usize = 45;

const SHAPE: Shape = Shape {
    parents: 4,
    objects: 8,
    slots: 3,
    files: 3,
    fids: 8,
};

/// A file of the sample, or of a few rows.
fn file(id: u32) -> String {
    format!("[0x200000401:{id:#x}:0x0]")
}

/// The row of an object that a repair made for a slot.
fn fresh_row(id: u32, claim: (u32, u32)) -> Vec<u8> {
    let mut row = object_row(id, claim);
    row[FRESH] = 1;
    row
}

/// The FIDs of a reserve.
fn reserve(ids: &[u32]) -> Vec<u8> {
    ids.iter().flat_map(|id| object(*id).to_bytes()).collect()
}

/// Random tables with room and FIDs for repairs, as redirects may leave them that were cut off.
fn random_case(name: &str, random: &mut Random) -> Case {
    let (parents, objects) = to_bytes(&random_cut_tables(SHAPE, random), random);
    let parents = [parents, vec![0; 2 * PARENT]].concat();
    let objects = [objects, vec![0; 4 * 46]].concat();
    let reserve: Vec<u8> = OBJECTS.iter().flat_map(|fid| fid.to_bytes()).collect();
    Case::with(name, &parents, &objects, &reserve)
}

/// Two files name one object, which claims the slot of the first; a fresh one claims that of the
/// second. There is neither a reserve nor an unused row.
fn redirected(name: &str, waiting: &[Vec<u8>]) -> Case {
    let parents = [parent_row(1, &[0x10]), parent_row(2, &[0x10])].concat();
    let objects = object_row(0x10, (1, 0));
    let objects = [objects, waiting.concat()].concat();
    Case::with(name, &parents, &objects, &[])
}

#[test]
fn the_sample_has_a_redirect_that_was_cut_off() {
    let case = Case::sample("cut-sample");
    let told = case.run(&["show", &file(13)]).expect(0).out;
    let lines = "  slot 0: MULTIPLE, names [0x240000400:0x10:0x0] on OST 0, generation 0\n";
    let repair = "      repair, with --create: use [0x240000400:0x2b:0x0], empty, which claims \
                  this slot: name it here, on OST 0\n      the layout's generation goes from 0 to \
                  1 with it\n";
    let empty = "  object [0x240000400:0x2b:0x0] claims slot 0, and no slot names it: EMPTY\n      \
                 repair, with --adopt: destroy the object\n      but a run with --create first \
                 lets slot 0 of [0x200000401:0xd:0x0] name it\n";
    expect_lines(&told, &[lines, repair, empty]);
    let told = case.run(&["classes"]).expect(0).out;
    let words = "with --adopt: destroy the object; but a run with --create first lets slot 0 of";
    assert_eq!(told.matches(words).count(), 1, "{told}");
    assert_eq!(told.matches("with --create: use [").count(), 1, "{told}");
    let shown = case.json(&["show", "0x240000400:0x2b"], 0);
    let turn = shown.get("object").get("position").get("turn");
    let texts = ["class", "policy", "why"].map(|name| turn.text(name));
    let why = "lets slot 0 of [0x200000401:0xd:0x0] name it";
    assert_eq!(texts, ["KEPT", "create", why]);
    case.run(&RUN).expect(0);
    let told = case.run(&["show", &file(13)]).expect(0).out;
    let lines = "  slot 0: CLEAN, names [0x240000400:0x2b:0x0] on OST 0, generation 0\n";
    assert!(told.contains(lines), "{told}");
}

/// The owner is written where it differs, and the slot gets the OST that the object is on. Nothing
/// of the reserve and no row is needed; without such an object the run stops.
#[test]
fn a_redirect_uses_what_claims_the_slot() {
    let mut other = fresh_row(0x20, (2, 0));
    other[OST] = 5;
    other[UID..UID + 4].copy_from_slice(&7_u32.to_le_bytes());
    let waiting = [other, fresh_row(0x21, (2, 0))];
    let case = redirected("cut-reuse", &waiting);
    let told = case.run(&["show", &file(2)]).expect(0).out;
    let words = "repair, with --create: use [0x240000400:0x20:0x0], empty, which claims this slot: \
                 write the owner 500:600, name it here, on OST 5\n";
    assert!(told.contains(words), "{told}");
    // The second is left.
    assert_eq!(told.matches("but a run").count(), 1, "{told}");
    let start = case.files();
    let told = case.run(&["run", "--create"]).expect(0).out;
    let lines = [
        "slot names this object now, instead of [0x240000400:0x10:0x0]\n",
        "owner 500:600 written, it was 7:600\n",
        "Repairs: MULTIPLE 1.\n",
    ];
    expect_lines(&told, &lines);
    assert!(!told.contains("made"), "{told}");
    oracle::run(&start, 1, u64::MAX).expect_in(&case);
    let shown = case.json(&["show", &file(2)], 0);
    assert_eq!(shown.get("file").list("positions")[1].number("slot_ost"), 5);
    // One that may hold data, and one that claims another slot, are not used.
    for waiting in [
        vec![],
        vec![object_row(0x20, (2, 0))],
        vec![fresh_row(0x20, (2, 1))],
    ] {
        let case = redirected("cut-no-reuse", &waiting);
        let told = case.json(&["run", "--create"], 3);
        assert_eq!(told.number("answer"), 21);
    }
}

/// The classes and kinds of the changes in the story of a file or object.
fn story(case: &Case, fid: &str) -> Vec<String> {
    let told = case.json(&["log", fid], 0);
    let words = |it: &Value| {
        let class = match it.get("class") {
            Value::Text(class) => class,
            _ => "-",
        };
        format!("{class} {}", it.get("change").text("kind"))
    };
    told.list("story").iter().map(words).collect()
}

/// An object that may hold data claims the place too. A run uses the empty one, which then gives
/// way; the class that it has when the run comes to it is told, and why.
fn expect_given_way(case: &Case, class: &str, words: &str) {
    let told = case.run(&["show", &file(2)]).expect(0).out;
    let taker = "but a run with --create --adopt first lets that slot name \
                 [0x240000400:0x20:0x0], empty, and then puts this object there\n";
    expect_lines(&told, &[words, taker]);
    let shown = case.json(&["show", "0x240000400:0x20"], 0);
    let turn = shown.get("object").get("position").get("turn");
    assert_eq!(turn.text("class"), class);
    let start = case.files();
    let told = case.run(&RUN).expect(0).out;
    assert!(told.contains("Repairs: MULTIPLE 1, ORPHAN 1.\n"), "{told}");
    oracle::run(&start, 3, u64::MAX).expect_in(case);
    assert_eq!(story(case, "0x240000400:0x20"), ["ORPHAN object_destroyed"]);
    // The generation was raised by both classes.
    let expected = ["- generation", "ORPHAN slot", "ORPHAN object_destroyed"];
    assert_eq!(story(case, &file(2)), expected);
}

/// Where the object with data stands first, the empty one is gone before the run comes to it.
#[test]
fn what_is_used_may_give_way() {
    let (fresh, data) = (fresh_row(0x20, (2, 0)), object_row(0x30, (2, 0)));
    let case = redirected("cut-then-taken", &[fresh.clone(), data.clone()]);
    let words = "but a run with --create first lets slot 0 of [0x200000401:0x2:0x0] name it\n";
    expect_given_way(&case, "KEPT", words);
    let case = redirected("cut-taken-before", &[data, fresh]);
    let words = "but a run with --create --adopt first lets slot 0 of [0x200000401:0x2:0x0] name \
                 it, then puts [0x240000400:0x30:0x0] there and destroys this object\n";
    expect_given_way(&case, "UNUSED", words);
}

/// The objects of which it is said are named after a run with create, and the others are EMPTY.
#[test]
fn an_empty_object_that_a_run_uses_is_marked() {
    let mut random = Random::for_test("empty objects");
    let mut met = Coverage::of("empty objects", ["KEPT", "UNUSED", "stays"]);
    for round in 0..500 {
        let case = random_case(&format!("empty-{round}"), &mut random);
        let empty = case.json(&["classes", "--only", "EMPTY"], 0);
        if case.run(&["run", "--create"]).status != Some(0) {
            continue;
        }
        let after = case.json(&["classes", "--only", "KEPT"], 0);
        let kept: Vec<u64> = rows(after.list("findings"));
        for finding in empty.list("findings") {
            let turn = match finding.get("turn") {
                Value::Null => "stays",
                turn if turn.text("class") == "KEPT" => "KEPT",
                _ => "UNUSED",
            };
            let row = finding.number("row");
            assert_eq!(kept.contains(&row), turn != "stays", "{round}: {row}");
            met.met(turn);
        }
    }
    met.require(3);
}

fn rows(findings: &[Value]) -> Vec<u64> {
    findings.iter().map(|it| it.number("row")).collect()
}

/// The entry of a run names the objects that it used, and the story of a slot knows its class by
/// that.
#[test]
fn the_log_names_what_was_used() {
    for (name, owner) in [("cut-log", 500_u32), ("cut-log-owner", 7)] {
        let mut waiting = fresh_row(0x20, (2, 0));
        waiting[UID..UID + 4].copy_from_slice(&owner.to_le_bytes());
        let case = redirected(name, &[waiting]);
        let start = case.files();
        case.run(&["run", "--create"]).expect(0);
        let told = case.json(&["log"], 0);
        let used = Value::List(vec![Value::Text("[0x240000400:0x20:0x0]".to_string())]);
        assert_eq!(told.list("entries")[0].get("reused"), &used);
        let told = case.json(&["log", &file(2)], 0);
        let story = told.list("story");
        assert_eq!(story.len(), 2 + usize::from(owner != 500));
        assert!(story.iter().all(|it| it.text("class") == "MULTIPLE"));
        let log = String::from_utf8(case.read(LOG)).expect("a text");
        for spoilt in ["7", "[7]", "[\"0x1\"]", "\"[0x240000400:0x20:0x0]\""] {
            let list = "\"reused\":[\"[0x240000400:0x20:0x0]\"]";
            assert_eq!(log.matches(list).count(), 1);
            let log = log.replace(list, &format!("\"reused\":{spoilt}"));
            case.write(LOG, log.as_bytes());
            case.run(&["log"])
                .expect_line(2, "line 1 is no entry of the log");
        }
        case.write(LOG, log.as_bytes());
        case.run(&["undo"]).expect(0);
        let mut after = case.files();
        after.remove(LOG);
        assert_eq!(after, start);
    }
}

/// P[A,A], A claims the first slot, one row is unused, and the redirect of the second was cut off
/// after its object. Where the object isn't used there is no row for another.
#[test]
fn a_run_after_a_cut_ends_as_the_uncut_one() {
    let parents = parent_row(1, &[0x10, 0x10]);
    let objects = [object_row(0x10, (1, 0)), vec![0; 46]].concat();
    let case = Case::with("cut-uncut", &parents, &objects, &reserve(&[0x20, 0x21]));
    let made = [object_row(0x10, (1, 0)), fresh_row(0x20, (1, 1))].concat();
    let cut = Case::with("cut-cut", &parents, &made, &reserve(&[0x20, 0x21]));
    for case in [&case, &cut] {
        case.run(&RUN).expect(0);
    }
    for table in ["parents.tbl", "objects.tbl"] {
        assert!(case.read(table) == cut.read(table), "{table}");
    }
}

/// The row of a table, as the tables of a case have it.
fn row<'files>(files: &'files Files, table: &str, row: usize) -> &'files [u8] {
    let bytes = match table {
        "parents.tbl" => PARENT,
        _ => 46,
    };
    &files[table][row * bytes..][..bytes]
}

/// Puts a row of other tables in its place.
fn store(files: &mut Files, other: &Files, (table, number): (&str, usize)) {
    let new = row(other, table, number);
    let bytes = files.get_mut(table).expect("a table");
    bytes[number * new.len()..][..new.len()].copy_from_slice(new);
}

/// The records that the step at a position writes, as `show` tells them of its file or object.
fn records(case: &Case, at: [u64; 3]) -> Vec<(String, usize)> {
    let site = oracle::site(case);
    let fid = match Position::of_numbers(at, site.tables()) {
        Some(Position::Header { row } | Position::Slot { row, .. }) => {
            site.parent(row).expect("a file").fid
        }
        Some(Position::Object { row }) => site.object(row).expect("an object").fid,
        _ => panic!("{at:?}"),
    };
    let fid = format!("[{:#x}:{:#x}:0x0]", fid.sequence, fid.id);
    let shown = case.json(&["show", &fid, "--writes"], 0);
    let of_file = match shown.get("file") {
        Value::Null => &[],
        file => file.list("positions"),
    };
    let of_object = match shown.get("object") {
        Value::Null => None,
        object => Some(object.get("position")),
    };
    let is_at = |it: &&Value| ["stage", "row", "part"].map(|name| it.number(name)) == at;
    let finding = of_file.iter().chain(of_object).find(is_at);
    let writes = finding.expect("a finding").list("writes");
    let record = |it: &Value| (it.text("table").to_string(), it.number("row") as usize);
    writes.iter().map(record).collect()
}

/// What was written last before a cut.
const CUTS: [&str; 7] = [
    "MULTIPLE, its object",
    "BLANK, its object",
    "UNMATCHED, its object",
    "WRONG-OST, its object",
    "ORPHAN, its layout of two",
    "ORPHAN, its layout of three",
    "ORPHAN, its owner",
];

/// The name of a cut after so many of the records of a step.
fn cut_name(class: Class, done: usize, of: usize) -> String {
    let last = match (class, done, of) {
        (Class::Orphan, 1, 2) => "its layout of two",
        (Class::Orphan, 1, _) => "its layout of three",
        (Class::Orphan, ..) => "its owner",
        _ => "its object",
    };
    format!("{}, {last}", CLASSES[class.number() as usize])
}

/// The files of a case as they stand in memory.
fn with_tables(files: &Files, run: &oracle::Run) -> Files {
    let mut files = files.clone();
    files.insert("parents.tbl".to_string(), run.parents.clone());
    files.insert("objects.tbl".to_string(), run.objects.clone());
    files
}

/// Cuts a run after each write of each step: the tables pass the check, and a run from the start
/// ends with those of the uncut run. Whole, the records of a step are what it changes.
fn cut_everywhere(case: &Case, policy: u64, words: &[&str], met: &mut Coverage<String>) {
    let start = case.files();
    let uncut = oracle::run(&start, policy, u64::MAX);
    if uncut.answer != 0 {
        return;
    }
    let mut tables = start.clone();
    let mut at = oracle::run(&start, policy, 0).position;
    while at[0] != 3 {
        let step = oracle::run_from(&tables, at, policy, 1);
        let after = with_tables(&tables, &step);
        if step.report[1..].iter().any(|&count| count > 0) {
            case.restore(&tables);
            let site = oracle::site(case);
            let place = Position::of_numbers(at, site.tables()).expect("a position");
            let class = Class::at(&site, place).expect("a class");
            let records = records(case, at);
            let mut stored = tables.clone();
            for (done, (table, number)) in records.iter().enumerate() {
                if done > 0 {
                    case.restore(&stored);
                    case.run(&["check"]).expect(0);
                    case.run(words).expect(0);
                    uncut.expect_in(case);
                    met.met(cut_name(class, done, records.len()));
                }
                store(&mut stored, &after, (table, *number));
            }
            assert!(stored == after, "{at:?}: {records:?}");
        }
        (tables, at) = (after, step.position);
    }
}

#[test]
fn a_cut_after_any_write_comes_to_the_same_end() {
    let mut random = Random::for_test("cuts of the tool");
    let mut met = Coverage::of("cuts", CUTS.map(str::to_string));
    for round in 0..120 {
        let case = random_case(&format!("cut-{round}"), &mut random);
        let policies: [(u64, &[&str]); 3] = [
            (3, &RUN),
            (1, &["run", "--create"]),
            (2, &["run", "--adopt"]),
        ];
        let (policy, words) = random.pick(&policies);
        cut_everywhere(&case, policy, words, &mut met);
    }
    met.require(2);
}

/// The tables of a cut are none that a position was saved with, so the command begins at the start
/// by itself.
#[test]
fn a_saved_position_does_not_count_after_a_cut() {
    let case = Case::sample("cut-position");
    let uncut = oracle::run(&case.files(), 3, u64::MAX);
    // The next step is at slot 0 of file 11, whose object has another owner.
    let steps = "25";
    case.run(&[&RUN[..], &["--steps", steps]].concat())
        .expect(1);
    let saved = String::from_utf8(case.read(POSITION)).expect("a text");
    assert!(saved.contains("\nposition 1 9 1\n"), "{saved}");
    assert_eq!(
        records(&case, [1, 9, 1]),
        [
            ("objects.tbl".to_string(), 19),
            ("parents.tbl".to_string(), 9)
        ]
    );
    let files = case.files();
    let after = with_tables(&files, &oracle::run_from(&files, [1, 9, 1], 3, 1));
    let mut cut = files.clone();
    store(&mut cut, &after, ("objects.tbl", 19));
    case.restore(&cut);
    let told = case.run(&RUN).expect(0).out;
    let line = "The run begins at the start; the saved position does not count: objects.tbl has \
                changed since it was saved.\n";
    assert!(told.starts_with(line), "{told}");
    uncut.expect_in(&case);
}

/// What is shown of a FID with the writes: the rows, repair by repair.
fn writes_lines(case: &Case, fid: &str) -> Vec<String> {
    let told = case.run(&["show", fid, "--writes"]).expect(0).out;
    let lines = told
        .lines()
        .filter_map(|it| it.strip_prefix("      writes "));
    lines.map(str::to_string).collect()
}

/// The writes of the repairs that are shown with each file of the sample.
const WRITES: [(u32, &[&str]); 13] = [
    (1, &["object row 17"]),
    (2, &["parent row 1"]),
    (3, &["object row 22, then parent row 2"]),
    (4, &["object row 22"]),
    (5, &["object row 4", "object row 5", "object row 6"]),
    (6, &["parent row 5", "parent row 5, then object row 11"]),
    (7, &["parent row 6, then object row 9"]),
    (8, &["object row 22"]),
    (9, &["parent row 11"]),
    (10, &["parent row 8"]),
    (11, &["object row 19, then parent row 9"]),
    (12, &[]),
    (13, &["parent row 10", "object row 21"]),
];

/// Every class, and every way to a place.
#[test]
fn show_tells_the_writes_in_their_order() {
    let case = Case::sample("writes-sample");
    for (id, lines) in WRITES {
        assert_eq!(writes_lines(&case, &file(id)), lines, "file {id}");
    }
    let orphan = writes_lines(&case, "0x240000400:0x21");
    assert_eq!(orphan, ["parent row 5, then object row 11"]);
    // An orphan of another owner takes a place.
    case.edit("objects.tbl", |bytes| bytes[13 * 46 + UID] ^= 1);
    let line = "parent row 6, then object row 13, then object row 9";
    assert_eq!(writes_lines(&case, &file(7)), [line]);
    // A new object stands in the first unused row.
    case.edit("objects.tbl", |bytes| bytes[16 * 46] = 0);
    let line = "object row 16, then parent row 2";
    assert_eq!(writes_lines(&case, &file(3)), [line]);
}

/// With the option nothing else is another, and without it there is no word of it.
#[test]
fn writes_are_told_on_demand() {
    let case = Case::sample("writes-demand");
    let before = case.files();
    for id in 1..=13 {
        let told = case.run(&["show", &file(id), "--writes"]).expect(0).out;
        let others = told.lines().filter(|line| !line.contains("      writes "));
        let others: String = others.map(|line| format!("{line}\n")).collect();
        assert_eq!(case.run(&["show", &file(id)]).expect(0).out, others);
    }
    assert_eq!(case.files(), before);
    let told = case.json(&["show", &file(11), "--writes"], 0);
    let positions = told.get("file").list("positions");
    let record = |it: &Value| (it.text("table").to_string(), it.number("row"));
    let told: Vec<_> = positions[1].list("writes").iter().map(record).collect();
    let expected = [("objects.tbl", 19), ("parents.tbl", 9)];
    assert_eq!(told, expected.map(|(table, row)| (table.to_string(), row)));
    assert_eq!(positions[1].get("stops"), &Value::Null);
    // A header that is as it should be has no repair.
    assert_eq!(positions[0].get("writes"), &Value::Null);
    let plain = case.json(&["show", &file(11)], 0);
    for finding in plain.get("file").list("positions") {
        assert_eq!(finding.get("writes"), &Value::Null);
        assert_eq!(finding.get("stops"), &Value::Null);
    }
    let classes = case.json(&["classes"], 0);
    for finding in classes.list("findings") {
        assert_eq!(finding.get("writes"), &Value::Null);
    }
    // To machines also of the slots that name an object, and of the objects that claim a file.
    let told = case.json(&["show", "0x240000400:0x10", "--writes"], 0);
    let of_slots: Vec<bool> = told.list("named_by").iter().map(has_writes).collect();
    assert_eq!(of_slots, [false, true]);
    let told = case.json(&["show", &file(13), "--writes"], 0);
    assert!(told.list("claimed_by").iter().all(has_writes));
}

fn has_writes(finding: &Value) -> bool {
    *finding.get("writes") != Value::Null
}

/// The first repair of a file, whose step could not be made: the number is told in the place of the
/// records.
fn expect_stop(case: &Case, fid: &str, number: u64, meaning: &str) {
    let told = case.run(&["show", fid, "--writes"]).expect(0).out;
    let line = format!("      the step would stop with {number}: {meaning}\n");
    assert!(told.contains(&line), "{told}");
    assert!(!told.contains("      writes "), "{told}");
    let told = case.json(&["show", fid, "--writes"], 0);
    let finding = match told.get("file") {
        Value::Null => &told.list("claimed_by")[0],
        file => &file.list("positions")[1],
    };
    assert_eq!(finding.number("stops"), number);
    assert_eq!(finding.get("writes"), &Value::Null);
}

#[test]
fn a_step_that_cannot_be_made_is_told() {
    let parents = [parent_row(1, &[0x10, 0x11]), parent_row(2, &[0x10])].concat();
    let objects = [object_row(0x10, (2, 0)), object_row(0x11, (1, 1))].concat();
    let case = Case::with("stops-21", &parents, &objects, &[]);
    let meaning = "a slot is to be redirected, and no FID of the reserve can be used";
    expect_stop(&case, &file(1), 21, meaning);
    let case = Case::with("stops-22", &parents, &objects, &reserve(&[0x20]));
    let meaning = "an object is to be made, and no object row is unused";
    expect_stop(&case, &file(1), 22, meaning);
    let one = parent_row(1, &[]);
    let case = Case::with("stops-23", &one, &object_row(0x30, (9, 2)), &[]);
    let meaning = "a file is to be made, and no parent row is unused";
    expect_stop(&case, &file(9), 23, meaning);
    // An object that claims the slot needs neither.
    let waiting = [objects, fresh_row(0x20, (1, 0))].concat();
    let case = Case::with("stops-not", &parents, &waiting, &[]);
    let lines = writes_lines(&case, &file(1));
    assert_eq!(lines, ["parent row 0", "object row 2"]);
}

#[test]
fn the_option_is_of_show_alone() {
    let case = Case::sample("writes-refused");
    let before = case.files();
    for words in [
        &["classes"][..],
        &["check"],
        &["run"],
        &["run", "--dry-run"],
        &["log"],
        &["log", "0x200000401:1"],
        &["undo"],
        &["convert"],
        &["names"],
        &["sample"],
        &["link"],
        &["intake", "--owners", "/dev/null"],
    ] {
        let words = [words, &["--writes"]].concat();
        case.run(&words)
            .expect_line(64, "there is no option '--writes' here");
    }
    case.run(&["show", "0x200000401:1", "--writes=1"])
        .expect_line(64, "there is no option '--writes=1' here");
    case.run(&["show", "--writes"])
        .expect_line(64, "the FID is missing");
    assert_eq!(case.files(), before);
}

/// Tables that are refused are refused with the option too.
#[test]
fn writes_of_unsound_tables_are_refused() {
    let case = Case::sample("writes-unsound");
    case.edit("reserve.tbl", |bytes| bytes[8] = 0);
    let told = case.run(&["show", &file(2), "--writes"]);
    let told = told.expect_line(2, "refused with 14");
    assert_eq!(told.err, case.run(&["show", &file(2)]).expect(2).err);
}

/// The sample after 12 steps of version 0.8.0, whose log says nothing of objects that were used.
fn left(name: &str) -> Case {
    let case = Case::sample(name);
    case.run(&[&RUN[..], &["--steps", "12"]].concat()).expect(1);
    let log = String::from_utf8(case.read(LOG)).expect("a text");
    let version = |version: &str| format!("\"version\":\"{version}\"");
    let this = version(env!("CARGO_PKG_VERSION"));
    for part in [REUSED, &this] {
        assert_eq!(log.matches(part).count(), 1, "{part}");
    }
    let log = log.replace(REUSED, "").replace(&this, &version("0.8.0"));
    case.write(LOG, log.as_bytes());
    let at = "position 1 4 2\npolicy 3\n";
    let saved = position("4\nedition 2026-08", at, &case.files());
    case.write(POSITION, saved.as_bytes());
    case
}

/// A run of 2026-08 is not taken up, since a redirect may use another object here; its log is told,
/// and it is taken back.
#[test]
fn a_run_of_the_edition_before_is_told_and_taken_back() {
    let case = left("cut-left");
    let other = Case::sample("cut-left-here");
    let start = other.files();
    other
        .run(&[&RUN[..], &["--steps", "12"]].concat())
        .expect(1);
    let refused = case.run(&RUN).expect_line(2, "saved by edition 2026-08");
    let line = "; this is edition 2026-09, and no run is taken up across editions; --from-start \
                begins without it\n";
    assert!(refused.err.ends_with(line), "{refused:?}");
    for words in [&["log"][..], &["log", "0x200000401:3"]] {
        let told = other.run(words).expect(0).out;
        let (first, rest) = told.split_once("  run, ").expect("a title");
        let this = format!("lfsck-offline {}", env!("CARGO_PKG_VERSION"));
        let rest = rest.replace(&this, "lfsck-offline 0.8.0");
        let told = case.run(words).expect(0).out;
        assert_eq!(told[first.len()..], format!("  run, {rest}"), "{words:?}");
    }
    let begun = case.files();
    case.run(&[&RUN[..], &["--from-start"]].concat()).expect(0);
    oracle::run(&begun, 3, u64::MAX).expect_in(&case);
    case.run(&["undo"]).expect(0);
    let mut after = case.files();
    after.insert(LOG.to_string(), begun[LOG].clone());
    assert_eq!(after, begun);
    case.restore(&begun);
    case.run(&["undo"]).expect(0);
    let mut after = case.files();
    after.remove(LOG);
    assert_eq!(after, start);
}

#[test]
fn a_conversion_throws_the_position_of_the_edition_before_away() {
    let case = left("cut-convert");
    let before = case.files();
    let told = case.run(&["convert"]).expect(0).out;
    let words = "No row to widen: the parent rows have 48075 bytes.\nThe saved position, of \
                 edition 2026-08, is thrown away.\n";
    assert_eq!(told, words);
    let mut after = case.files();
    after.insert(POSITION.to_string(), before[POSITION].clone());
    assert_eq!(after, before);
    case.run(&RUN).expect(0);
    oracle::run(&before, 3, u64::MAX).expect_in(&case);
}
