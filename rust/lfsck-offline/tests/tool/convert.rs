//! Cases of earlier editions that become cases of this one.

use std::fs;
use std::os::unix::fs::PermissionsExt;
use std::path::Path;

use crate::bytes::{PARENT, object_row};
use crate::earlier::{NARROW, narrowed, position};
use crate::json::Value;
use crate::limits::clean;
use crate::oracle;
use crate::saves::{expect_order, fail_at_each, kill_at_each};
use crate::tool::{Case, Files, JOURNAL, LOG, POSITION, sha256, timeless};

/// A case of an edition before 2026-07, and the parent table that intake makes of the same dump now.
const EARLIER: &str = concat!(env!("CARGO_MANIFEST_DIR"), "/../../tests/data/narrow");
const WIDE: &str = concat!(
    env!("CARGO_MANIFEST_DIR"),
    "/../../tests/data/site/parents.tbl"
);

const RUN: [&str; 3] = ["run", "--create", "--adopt"];

/// The position that a run of an edition before 2026-07 saved.
const AT: &str = "position 1 2 0\npolicy 3\n";

/// A copy of the case in the repository.
fn earlier(name: &str) -> Case {
    let case = Case::empty(name);
    for entry in fs::read_dir(EARLIER).expect("the case") {
        let path = entry.expect("a file").path();
        let name = path.file_name().and_then(|name| name.to_str());
        case.write(name.expect("a name"), &fs::read(&path).expect("a file"));
    }
    case
}

/// The sample with narrow rows and a position, and its parent table.
fn sample(name: &str) -> (Case, Vec<u8>) {
    let case = Case::sample(name);
    let wide = case.read("parents.tbl");
    case.write("parents.tbl", &narrowed(&wide));
    case.write(POSITION, position("3", AT, &case.files()).as_bytes());
    (case, wide)
}

/// Everything but the parent table, the position and the log is as it was.
fn expect_others(case: &Case, before: &Files) {
    let others = |files: &Files| {
        let mut files = files.clone();
        files.retain(|name, _| !["parents.tbl", POSITION, LOG].contains(&name.as_str()));
        files
    };
    assert_eq!(others(&case.files()), others(before));
}

/// What intake makes of the dump now is what the converted case has, byte for byte.
#[test]
fn a_case_of_an_earlier_edition_is_converted() {
    let case = earlier("convert");
    let before = case.files();
    assert_eq!(before["parents.tbl"].len(), 4 * NARROW);
    case.run(&["check"]).expect(2);
    case.run(&["undo"]).expect_line(2, "convert DIR");
    case.run(&["run", "--adopt"]).expect_line(2, "convert DIR");
    assert_eq!(case.files(), before);
    let log = before
        .get(LOG)
        .map_or(0, |log| log.split(|&it| it == b'\n').count() - 1);
    let told = case.run(&["convert"]).expect(0);
    let words = "4 parent rows widened from 3915 to 48075 bytes.\nThe saved position, of an \
                 edition before 2026-07, with at most 160 slots, is thrown away.\n";
    assert_eq!((told.out.as_str(), told.err.as_str()), (words, ""));
    let after = case.files();
    assert!(after["parents.tbl"] == fs::read(WIDE).expect("the table"));
    assert!(!after.contains_key(POSITION) && !after.contains_key(JOURNAL));
    expect_others(&case, &before);
    let told = case.json(&["log"], 0);
    assert_eq!(told.list("entries").len(), log + 1);
    let entry = &told.list("entries")[log];
    assert_eq!(entry.text("what"), "conversion");
    let numbers = ["parent_rows", "from_bytes", "to_bytes"].map(|name| entry.number(name));
    assert_eq!(numbers, [4, 3915, 48_075]);
    assert!(entry.list("rows").is_empty() && entry.list("changes").is_empty());
    for (name, files) in [("before", &before), ("after", &after)] {
        for table in ["parents.tbl", "objects.tbl", "reserve.tbl"] {
            assert_eq!(entry.get(name).text(table), sha256(&files[table]));
        }
    }
    assert!(after[LOG].starts_with(before.get(LOG).map_or(&b""[..], Vec::as_slice)));
    case.run(&["check"]).expect(0);
}

/// The log that version 0.6.0 wrote is read before and after: a run, its undo, and whole rows.
#[test]
fn the_log_of_an_earlier_edition_is_read() {
    let case = earlier("convert-log");
    let log = String::from_utf8(case.read(LOG)).expect("a text");
    assert_eq!(log.matches("\"version\":\"0.6.0\"").count(), 2);
    let row = log.split("\"old\":\"").nth(1).expect("a row");
    assert_eq!(row.find('"'), Some(2 * NARROW));
    let told = case.run(&["log"]).expect(0).out;
    let line = "  [0x200000401:0x1:0x0]       -  -                        generation raised from 0 \
                to 1\n";
    assert!(told.contains(line), "{told}");
    let story = case.run(&["log", "0x200000401:1"]).expect(0).out;
    assert!(story.contains("WRONG-OST"), "{story}");
    let report = case.json(&["convert"], 0);
    assert_eq!(report.number("parent_rows"), 4);
    assert_eq!(report.get("position_removed"), &Value::Bool(true));
    let after = case.run(&["log"]).expect(0).out;
    assert!(after.starts_with(&told) && after.len() > told.len());
    assert_eq!(case.run(&["log", "0x200000401:1"]).expect(0).out, story);
}

/// A run after it begins at the start, and is the run over the wide tables.
#[test]
fn a_run_afterwards_begins_at_the_start() {
    let (case, wide) = sample("convert-run");
    case.run(&["convert"]).expect(0);
    assert!(case.read("parents.tbl") == wide);
    let start = case.files();
    let told = case.run(&RUN).expect(0).out;
    let words = "The run begins at the start; there is no saved position.\n";
    assert!(told.starts_with(words), "{told}");
    oracle::run(&start, 3, u64::MAX).expect_in(&case);
    // That run is taken back; the conversion is not.
    case.run(&["undo"]).expect(0);
    assert!(case.read("parents.tbl") == wide);
    let whats = case.json(&["log"], 0);
    let whats = whats.list("entries").iter().map(|it| it.text("what"));
    assert_eq!(whats.collect::<Vec<_>>(), ["conversion", "run", "undo"]);
}

/// Why no run is taken up across editions: what was in CONFLICT for its index there, behind the
/// position at the end, is adopted here.
#[test]
fn what_was_in_conflict_for_its_index_may_be_adopted() {
    let objects = object_row(0x30, (9, 160));
    let case = Case::with("convert-index", &[0; NARROW], &objects, b"");
    let at_end = "position 3 0 0\npolicy 2\n";
    case.write(POSITION, position("3", at_end, &case.files()).as_bytes());
    case.run(&["run", "--adopt"]).expect_line(2, "convert DIR");
    case.run(&["convert"]).expect(0);
    let start = case.files();
    let report = case.json(&["run", "--adopt"], 0);
    assert_eq!(report.get("repairs").number("ORPHAN"), 1);
    oracle::run(&start, 2, u64::MAX).expect_in(&case);
    let shown = case.json(&["show", "0x200000401:9"], 0);
    assert_eq!(shown.get("file").number("slots"), 161);
}

#[test]
fn a_conversion_is_not_taken_back() {
    let (case, _) = sample("convert-undo");
    case.run(&["convert"]).expect(0);
    let before = case.files();
    let told = case
        .run(&["undo"])
        .expect_line(2, "the last entry of the log is a conversion, of 20");
    let end = "; a conversion is not taken back\n";
    assert!(told.err.ends_with(end), "{told:?}");
    case.json(&["undo"], 2);
    assert_eq!(case.files(), before);
    // It is told with the rest of the log, and concerns no file.
    let told = case.run(&["log"]).expect(0).out;
    let version = env!("CARGO_PKG_VERSION");
    let lines = format!(
        "  conversion, lfsck-offline {version}\n  13 parent rows widened from 3915 to 48075 \
         bytes.\n"
    );
    assert!(told.ends_with(&lines), "{told}");
    let told = case.run(&["log", "0x200000401:1"]).expect(0).out;
    assert!(told.starts_with("Nothing in the log concerns"), "{told}");
}

/// The second time there is nothing to do, and nothing is written.
#[test]
fn wide_rows_and_no_rows_are_left() {
    let (case, _) = sample("convert-twice");
    case.run(&["convert"]).expect(0);
    let wide = "No row to widen: the parent rows have 48075 bytes.\nThere is nothing to convert.\n";
    let none = "No row to widen: there are no parent rows.\nThere is nothing to convert.\n";
    let empty = Case::with("convert-empty", b"", b"", b"");
    for (case, words) in [(&case, wide), (&empty, none)] {
        let before = case.files();
        assert_eq!(case.run(&["convert"]).expect(0).out, words);
        let report = case.json(&["convert"], 0);
        assert_eq!(report.number("parent_rows"), 0);
        assert_eq!(report.get("position_removed"), &Value::Bool(false));
        assert_eq!(case.files(), before);
    }
    // A position of this edition stays.
    case.run(&[&RUN[..], &["--steps", "9"]].concat()).expect(1);
    let before = case.files();
    assert_eq!(case.run(&["convert"]).expect(0).out, wide);
    assert_eq!(case.files(), before);
    let told = case.run(&RUN).expect(0).out;
    assert!(told.starts_with("The run goes on from the saved position.\n"));
}

/// A position of another edition goes where the rows need nothing, and so does one that cannot be
/// read; no table is changed, so nothing is in the log.
#[test]
fn a_position_of_another_edition_goes_alone() {
    let empty = Case::with("convert-position-empty", b"", &object_row(1, (1, 0)), b"");
    let wide = Case::sample("convert-position");
    for case in [&empty, &wide] {
        let start = case.files();
        let of = |format: &str| position(format, "position 3 0 0\npolicy 0\n", &start);
        for (text, words) in [
            (
                of("1"),
                "of an edition before 2026-07, with at most 160 slots",
            ),
            (
                of("3"),
                "of an edition before 2026-07, with at most 160 slots",
            ),
            (of("4\nedition 2026-07"), "of edition 2026-07"),
            (of("4\nedition 2026-08"), "of edition 2026-08"),
            (of("4\nedition 2027-01"), "of edition 2027-01"),
            (of("9"), "which cannot be read"),
            (String::new(), "which cannot be read"),
        ] {
            case.write(POSITION, text.as_bytes());
            case.run(&["run"]).expect(2);
            let told = case.run(&["convert"]).expect(0).out;
            let line = format!(".\nThe saved position, {words}, is thrown away.\n");
            assert!(
                told.starts_with("No row to widen") && told.ends_with(&line),
                "{told}"
            );
            assert_eq!(case.files(), start);
            case.write(POSITION, text.as_bytes());
            let report = case.json(&["convert"], 0);
            assert_eq!(report.text("position"), words);
            assert_eq!(case.files(), start);
        }
        case.run(&["run"]).expect(0);
    }
}

/// The rows are not judged: whatever stands in them is there afterwards.
#[test]
fn what_stands_in_rows_is_not_judged() {
    let rows: Vec<u8> = (0..3 * NARROW).map(|at| (at * 7 % 251) as u8).collect();
    let case = Case::with("convert-any", &rows, b"odd", b"odd");
    case.run(&["convert"]).expect(0);
    let wide = case.read("parents.tbl");
    assert_eq!(wide.len(), 3 * PARENT);
    for (wide, row) in wide.chunks(PARENT).zip(rows.chunks(NARROW)) {
        assert_eq!(&wide[..NARROW], row);
        assert!(wide[NARROW..].iter().all(|byte| *byte == 0));
    }
    assert_eq!(case.read("objects.tbl"), b"odd");
    assert_eq!(case.read("reserve.tbl"), b"odd");
    let told = case.run(&["convert"]).expect(0).out;
    assert!(told.ends_with("There is nothing to convert.\n"), "{told}");
    assert_eq!(case.json(&["check"], 2).number("answer"), 11);
}

#[test]
fn rows_of_no_edition_are_refused() {
    for length in [
        1,
        NARROW - 1,
        NARROW + 1,
        1025 * NARROW,
        PARENT - 1,
        PARENT + NARROW,
        1025 * PARENT,
    ] {
        let case = Case::with("convert-length", &vec![0; length], b"", b"");
        case.write(POSITION, b"something");
        let before = case.files();
        let line = "parents.tbl has neither whole rows of 3915 bytes nor whole rows of 48075 \
                    bytes, at most 1024 of them; nothing is converted\n";
        let told = case.run(&["convert"]).expect_line(2, line);
        assert!(told.err.ends_with(line));
        assert_eq!(case.json(&["convert"], 2).number("status"), 2);
        assert_eq!(case.files(), before);
    }
    let case = Case::empty("convert-missing");
    case.run(&["convert"]).expect_line(74, "parents.tbl");
}

#[test]
fn a_kill_at_any_operation_leaves_the_old_or_the_new_case() {
    let (case, _) = sample("convert-kill");
    // The log is there before.
    case.run(&["names", "--mend"]).expect(0);
    let old = case.files();
    case.run(&["convert"]).expect(0);
    let new = timeless(&case.files());
    assert!(!new.contains_key(POSITION));
    let operations = kill_at_each(&case, [&old, &new], &["convert"], 0);
    expect_order(&operations, &["parents.tbl"]);
    assert!(operations.contains(&format!("remove {POSITION}")));
    fail_at_each(&case, [&old, &new], &["convert"], 0);
}

/// Permissions stay, and so do files that are none of the tool's; no room is told beforehand.
#[test]
fn surroundings_stay() {
    let (case, _) = sample("convert-surroundings");
    let parents = case.path().join("parents.tbl");
    fs::set_permissions(&parents, fs::Permissions::from_mode(0o640)).unwrap();
    let foreign = ["parents.tbl.new", "notes", "lfsck-offline"];
    for name in foreign {
        case.write(name, name.as_bytes());
    }
    let before = case.files();
    let place = case.path().join("lfsck-offline.parents.tbl.new");
    fs::create_dir(&place).unwrap();
    case.run(&["convert"])
        .expect_line(74, "this is a directory");
    fs::remove_dir(&place).unwrap();
    assert_eq!(case.files(), before);
    case.run(&["convert"]).expect(0);
    expect_others(&case, &before);
    let mode = |path: &Path| fs::metadata(path).unwrap().permissions().mode() & 0o777;
    assert_eq!(mode(&parents), 0o640);
    assert_eq!(mode(&case.path().join(LOG)) & 0o007, 0);
}

/// As many files as there may be, each with as many slots as there could be.
#[test]
fn full_tables_are_converted() {
    let (wide, objects) = clean(1024, 160, 16);
    let case = Case::with("convert-full", &narrowed(&wide), &objects, b"");
    let told = case.run(&["convert"]).expect(0).out;
    let words = "1024 parent rows widened from 3915 to 48075 bytes.\nThere is no saved position.\n";
    assert_eq!(told, words);
    assert!(case.read("parents.tbl") == wide);
    assert_eq!(case.json(&["check"], 0).number("parent_rows"), 1024);
    let summary = case.json(&["classes", "--summary"], 0);
    assert_eq!(summary.get("summary").number("HOLE"), (1024 - 16) * 160);
    let clean = 1024 + 16 * 160;
    assert_eq!(summary.get("summary").number("CLEAN"), clean);
}
