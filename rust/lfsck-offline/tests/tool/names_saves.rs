//! Mendings that are saved, told in the log and taken back, among runs.

use std::fs;
use std::os::unix::fs::{MetadataExt, PermissionsExt, chown};
use std::process::Command;

use reference::names::Namespace;

use crate::json::{self, Value};
use crate::namespace::{CHILDREN, ENTRIES, MEND, case_of, pass};
use crate::saves::{expect_order, fail_at_each, kill_at_each};
use crate::tool::{
    Case, Files, JOURNAL, LOG, NOBODY, POSITION, TOOL, Told, expect_lines, hex, sha256, skipped,
    timeless,
};

const RUN: [&str; 3] = ["run", "--create", "--adopt"];
const TABLES: [(&str, usize); 2] = [(ENTRIES, 293), (CHILDREN, 4130)];

/// The tables of files and objects.
const OF_FILES: [&str; 3] = ["parents.tbl", "objects.tbl", "reserve.tbl"];

/// Removes tables of a case.
fn remove<const MANY: usize>(case: &Case, tables: [&str; MANY]) {
    for table in tables {
        fs::remove_file(case.path().join(table)).expect(table);
    }
}

/// A case with a log, and what the mending of its names makes of it, without times.
fn old_and_new(name: &str) -> (Case, Files, Files) {
    let case = Case::sample(name);
    case.run(&["run", "--steps", "4"]).expect(1);
    let old = case.files();
    case.run(&MEND).expect(0);
    let new = timeless(&case.files());
    let changed: Vec<&String> = new.keys().filter(|name| old[*name] != new[*name]).collect();
    assert_eq!(changed, [CHILDREN, ENTRIES, LOG]);
    (case, old, new)
}

#[test]
fn a_kill_at_any_operation_of_a_mending_leaves_the_case_whole() {
    let (case, old, new) = old_and_new("names-kill");
    let operations = kill_at_each(&case, [&old, &new], &MEND, 0);
    expect_order(&operations, &[ENTRIES, CHILDREN]);
}

#[test]
fn a_kill_at_any_operation_of_its_undo_leaves_the_case_whole() {
    let (case, _, _) = old_and_new("names-kill-undo");
    let old = case.files();
    case.run(&["undo"]).expect(0);
    let new = timeless_undo(&case.files());
    for number in 1.. {
        case.restore(&old);
        let told = case.run_with_fault(&["undo"], format!("abort:{number}"));
        case.run(&["check"]).expect(0);
        let state = timeless_undo(&case.files());
        assert!(state == timeless_undo(&old) || state == new, "{told:?}");
        if told.status == Some(0) {
            break;
        }
    }
    assert!(timeless_undo(&case.files()) == new);
}

/// Without the time of the undo either.
fn timeless_undo(files: &Files) -> Files {
    let mut files = timeless(files);
    files.retain(|name, _| name != LOG);
    files
}

#[test]
fn an_operation_of_a_mending_that_fails_leaves_the_case_whole() {
    let (case, old, new) = old_and_new("names-fail");
    fail_at_each(&case, [&old, &new], &MEND, 0);
}

/// The lines of the log.
fn entries(case: &Case) -> Vec<Value> {
    let log = String::from_utf8(case.read(LOG)).unwrap();
    log.split_inclusive('\n').map(json::parse).collect()
}

/// A row in the log: digits up to the last byte that isn't zero.
fn written(row: &[u8]) -> String {
    let digits = hex(row);
    let end = row.iter().rposition(|&byte| byte != 0);
    digits[..end.map_or(0, |at| 2 * at + 2)].to_string()
}

/// The rows that differ between two states: table, row, old and new digits.
fn differing(old: &Files, new: &Files) -> Vec<(String, u64, String, String)> {
    let mut list = Vec::new();
    for (name, size) in TABLES {
        let pairs = old[name].chunks(size).zip(new[name].chunks(size));
        let differ = pairs.enumerate().filter(|(_, (old, new))| old != new);
        list.extend(
            differ.map(|(row, (old, new))| {
                (name.to_string(), row as u64, written(old), written(new))
            }),
        );
    }
    list
}

fn rows(entry: &Value) -> Vec<(String, u64, String, String)> {
    let text = |row: &Value, name: &str| row.text(name).to_string();
    let rows = entry.list("rows").iter().map(|row| {
        let (old, new) = (text(row, "old"), text(row, "new"));
        (text(row, "table"), row.number("row"), old, new)
    });
    rows.collect()
}

fn expect_digests(entry: &Value, name: &str, files: &Files) {
    let Value::Object(members) = entry.get(name) else {
        panic!("{name} is no object");
    };
    let expected = TABLES.map(|(table, _)| (table.to_string(), sha256(&files[table])));
    let expected = expected.map(|(table, digest)| (table, Value::Text(digest)));
    assert_eq!(*members, expected.into());
}

#[test]
fn a_mending_is_in_the_log_with_every_row() {
    let case = Case::sample("names-log");
    let old = case.files();
    let report = case.json(&MEND, 0);
    let new = case.files();
    let entry = &entries(&case)[0];
    assert_eq!(entry.text("what"), "mending");
    assert_eq!(entry.text("version"), env!("CARGO_PKG_VERSION"));
    for name in [
        "answer",
        "self_fids_taken",
        "fids_written",
        "records_appended",
    ] {
        assert_eq!(entry.number(name), report.number(name), "{name}");
    }
    assert_eq!(entry.number("records_removed"), 2);
    assert_eq!(entry.get("stopped_at"), &Value::Null);
    assert_eq!(rows(entry), differing(&old, &new));
    assert_eq!(rows(entry).len(), 8);
    expect_digests(entry, "before", &old);
    expect_digests(entry, "after", &new);
}

#[test]
fn the_log_tells_what_the_mending_told() {
    let case = Case::sample("names-log-words");
    let start = case.files();
    let report = case.json(&MEND, 0);
    let told = case.json(&["log"], 0);
    assert_eq!(
        told.list("entries")[0].list("changes"),
        report.list("changes")
    );
    assert_eq!(report.list("changes").len(), 10);
    case.restore(&start);
    let mending = case.run(&MEND).expect(0).out;
    let told = case.run(&["log"]).expect(0).out;
    let version = env!("CARGO_PKG_VERSION");
    let title = format!("  mending of names, lfsck-offline {version}\n");
    expect_lines(
        &told,
        &[&title, "  Answer 0: all four sweeps are finished.\n"],
    );
    let lines: Vec<&str> = mending
        .lines()
        .filter(|line| !line.starts_with("Answer"))
        .collect();
    expect_lines(&told, &lines[1..]);
}

#[test]
fn a_file_has_the_story_of_its_names() {
    let case = Case::sample("names-story");
    case.run(&MEND).expect(0);
    case.run(&["undo"]).expect(0);
    let story = |fid: &str| -> Vec<(String, String)> {
        let told = case.json(&["log", fid], 0);
        let part = |part: &Value| {
            assert_eq!(part.get("class"), &Value::Null);
            let kind = part.get("change").text("kind");
            (part.text("what").to_string(), kind.to_string())
        };
        told.list("story").iter().map(part).collect()
    };
    let both = |kinds: [&str; 2]| {
        let words = ["mending", "undo"].into_iter().zip(kinds);
        words
            .map(|(what, kind)| (what.to_string(), kind.to_string()))
            .collect::<Vec<_>>()
    };
    assert_eq!(story("0x200000401:1"), both(["fid_in_dirent"; 2]));
    // The FID that stood in the entry of file 2.
    assert_eq!(story("0x200000401:0x99"), both(["fid_in_dirent"; 2]));
    assert_eq!(
        story("0x200000401:3"),
        both(["record_removed", "record_added"])
    );
    assert_eq!(story("0x200000401:0x102"), []);
    assert_eq!(story("0x200000401:0x100").len(), 12);
}

/// The files but the log.
fn without_log(case: &Case) -> Files {
    let mut files = case.files();
    files.remove(LOG);
    files
}

/// Runs and mendings are taken back in turn, each with its own tables, and the position is the runs'.
#[test]
fn runs_and_mendings_are_taken_back_in_turn() {
    let case = Case::sample("names-mixed");
    case.run(&[&RUN[..], &["--steps", "12"]].concat()).expect(1);
    let first = without_log(&case);
    case.run(&MEND).expect(0);
    let second = without_log(&case);
    assert_eq!(second[POSITION], first[POSITION]);
    case.run(&RUN).expect(0);
    let told = case.run(&["undo"]).expect(0).out;
    assert!(told.starts_with("The run of "), "{told}");
    assert_eq!(without_log(&case), second);
    case.run(&["undo"])
        .expect_line(2, "is an undo, of the run of");
    // A mending that changes nothing is not in the log.
    case.run(&MEND).expect(0);
    case.run(&["undo"])
        .expect_line(2, "is an undo, of the run of");
    case.edit(ENTRIES, |bytes| bytes[20] ^= 1);
    let other = without_log(&case);
    case.run(&MEND).expect(0);
    assert_eq!(without_log(&case), second);
    let told = case.run(&["undo"]).expect(0).out;
    assert!(told.starts_with("The mending of "), "{told}");
    assert_eq!(without_log(&case), other);
    case.run(&["undo"])
        .expect_line(2, "is an undo, of the mending of");
    let whats: Vec<String> = entries(&case)
        .iter()
        .map(|it| it.text("what").to_string())
        .collect();
    assert_eq!(whats, ["run", "mending", "run", "undo", "mending", "undo"]);
    let told = case.run(&RUN).expect(0).out;
    assert!(
        told.starts_with("The run goes on from the saved position."),
        "{told}"
    );
    assert_eq!(case.json(&["log"], 0).list("entries").len(), 7);
}

#[test]
fn an_undo_tells_what_it_put_back() {
    let case = Case::sample("names-undo");
    let start = case.files();
    case.run(&MEND).expect(0);
    let mended = case.files();
    let told = case.run(&["undo"]).expect(0).out;
    let lines = [
        "Changed:\n  child 6: self FID [0x200000401:0x4:0x0] taken away\n",
        "FID-in-dirent [0x200000401:0x99:0x0] put back, it was [0x200000401:0x2:0x0]\n",
        "FID-in-dirent [0x200000401:0x4:0x0] taken away\n",
        "record put back, \"old plan.txt\" in [0x200000401:0x100:0x0]\n",
        "record taken away, \"five\" in [0x200000401:0x101:0x0]\n",
    ];
    expect_lines(&told, &lines);
    assert_eq!(without_log(&case), start);
    case.restore(&mended);
    let told = case.json(&["undo"], 0);
    assert_eq!(told.get("position"), &Value::Null);
    assert_eq!(told.number("rows"), 8);
    assert_eq!(told.list("changes").len(), 10);
    assert_eq!(rows(&entries(&case)[1]), differing(&mended, &start));
}

#[test]
fn an_undo_needs_the_names_that_the_mending_left() {
    let case = Case::sample("names-undo-changed");
    case.run(&MEND).expect(0);
    let end = case.files();
    for (table, _) in TABLES {
        case.edit(table, |bytes| bytes[2] ^= 1);
        let before = case.files();
        let line = format!("{table} is not what the mending of");
        case.run(&["undo"]).expect_line(2, &line);
        assert_eq!(case.files(), before);
        case.restore(&end);
    }
    // Other tables are no matter.
    case.edit("objects.tbl", |bytes| bytes[21] ^= 1);
    case.run(&["undo"]).expect(0);
    case.restore(&end);
    remove(&case, [ENTRIES, CHILDREN]);
    case.run(&["undo"]).expect_line(2, "left are gone");
}

#[test]
fn a_log_of_a_mending_that_is_spoilt_is_refused() {
    let case = Case::sample("names-log-spoilt");
    case.run(&MEND).expect(0);
    let end = case.files();
    let log = String::from_utf8(end[LOG].clone()).unwrap();
    for spoilt in [
        log.replace("\"records_removed\":2", "\"records_removed\":null"),
        log.replace("\"answer\":0", "\"answer\":38"),
        log.replace("\"stopped_at\":null", "\"stopped_at\":1"),
        log.replacen("\"table\":\"entries.tbl\"", "\"table\":\"objects.tbl\"", 1),
        log.replacen("\"old\":\"01", "\"old\":\"00", 1),
        log.replacen("\"old\":\"", &format!("\"old\":\"{}", "00".repeat(4130)), 1),
        log.replace("\"row\":3,", "\"row\":99,"),
        log.replace("\"what\":\"mending\"", "\"what\":\"run\""),
    ] {
        assert_ne!(spoilt, log);
        case.write(LOG, spoilt.as_bytes());
        let before = case.files();
        case.run(&["undo"]).expect_line(2, "the log");
        assert_eq!(case.files(), before);
    }
}

#[test]
fn names_of_two_moments_are_warned_of() {
    let case = Case::sample("names-moments");
    let start = case.files();
    case.run(&MEND).expect(0);
    // A run after it hides nothing.
    case.run(&RUN).expect(0);
    let told = case.run(&["check"]).expect(0).out;
    assert!(!told.contains("Warning"), "{told}");
    case.write(ENTRIES, &start[ENTRIES]);
    let told = case.run(&["check"]).expect(0).out;
    let warning = "Warning: the tables are of two moments: entries.tbl as before the mending of";
    expect_lines(&told, &[warning, "children.tbl as after it.\n"]);
}

#[test]
fn a_mending_that_is_saved_says_so_where_its_report_is_lost() {
    let case = Case::sample("names-full-device");
    let passed = pass(&case.files());
    let on_full = |words: &[&str]| -> Told {
        let full = fs::File::options().write(true).open("/dev/full");
        case.command(words)
            .stdout(full.unwrap())
            .output()
            .unwrap()
            .into()
    };
    let told = on_full(&["names", "--mend", "-n"]).expect(74);
    assert!(!told.err.contains("saved"), "{told:?}");
    on_full(&MEND).expect_line(74, "standard output: ");
    passed.expect_in(&case);
    let told = on_full(&MEND).expect(74);
    assert!(!told.err.contains("saved"), "nothing was: {told:?}");
    case.run(&["undo"]).expect(0);
    let told = on_full(&MEND).expect(74);
    assert!(told.err.ends_with("; the mending was saved\n"), "{told:?}");
}

/// The log tells of names too, so whoever may not read them may not read it.
#[test]
fn the_log_is_as_strict_as_the_names() {
    let case = Case::sample("names-strict");
    let mode = |name: &str| fs::metadata(case.path().join(name)).unwrap().mode() & 0o777;
    let children = case.path().join(CHILDREN);
    fs::set_permissions(&children, fs::Permissions::from_mode(0o600)).unwrap();
    case.run(&[&RUN[..], &["--steps", "12"]].concat()).expect(1);
    assert_eq!([mode(LOG), mode(POSITION)], [0o600; 2]);
    case.run(&MEND).expect(0);
    assert_eq!([mode(LOG), mode(CHILDREN)], [0o600; 2]);
    assert_eq!(mode(ENTRIES), mode("parents.tbl"));
}

/// Whoever adds names to a case in a directory like /tmp has no say in what its tables hold.
#[test]
fn an_owner_of_names_is_not_believed_about_other_tables() {
    let case = Case::sample("names-sticky");
    let path = |name: &str| case.path().join(name);
    case.write(JOURNAL, b"any");
    let given = |name: &str| chown(path(name), Some(NOBODY), Some(NOBODY)).is_ok();
    if ![ENTRIES, CHILDREN, JOURNAL].into_iter().all(given) {
        let why = "no other user can be had";
        return skipped("an_owner_of_names_is_not_believed_about_other_tables", why);
    }
    fs::set_permissions(case.path(), fs::Permissions::from_mode(0o1777)).unwrap();
    let line = "this belongs to another user, who owns none of the tables";
    for words in [&["check"][..], &["names"], &MEND] {
        case.run(words).expect_line(74, line);
    }
    remove(&case, OF_FILES);
    // Of names alone he is the owner.
    case.run(&["names"]).expect_line(74, "no whole journal");
}

/// What stands in the place of names is found before a case is made beside it.
#[test]
fn an_intake_beside_something_else_makes_nothing() {
    let case = Case::empty("names-intake-beside");
    case.write("empty", b"");
    let empty = case.path().join("empty");
    let empty = empty.to_str().unwrap();
    for table in [ENTRIES, CHILDREN] {
        fs::create_dir(case.path().join(table)).unwrap();
        let told = case.run(&["intake", "--owners", empty, empty]);
        told.expect_line(74, &format!("{table}: this is a directory"));
        fs::remove_dir(case.path().join(table)).unwrap();
    }
    assert_eq!(case.files().len(), 1);
}

/// What would stop the save of a mending is found before it.
#[test]
fn a_mending_that_could_not_be_saved_is_not_begun() {
    let case = Case::sample("names-no-room");
    let before = case.files();
    let mut command = Command::new("sh");
    let script = "trap '' XFSZ; ulimit -f 64; exec \"$@\"";
    command.args(["-c", script, "sh", TOOL, "names"]);
    command.arg(case.path()).arg("--mend");
    let told = Told::from(command.output().unwrap());
    told.expect_line(74, "so a mending could not be saved");
    for name in [
        LOG,
        "lfsck-offline.children.tbl.new",
        "lfsck-offline.journal.new",
    ] {
        let place = case.path().join(name);
        fs::create_dir(&place).unwrap();
        case.run(&MEND).expect_line(74, "this is a directory");
        fs::remove_dir(&place).unwrap();
    }
    assert_eq!(case.files(), before);
}

#[test]
fn an_intake_leaves_names_that_are_there() {
    let case = Case::sample("names-intake");
    let sample = case.files();
    let names = |files: &Files| TABLES.map(|(table, _)| files[table].clone());
    remove(&case, OF_FILES);
    case.write("empty", b"");
    let empty = case.path().join("empty");
    let empty = empty.to_str().unwrap();
    case.run(&["intake", "--owners", empty, empty]).expect(0);
    assert_eq!(names(&case.files()), names(&sample));
    case.run(&["sample"]).expect_line(74, "already there");
    let other = case_of("names-there", &Namespace::default());
    remove(&other, OF_FILES);
    other
        .run(&["sample"])
        .expect_line(74, "entries.tbl: this is already there");
}
