//! The log of a case, and runs that are taken back.

use std::fs;
use std::os::unix::fs::{MetadataExt, PermissionsExt};

use crate::bytes::PARENT;
use crate::json::{self, Value};
use crate::oracle;
use crate::tool::{Case, Files, JOURNAL, LOG, POSITION, Told, hex, sha256, timeless};

const TABLES: [(&str, usize); 3] = [
    ("parents.tbl", PARENT),
    ("objects.tbl", 46),
    ("reserve.tbl", 16),
];
const RUN: [&str; 3] = ["run", "--create", "--adopt"];

fn run_steps(steps: &str) -> Vec<&str> {
    RUN.into_iter().chain(["--steps", steps]).collect()
}

/// The lines of the log.
fn entries(case: &Case) -> Vec<Value> {
    let files = case.files();
    let log = files
        .get(LOG)
        .map_or("", |bytes| str::from_utf8(bytes).unwrap());
    log.split_inclusive('\n').map(json::parse).collect()
}

/// The rows of an entry: table, row, old and new bytes.
fn rows(entry: &Value) -> Vec<(String, u64, String, String)> {
    let text = |row: &Value, name: &str| row.text(name).to_string();
    let rows = entry.list("rows").iter();
    rows.map(|row| {
        (
            text(row, "table"),
            row.number("row"),
            text(row, "old"),
            text(row, "new"),
        )
    })
    .collect()
}

/// The rows that differ between two states.
fn differing(old: &Files, new: &Files) -> Vec<(String, u64, String, String)> {
    let mut list = Vec::new();
    for (name, size) in TABLES {
        let pairs = old[name].chunks(size).zip(new[name].chunks(size));
        for (row, (old, new)) in pairs.enumerate().filter(|(_, (old, new))| old != new) {
            let [old, new] = [old, new].map(|bytes| hex(written(name, bytes)));
            list.push((name.to_string(), row as u64, old, new));
        }
    }
    list
}

/// What the log has of a row: of a parent row the bytes up to the last that isn't zero.
fn written<'row>(table: &str, row: &'row [u8]) -> &'row [u8] {
    let last = row.iter().rposition(|byte| *byte != 0);
    match table {
        "parents.tbl" => &row[..last.map_or(0, |at| at + 1)],
        _ => row,
    }
}

fn expect_digests(entry: &Value, name: &str, files: &Files) {
    for (table, _) in TABLES {
        assert_eq!(
            entry.get(name).text(table),
            sha256(&files[table]),
            "{table}"
        );
    }
}

#[test]
fn a_run_is_in_the_log_with_every_row() {
    let case = Case::sample("log-entry");
    let mut last = [1, 0, 0];
    for count in 1..=3 {
        let old = case.files();
        let report = json::parse(&case.run(&[&run_steps("20")[..], &["--json"]].concat()).out);
        let new = case.files();
        let entries = entries(&case);
        assert_eq!(entries.len(), count);
        let entry = &entries[count - 1];
        assert_eq!(entry.text("what"), "run");
        assert_eq!(entry.text("version"), env!("CARGO_PKG_VERSION"));
        assert_eq!(entry.number("policy"), 3);
        let position = ["stage", "row", "part"].map(|name| report.number(name));
        let numbers = |numbers: [u64; 3]| Value::List(numbers.map(Value::Number).to_vec());
        assert_eq!(entry.get("from"), &numbers(last));
        assert_eq!(entry.get("to"), &numbers(position));
        assert_eq!(entry.number("steps"), report.number("steps_done"));
        assert_eq!(entry.number("answer"), report.number("answer"));
        assert_eq!(entry.get("repairs"), report.get("repairs"));
        assert_eq!(rows(entry), differing(&old, &new));
        expect_digests(entry, "before", &old);
        expect_digests(entry, "after", &new);
        let before = old
            .get(POSITION)
            .map(|bytes| str::from_utf8(bytes).unwrap());
        let saved = before.map_or(Value::Null, |text| Value::Text(text.to_string()));
        assert_eq!(entry.get("saved"), &saved);
        last = position;
    }
}

/// The time is that of another program's clock.
#[test]
fn the_time_is_utc() {
    let now = || {
        let date = std::process::Command::new("date")
            .args(["-u", "+%Y-%m-%dT%H:%M:%SZ"])
            .output();
        String::from_utf8(date.unwrap().stdout)
            .unwrap()
            .trim()
            .to_string()
    };
    let case = Case::sample("log-time");
    let before = now();
    case.run(&RUN).expect(0);
    let after = now();
    let entries = entries(&case);
    let when = entries[0].text("when");
    assert!(before.as_str() <= when && when <= after.as_str(), "{when}");
}

#[test]
fn only_what_changes_a_table_is_in_the_log() {
    let case = Case::sample("log-nothing");
    case.run(&run_steps("0")).expect(1);
    // The header of the first file is good.
    case.run(&run_steps("1")).expect(1);
    case.run(&["run", "--dry-run"]).expect(0);
    case.run(&["check"]).expect(0);
    assert!(!case.files().contains_key(LOG));
    let told = case.run(&["log"]).expect(0);
    assert!(told.out.starts_with("The log is empty"), "{told:?}");
    case.run(&RUN).expect(0);
    assert_eq!(entries(&case).len(), 1);
    case.run(&[&RUN[..], &["--from-start"]].concat()).expect(0);
    assert_eq!(entries(&case).len(), 1);
}

/// What the run printed stands in the log, for people and for machines.
#[test]
fn the_log_tells_what_the_run_told() {
    let case = Case::sample("log-words");
    let start = case.files();
    let report = case.json(&RUN, 0);
    let told = case.json(&["log"], 0);
    let logged = &told.list("entries")[0];
    assert_eq!(logged.list("changes"), report.list("changes"));
    assert_eq!(logged.get("repairs"), report.get("repairs"));
    case.restore(&start);
    let run = case.run(&RUN).expect(0).out;
    let told = case.run(&["log"]).expect(0).out;
    let when = entries(&case)[0].text("when").to_string();
    let version = env!("CARGO_PKG_VERSION");
    let title = format!("{when}  run, lfsck-offline {version}, policy: create and adopt\n");
    assert!(told.starts_with(&title), "{told}");
    let changed: Vec<&str> = run.lines().filter(|line| line.starts_with("  ")).collect();
    assert!(changed.len() > 8);
    for line in changed {
        assert!(told.contains(line), "{line}");
    }
    assert!(
        told.contains("  From position 1,0,0 to 3,0,0 in 55 steps."),
        "{told}"
    );
}

fn story(case: &Case, fid: &str) -> Vec<(String, String)> {
    let told = case.json(&["log", fid], 0);
    let word = |part: &Value, name: &str| match part.get(name) {
        Value::Text(text) => text.clone(),
        _ => "-".to_string(),
    };
    let parts = told.list("story").iter();
    parts
        .map(|part| {
            (
                word(part, "class"),
                part.get("change").text("kind").to_string(),
            )
        })
        .collect()
}

fn fid(sequence: u64, id: u32) -> String {
    format!("[{sequence:#x}:{id:#x}:0x0]")
}

fn file(id: u32) -> String {
    fid(0x2_0000_0401, id)
}

fn object(id: u32) -> String {
    fid(0x2_4000_0400, id)
}

/// The story of a file or object is this: classes and kinds of changes.
fn expect_story(case: &Case, fid: &str, expected: &[(&str, &str)]) {
    let told = story(case, fid);
    let told: Vec<(&str, &str)> = told
        .iter()
        .map(|(class, kind)| (class.as_str(), kind.as_str()))
        .collect();
    assert_eq!(told, expected, "{fid}");
}

#[test]
fn a_file_and_an_object_have_their_story() {
    let case = Case::sample("story");
    case.run(&RUN).expect(0);
    expect_story(&case, &file(2), &[("SELF", "own_fid")]);
    let multiple = ["generation", "slot", "object_made"].map(|kind| ("MULTIPLE", kind));
    expect_story(&case, &file(3), &multiple);
    // The object of this one was there.
    expect_story(&case, &file(13), &multiple[..2]);
    for fid in [file(4), object(0x14)] {
        expect_story(&case, &fid, &[("DANGLING", "object_made")]);
    }
    expect_story(&case, &object(0x27), &[("EMPTY", "object_destroyed")]);
    // The object that a slot named before is concerned as well.
    expect_story(&case, &object(0x11), &[("MULTIPLE", "slot")]);
    expect_story(&case, &object(0x13), &[]);
    let told = case.run(&["log", &file(2)]).expect(0).out;
    let why = "SELF: the layout's own FID is not the file's";
    assert!(told.contains(why), "{told}");
    let told = case.run(&["log", &object(0x13)]).expect(0).out;
    assert!(told.starts_with("Nothing in the log concerns"), "{told}");
    case.run(&["undo"]).expect(0);
    expect_story(&case, &file(2), &[("SELF", "own_fid"), ("-", "own_fid")]);
    let told = case.run(&["log", &file(2)]).expect(0).out;
    assert!(told.contains("undo of the run of"), "{told}");
}

/// The files but the log.
fn without_log(files: &Files) -> Files {
    let mut files = files.clone();
    files.remove(LOG);
    files
}

#[test]
fn an_undo_puts_back_what_was() {
    let case = Case::sample("undo");
    case.run(&run_steps("20")).expect(1);
    let middle = case.files();
    case.run(&RUN).expect(0);
    let end = case.files();
    let told = case.run(&["undo"]).expect(0).out;
    let when = entries(&case)[1].text("when").to_string();
    assert!(
        told.starts_with(&format!("The run of {when} is taken back.\n")),
        "{told}"
    );
    assert!(
        told.ends_with("The saved position is that of before it.\n"),
        "{told}"
    );
    assert_eq!(without_log(&case.files()), without_log(&middle));
    let last = entries(&case).pop().unwrap();
    assert_eq!(last.text("what"), "undo");
    assert_eq!(last.text("undoes"), when);
    assert_eq!(rows(&last), differing(&end, &middle));
    expect_digests(&last, "after", &middle);
    assert!(case.read(LOG).starts_with(&end[LOG]));
    let files = case.files();
    case.run(&["undo"])
        .expect_line(2, "an undo is not taken back");
    assert_eq!(case.files(), files);
    // The run goes on from where it was before.
    let told = case.run(&RUN).expect(0).out;
    assert!(
        told.starts_with("The run goes on from the saved position."),
        "{told}"
    );
    assert_eq!(without_log(&case.files()), without_log(&end));
}

#[test]
fn an_undo_of_the_first_run_leaves_no_position() {
    let case = Case::sample("undo-first");
    let start = case.files();
    case.run(&RUN).expect(0);
    let told = case.json(&["undo"], 0);
    assert_eq!(told.get("position"), &Value::Bool(false));
    assert_eq!(without_log(&case.files()), start);
}

/// A run without changes after it moves the position alone, and is passed over.
#[test]
fn an_undo_takes_back_the_last_run_that_changed_something() {
    let case = Case::sample("undo-later");
    let start = case.files();
    case.run(&RUN).expect(0);
    case.run(&["run", "--from-start"]).expect(0);
    case.run(&["undo"]).expect(0);
    assert_eq!(without_log(&case.files()), start);
}

#[test]
fn an_undo_needs_the_tables_that_the_run_left() {
    let case = Case::sample("undo-changed");
    case.run(&["undo"])
        .expect_line(2, "there is no run in the log");
    case.run(&RUN).expect(0);
    let end = case.files();
    for (table, _) in TABLES {
        case.edit(table, |bytes| bytes[2] ^= 1);
        let before = case.files();
        case.run(&["undo"])
            .expect_line(2, &format!("{table} is not what the run of"));
        assert_eq!(case.files(), before);
        case.restore(&end);
    }
    let log = String::from_utf8(end[LOG].clone()).unwrap();
    for spoilt in [
        &log[..log.len() - 1],
        &log.replace("\"what\"", "\"that\""),
        "\n",
        "{}\n",
        &log.replacen("\"old\":\"01", "\"old\":\"00", 1),
        &log.replace("\"row\":1,", "\"row\":99,"),
        &log.replace("\"row\":1,", "\"row\":18446744073709551615,"),
    ] {
        case.write(LOG, spoilt.as_bytes());
        let before = case.files();
        case.run(&["undo"]).expect_line(2, "the log");
        assert_eq!(case.files(), before);
    }
    case.write(LOG, &[end[LOG].as_slice(), b"\xff\n"].concat());
    for words in [&["log"][..], &["undo"], &["log", "1:1"]] {
        case.run(words)
            .expect_line(2, "line 2 is no entry of the log");
    }
}

#[test]
fn a_kill_at_any_operation_of_an_undo_leaves_all_or_nothing() {
    let case = Case::sample("kill-undo");
    case.run(&run_steps("20")).expect(1);
    case.run(&RUN).expect(0);
    let old = case.files();
    case.run(&["undo"]).expect(0);
    let new = timeless(&case.files());
    let mut cut_off = [0, 0];
    for number in 1.. {
        case.restore(&old);
        let told = case.run_with_fault(&["undo"], format!("abort:{number}"));
        if told.status.is_some() {
            break;
        }
        case.run(&["check"]).expect(0);
        let state = timeless(&case.files());
        assert!(state == timeless(&old) || state == new, "{told:?}");
        cut_off[usize::from(state == new)] += 1;
    }
    assert!(cut_off.iter().all(|count| *count > 5), "{cut_off:?}");
}

/// Kills a run after an operation.
fn cut_off_after(case: &Case, start: &Files, operation: &str) {
    for number in 1.. {
        case.restore(start);
        let told = case.run_with_fault(&RUN, format!("abort:{number}"));
        assert_eq!(told.status, None, "no {operation}");
        if told.err == format!("aborted after: {operation}\n") {
            return;
        }
    }
}

#[test]
fn whoever_completes_a_save_says_so() {
    let case = Case::sample("says-so");
    let start = case.files();
    for words in [
        &["check"][..],
        &["classes"],
        &["log"],
        &["show", "0x200000401:1"],
        &RUN,
    ] {
        cut_off_after(&case, &start, "rename to parents.tbl");
        let told = case.run(words).expect(0);
        let line = "completed a save that was cut off\n";
        assert!(
            told.err.ends_with(line) && told.err.lines().count() == 1,
            "{told:?}"
        );
        assert_eq!(case.run(words).expect(0).err, "");
    }
    cut_off_after(&case, &start, "sync lfsck-offline.journal.new");
    assert_eq!(case.run(&["check"]).expect(0).err, "");
}

/// Something that happens to a log at a place.
type Edit = fn(&mut Vec<u8>, usize);

/// What the disk did not get before the machine stopped may be zeros; anything else is no
/// machine's.
#[test]
fn a_log_is_completed_from_what_a_crash_leaves() {
    let case = Case::sample("log-crash");
    case.run(&run_steps("20")).expect(1);
    let start = case.files();
    case.run(&RUN).expect(0);
    let end = timeless(&case.files());
    let length = start[LOG].len();
    cut_off_after(&case, &start, &format!("write the rest of {LOG}"));
    let crashed = case.files();
    let at = length + 100;
    let zeros: Edit = |bytes, at| bytes[at..].fill(0);
    let shorter: Edit = |bytes, at| bytes.truncate(at);
    for edit in [zeros, shorter] {
        case.restore(&crashed);
        case.edit(LOG, |bytes| edit(bytes, at));
        case.run(&["check"]).expect(0);
        assert_eq!(timeless(&case.files()), end);
    }
    let other: Edit = |bytes, at| bytes[at] = b'!';
    let more: Edit = |bytes, _| bytes.push(b'\n');
    for (edit, at) in [
        (other, at),
        (other, length - 9),
        (more, 0),
        (shorter, length - 1),
    ] {
        case.restore(&crashed);
        case.edit(LOG, |bytes| edit(bytes, at));
        let before = case.files();
        case.run(&RUN)
            .expect_line(74, "changed since a save was cut off");
        assert_eq!(case.files(), before);
    }
    case.restore(&crashed);
    fs::remove_file(case.path().join(LOG)).unwrap();
    case.run(&RUN)
        .expect_line(74, "changed since a save was cut off");
}

/// Tables of two moments are told, by the log.
#[test]
fn check_shows_tables_of_two_moments() {
    let case = Case::sample("two-moments");
    let start = case.files();
    cut_off_after(&case, &start, "rename to parents.tbl");
    case.edit(JOURNAL, |bytes| bytes[50] ^= 1);
    let told = case
        .run(&["check"])
        .expect_line(74, "may be of two moments");
    assert!(
        told.err.contains("remove lfsck-offline.journal"),
        "{told:?}"
    );
    fs::remove_file(case.path().join(JOURNAL)).unwrap();
    let told = case.run(&["check"]).expect(0).out;
    let warning = told.lines().last().unwrap();
    assert!(warning.starts_with("Warning: the tables are of two moments: objects.tbl as before"));
    assert!(warning.contains("parents.tbl as after it"), "{warning}");
    let told = case.json(&["check"], 0);
    assert!(told.text("warning").contains("two moments"));
    case.write("parents.tbl", &start["parents.tbl"]);
    assert_eq!(case.json(&["check"], 0).get("warning"), &Value::Null);
}

/// A log that others could read along with is not written into.
#[test]
fn the_log_lets_in_no_more_people_than_the_strictest_table() {
    let case = Case::sample("log-readers");
    let log = case.path().join(LOG);
    let mode = |mode| fs::Permissions::from_mode(mode);
    fs::set_permissions(case.path().join("objects.tbl"), mode(0o600)).unwrap();
    fs::write(&log, b"").unwrap();
    fs::set_permissions(&log, mode(0o644)).unwrap();
    let reader = fs::File::open(&log).unwrap();
    case.run(&run_steps("20")).expect(1);
    let found = fs::metadata(&log).unwrap();
    assert_eq!(found.mode() & 0o777, 0o600);
    assert_eq!(reader.metadata().unwrap().len(), 0);
    assert_eq!(entries(&case).len(), 1);
    // Its own is written into.
    case.run(&run_steps("20")).expect(1);
    assert_eq!(fs::metadata(&log).unwrap().ino(), found.ino());
    // One of two names is another's as well.
    let other = case.path().join("other");
    fs::hard_link(&log, &other).unwrap();
    let before = fs::read(&other).unwrap();
    case.run(&RUN).expect(0);
    assert_eq!(fs::read(&other).unwrap(), before);
    assert!(fs::read(&log).unwrap().starts_with(&before));
    assert_eq!(entries(&case).len(), 3);
}

/// The saved position and the last entry of the log are of the tables that stand there.
fn expect_one_moment(case: &Case) {
    let files = case.files();
    let digests = TABLES.map(|(table, _)| sha256(&files[table]));
    if let Some(position) = files.get(POSITION) {
        let position = str::from_utf8(position).unwrap();
        assert!(digests.iter().all(|digest| position.contains(digest)));
    }
    if let Some(entry) = entries(case).last() {
        expect_digests(entry, "after", &files);
    }
}

/// Runs that are killed at random moments, and go on until the end.
#[test]
fn a_kill_at_a_random_moment_leaves_one_moment() {
    let case = Case::sample("random-kills");
    let start = case.files();
    let uncut = oracle::run(&start, 3, u64::MAX);
    let mut random = difftest::Random::for_test("kills");
    let mut killed = 0;
    for _ in 0..30 {
        case.restore(&start);
        for _ in 0..12 {
            let mut command = case.command(&run_steps("8"));
            let mut child = command.stdout(std::process::Stdio::null()).spawn().unwrap();
            let pause = std::time::Duration::from_micros(random.below(6_000) as u64);
            std::thread::sleep(pause);
            child.kill().unwrap();
            killed += u32::from(child.wait().unwrap().code().is_none());
            let told = case.run(&["check"]).expect(0);
            assert!(!told.out.contains("Warning"), "{told:?}");
            expect_one_moment(&case);
        }
        Told::expect(case.run(&RUN), 0);
        uncut.expect_in(&case);
    }
    println!("killed before the end: {killed} of 360");
    assert!(killed > 60);
}
