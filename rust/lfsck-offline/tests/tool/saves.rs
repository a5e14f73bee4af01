//! A crash at any moment of a save leaves the old state or the new one.

use std::fs;
use std::os::unix::fs::{MetadataExt, PermissionsExt, chown};

use crate::oracle;
use crate::tool::{Case, Files, JOURNAL, LOG, NOBODY, POSITION, Told, sha256, timeless};

const RUN: [&str; 5] = ["run", "--create", "--adopt", "--steps", "40"];

/// The state that a crash left, as the next command finds it, without the times in the log.
pub fn reopened(case: &Case) -> Files {
    case.run(&["log"]).expect(0);
    timeless(&case.files())
}

/// A case halfway through its repairs, and what the next run makes of it, without times.
fn old_and_new(name: &str) -> (Case, Files, Files) {
    let case = Case::sample(name);
    case.run(&["run", "--create", "--adopt", "--steps", "4"])
        .expect(1);
    let old = case.files();
    case.run(&RUN).expect(1);
    let new = timeless(&case.files());
    for name in ["parents.tbl", "objects.tbl", POSITION, LOG] {
        assert_ne!(old[name], new[name], "{name}");
    }
    (case, old, new)
}

/// The operation after which the process died; none where it lived to the end.
pub fn aborted(told: &Told) -> Option<String> {
    match told.status {
        None => {
            let line = told.err.lines().next().expect("the operation");
            Some(line.strip_prefix("aborted after: ").unwrap().to_string())
        }
        Some(_) => None,
    }
}

#[test]
fn a_kill_at_any_operation_leaves_the_old_or_the_new_state() {
    let (case, old, new) = old_and_new("kill");
    let operations = kill_at_each(&case, [&old, &new], &RUN, 1);
    expect_order(&operations, &["parents.tbl", "objects.tbl", POSITION]);
}

/// Kills a command at each of its operations: it leaves the old state or the new one, and from some
/// operation on the new one. The operations; where it lives to the end it has this status.
pub fn kill_at_each(case: &Case, states: [&Files; 2], words: &[&str], status: i32) -> Vec<String> {
    let [old, new] = states;
    let before = timeless(old);
    let mut operations = Vec::new();
    let mut saved = false;
    for number in 1.. {
        case.restore(old);
        let told = case.run_with_fault(words, format!("abort:{number}"));
        let Some(operation) = aborted(&told) else {
            told.expect(status);
            break;
        };
        let crashed = case.files();
        let state = reopened(case);
        assert!(state == before || state == *new, "after {operation}");
        assert!(state == *new || !saved, "after {operation}: old again");
        saved = state == *new;
        if operation.starts_with("rename") {
            kill_the_recovery(case, &crashed, &state);
        }
        operations.push(operation);
    }
    assert!(timeless(&case.files()) == *new);
    assert!(saved);
    operations
}

/// Kills the next command at each operation of the recovery too.
fn kill_the_recovery(case: &Case, crashed: &Files, state: &Files) {
    for number in 1.. {
        case.restore(crashed);
        let told = case.run_with_fault(&["log"], format!("abort:{number}"));
        let died = aborted(&told);
        assert_eq!(&reopened(case), state, "{died:?}");
        if died.is_none() {
            break;
        }
    }
}

/// What is renamed is on the disk before, and what is renamed stays before the journal goes. These
/// files are changed beside the log.
pub fn expect_order(operations: &[String], changed: &[&str]) {
    println!("operations of a save: {operations:?}");
    let at = |wanted: &str| {
        let found = operations.iter().position(|it| it == wanted);
        found.unwrap_or_else(|| panic!("no {wanted} in {operations:?}"))
    };
    let committed = at(&format!("rename to {JOURNAL}"));
    let log = ["extend", "write half of", "write the rest of", "sync"];
    let log: Vec<usize> = log.iter().map(|it| at(&format!("{it} {LOG}"))).collect();
    assert!(log.is_sorted() && log[0] == committed + 2, "{log:?}");
    for &name in [JOURNAL].iter().chain(changed) {
        let own = name.strip_prefix("lfsck-offline.").unwrap_or(name);
        let new = format!("lfsck-offline.{own}.new");
        let order = [
            format!("create {new}"),
            format!("write half of {new}"),
            format!("write the rest of {new}"),
            format!("sync {new}"),
            format!("rename to {name}"),
        ];
        let places: Vec<usize> = order.iter().map(|it| at(it)).collect();
        assert!(places.is_sorted(), "{name}");
        assert!(name == JOURNAL || places[0] > log[3], "{name}");
    }
    let removed = at(&format!("remove {JOURNAL}"));
    let position = format!("remove {POSITION}");
    let last = operations
        .iter()
        .rposition(|it| it.starts_with("rename") || *it == position);
    assert_eq!(last, Some(removed - 2));
    for directory_synced in [committed + 1, removed - 1, removed + 1] {
        assert_eq!(operations[directory_synced], "sync .");
    }
}

#[test]
fn an_operation_that_fails_leaves_the_old_or_the_new_state() {
    let (case, old, new) = old_and_new("fail");
    fail_at_each(&case, [&old, &new], &RUN, 1);
}

/// Lets each operation of a command fail: it leaves the old state or the new one, and says which.
pub fn fail_at_each(case: &Case, states: [&Files; 2], words: &[&str], status: i32) {
    let [old, new] = states;
    let before = timeless(old);
    for number in 1.. {
        case.restore(old);
        let told = case.run_with_fault(words, format!("fail:{number}"));
        if told.status == Some(status) {
            break;
        }
        let told = told.expect_line(74, "made to fail by a test");
        let state = reopened(case);
        assert!(state == before || state == *new);
        let announced = told.err.contains("completed when the case is next opened");
        assert_eq!(state == *new, announced, "{told:?}");
    }
    assert!(timeless(&case.files()) == *new);
}

#[test]
fn a_run_goes_on_after_a_crash_as_if_there_had_been_none() {
    let case = Case::sample("after-crash");
    let start = case.files();
    let uncut = oracle::run(&start, 3, u64::MAX);
    for number in 1..45 {
        case.restore(&start);
        case.run_with_fault(&["run", "--create", "--adopt"], format!("abort:{number}"));
        case.run(&["run", "--create", "--adopt"]).expect(0);
        uncut.expect_in(&case);
    }
}

#[test]
fn a_kill_while_the_sample_is_made_leaves_all_or_nothing() {
    let case = Case::empty("kill-sample");
    case.run(&["sample"]).expect(0);
    let whole = case.files();
    for number in 1.. {
        case.restore(&Files::new());
        let told = case.run_with_fault(&["sample"], format!("abort:{number}"));
        if aborted(&told).is_none() {
            break;
        }
        match case.run(&["check"]).status {
            Some(0) => assert_eq!(case.files(), whole),
            _ => {
                case.run(&["sample"]).expect(0);
                assert_eq!(case.files(), whole);
            }
        }
    }
}

/// The files after a save that was cut off once its journal was in place.
fn cut_off(case: &Case, old: &Files) {
    case.restore(old);
    for number in 1.. {
        let told = case.run_with_fault(&RUN, format!("abort:{number}"));
        let operation = aborted(&told).expect("a journal in place");
        if operation == format!("rename to {JOURNAL}") {
            return;
        }
        case.restore(old);
    }
}

#[test]
fn what_somebody_changed_after_a_crash_is_not_overwritten() {
    let (case, old, new) = old_and_new("changed-after-crash");
    cut_off(&case, &old);
    case.edit("parents.tbl", |bytes| bytes[18] ^= 1);
    let before = case.files();
    let told = case
        .run(&["run"])
        .expect_line(74, "changed since a save was cut off");
    assert!(told.err.contains("parents.tbl"), "{told:?}");
    assert_eq!(case.files(), before);
    case.write("parents.tbl", &old["parents.tbl"]);
    assert_eq!(reopened(&case), new);
}

/// No crash leaves such a journal, so nobody knows whether the files are old or new.
#[test]
fn a_journal_that_is_not_whole_is_left_to_people() {
    let (case, old, _) = old_and_new("broken-journal");
    cut_off(&case, &old);
    let journal = case.read(JOURNAL);
    let mut bent = journal.clone();
    bent[100] ^= 1;
    for broken in [&journal[..journal.len() - 1], &bent, b""] {
        case.restore(&old);
        case.write(JOURNAL, broken);
        let before = case.files();
        for words in [&["check"][..], &RUN] {
            let told = case.run(words).expect_line(74, "no whole journal");
            assert!(
                told.err.contains("remove lfsck-offline.journal"),
                "{told:?}"
            );
        }
        assert_eq!(case.files(), before);
        fs::remove_file(case.path().join(JOURNAL)).unwrap();
        assert_eq!(reopened(&case), timeless(&old));
    }
}

/// The tool writes and clears away files of its own names alone.
#[test]
fn other_files_in_the_directory_stay() {
    let case = Case::sample("other-files");
    let names = ["parents.tbl.new", "objects.tbl~", "notes", "lfsck-offline"];
    for name in names {
        case.write(name, name.as_bytes());
    }
    case.run_with_fault(&RUN, "abort:20".to_string());
    for words in [&["check"][..], &RUN] {
        case.run(words);
        for name in names {
            assert_eq!(case.read(name), name.as_bytes());
        }
    }
}

#[test]
fn a_journal_writes_no_other_file() {
    let case = Case::sample("foreign-journal");
    let before = case.files();
    let mut journal = b"lfsck-offline journal, format 2\n".to_vec();
    journal.extend(b"put ../stray 5 nothing 0\nwordsend\n");
    journal.extend(digest(&journal));
    case.write(JOURNAL, &journal);
    case.run(&["check"]).expect_line(74, "stray");
    assert!(!case.path().join("../stray").exists());
    fs::remove_file(case.path().join(JOURNAL)).unwrap();
    assert_eq!(case.files(), before);
}

/// The digest as bytes.
fn digest(bytes: &[u8]) -> Vec<u8> {
    let text = sha256(bytes);
    let pairs = (0..text.len()).step_by(2).map(|at| &text[at..at + 2]);
    pairs
        .map(|pair| u8::from_str_radix(pair, 16).expect("two digits"))
        .collect()
}

#[test]
fn permissions_stay() {
    let case = Case::sample("permissions");
    let parents = case.path().join("parents.tbl");
    fs::set_permissions(&parents, fs::Permissions::from_mode(0o640)).unwrap();
    case.run(&["run", "--create", "--adopt"]).expect(0);
    let mode = fs::metadata(&parents).unwrap().permissions().mode();
    assert_eq!(mode & 0o777, 0o640);
}

#[test]
fn the_owner_stays_where_it_may() {
    let case = Case::sample("owner");
    let objects = case.path().join("objects.tbl");
    // Only root can give a file away; others keep their own.
    let given = chown(&objects, Some(NOBODY), Some(NOBODY)).is_ok();
    let before = fs::metadata(&objects).unwrap();
    assert_eq!(before.uid() == NOBODY, given);
    case.run(&["run", "--create", "--adopt"]).expect(0);
    let after = fs::metadata(&objects).unwrap();
    assert_ne!(after.ino(), before.ino(), "the file is a new one");
    assert_eq!((after.uid(), after.gid()), (before.uid(), before.gid()));
}
