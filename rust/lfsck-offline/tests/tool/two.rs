//! Several commands on one case.

use std::fs::{self, File};
use std::os::unix::fs::PermissionsExt;
use std::os::unix::process::CommandExt;
use std::process::{Command, Stdio};
use std::thread;
use std::time::{Duration, Instant};

use crate::oracle;
use crate::tool::{Case, JOURNAL, LOG, NOBODY, TOOL, Told, skipped};

const RUN: [&str; 3] = ["run", "--create", "--adopt"];
const READERS: [&[&str]; 7] = [
    &["check"],
    &["classes"],
    &["show", "0x200000401:1"],
    &["log"],
    &["run", "--dry-run"],
    &["names"],
    &["names", "--mend", "--dry-run"],
];
const WRITERS: [&[&str]; 5] = [
    &RUN,
    &["undo"],
    &["convert"],
    &["sample"],
    &["names", "--mend"],
];

/// The line that says who is in the way: this process, by its number and name.
fn expect_in_the_way(told: Told) {
    let process = std::process::id();
    let name = fs::read_to_string("/proc/self/comm").unwrap();
    let who = format!("process {process} ({})", name.trim_end());
    let words = format!("another process has this case open: {who}");
    told.expect_line(74, &words);
}

#[test]
fn a_case_that_is_being_changed_is_refused() {
    let case = Case::sample("locked");
    let before = case.files();
    let lock = File::open(case.path()).unwrap();
    lock.try_lock().expect("nobody else has the case");
    for words in READERS.iter().chain(&WRITERS) {
        expect_in_the_way(case.run(words));
    }
    assert_eq!(case.files(), before);
    drop(lock);
    case.run(&RUN).expect(0);
}

#[test]
fn readers_share_a_case_and_writers_wait_for_them() {
    let case = Case::sample("shared");
    let before = case.files();
    let lock = File::open(case.path()).unwrap();
    lock.try_lock_shared().expect("nobody changes the case");
    for words in READERS {
        case.run(words).expect(0);
    }
    for words in WRITERS {
        let started = Instant::now();
        expect_in_the_way(case.run(words));
        assert!(started.elapsed() >= Duration::from_secs(1), "{words:?}");
    }
    assert_eq!(case.files(), before);
    // One who goes away meanwhile is not in the way.
    let reader = thread::spawn(move || {
        thread::sleep(Duration::from_millis(300));
        drop(lock);
    });
    case.run(&RUN).expect(0);
    reader.join().unwrap();
}

#[test]
fn of_many_at_once_each_has_the_case_alone() {
    let case = Case::sample("race");
    let uncut = oracle::run(&case.files(), 3, u64::MAX);
    let start = |_| {
        let mut command = case.command(&["run", "--create", "--adopt", "--steps", "3"]);
        let command = command.stdout(Stdio::piped()).stderr(Stdio::piped());
        command.spawn().expect("the tool")
    };
    for _ in 0..6 {
        let children: Vec<_> = (0..6).map(start).collect();
        for child in children {
            let told: Told = child.wait_with_output().unwrap().into();
            match told.status {
                Some(0 | 1) => (),
                _ => {
                    told.expect_line(74, "another process has this case open");
                }
            }
        }
    }
    case.run(&RUN).expect(0);
    uncut.expect_in(&case);
}

/// A place that every user can reach and nobody but its owner can write, with a case whose save
/// was cut off; and what the case is to be.
fn cut_off_in(place: &std::path::Path) -> Case {
    let case = Case::sample("read-through");
    let start = case.files();
    case.run(&RUN).expect(0);
    let log = case.read(LOG).len();
    for number in 1.. {
        case.restore(&start);
        let told = case.run_with_fault(&RUN, format!("abort:{number}"));
        if told.err.contains("rename to parents.tbl") {
            break;
        }
    }
    assert_eq!(case.read(LOG).len(), log);
    fs::create_dir_all(place.join("case")).unwrap();
    for (name, bytes) in case.files() {
        fs::write(place.join("case").join(name), bytes).unwrap();
    }
    fs::copy(TOOL, place.join("tool")).unwrap();
    for path in [place.join("case"), place.to_path_buf()] {
        fs::set_permissions(path, fs::Permissions::from_mode(0o555)).unwrap();
    }
    case
}

/// Who may not write a case reads a save that was cut off from its journal.
#[test]
fn a_save_that_cannot_be_completed_is_read_from_its_journal() {
    let name = format!("lfsck-offline-through-{}", std::process::id());
    let place = std::env::temp_dir().join(name);
    let case = cut_off_in(&place);
    let run = |words: &[&str]| {
        let mut command = Command::new(place.join("tool"));
        command.arg(words[0]).arg(place.join("case"));
        command.args(&words[1..]).uid(NOBODY).gid(NOBODY);
        command.output().ok().map(Told::from)
    };
    if run(&["check"]).is_none() {
        let why = "no other user can be had";
        return skipped(
            "a_save_that_cannot_be_completed_is_read_from_its_journal",
            why,
        );
    }
    let told: Vec<Told> = READERS.iter().map(|words| run(words).unwrap()).collect();
    assert!(place.join("case").join(JOURNAL).exists());
    run(&RUN).unwrap().expect_line(74, "permission denied");
    case.run(&["check"]).expect(0);
    for (words, told) in READERS.iter().zip(told) {
        let told = told.expect(0);
        assert_eq!(told.out, case.run(words).expect(0).out, "{words:?}");
        assert!(told.err.contains("it is read from its journal"), "{told:?}");
    }
    for path in [place.clone(), place.join("case")] {
        fs::set_permissions(path, fs::Permissions::from_mode(0o755)).unwrap();
    }
    fs::remove_dir_all(&place).unwrap();
}
