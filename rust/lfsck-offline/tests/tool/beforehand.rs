//! What would stop a save is found before the run.

use std::fs;
use std::os::unix::process::CommandExt;
use std::process::Command;
use std::time::{Duration, Instant};

use crate::signals::long_case;
use crate::tool::{Case, JOURNAL, LOG, NOBODY, POSITION, TOOL, Told, skipped};

/// So many files take far longer than this, as the time goes with their square.
const FILES: u32 = 1024;
const SOON: Duration = Duration::from_secs(10);

/// A run that is refused well before it could have ended, and leaves all as it was.
fn expect_soon(case: &Case, mut command: Command, words: &str) {
    let before = case.files();
    let started = Instant::now();
    Told::from(command.output().unwrap()).expect_line(74, words);
    assert!(started.elapsed() < SOON, "{words}");
    assert!(case.files() == before, "{words}");
}

#[test]
fn things_in_the_place_of_files_are_found_before_the_run() {
    let case = long_case("in-the-place", FILES);
    let unfinished = [
        "lfsck-offline.parents.tbl.new",
        "lfsck-offline.position.new",
        "lfsck-offline.log.new",
        "lfsck-offline.journal.new",
    ];
    for name in unfinished.iter().chain(&[POSITION, LOG, JOURNAL]) {
        let place = case.path().join(name);
        fs::create_dir(&place).unwrap();
        expect_soon(&case, case.command(&["run"]), "this is a directory");
        fs::remove_dir(&place).unwrap();
    }
    for name in [POSITION, LOG] {
        let place = case.path().join(name);
        assert!(
            Command::new("mkfifo")
                .arg(&place)
                .status()
                .unwrap()
                .success()
        );
        let command = case.command(&["run", "--from-start"]);
        expect_soon(&case, command, "this is not a plain file");
        fs::remove_file(&place).unwrap();
    }
    assert_eq!(fs::read_dir(case.path()).unwrap().count(), 3);
}

/// No file may be longer than the shell allows: the tables could not be written.
#[test]
fn a_disk_without_room_is_found_before_the_run() {
    let case = long_case("no-room", FILES);
    let mut command = Command::new("sh");
    let script = "trap '' XFSZ; ulimit -f 64; exec \"$@\"";
    command.args(["-c", script, "sh", TOOL, "run"]);
    command.arg(case.path());
    expect_soon(&case, command, "so a run could not be saved");
    assert_eq!(fs::read_dir(case.path()).unwrap().count(), 3);
}

#[test]
fn a_directory_that_cannot_be_written_is_found_before_the_run() {
    let place = std::env::temp_dir();
    let place = place.join(format!("lfsck-offline-beforehand-{}", std::process::id()));
    let case = long_case("not-writable", FILES);
    fs::create_dir_all(place.join("case")).unwrap();
    for (name, bytes) in case.files() {
        fs::write(place.join("case").join(name), bytes).unwrap();
    }
    fs::copy(TOOL, place.join("tool")).unwrap();
    let mut command = Command::new(place.join("tool"));
    command.arg("run").arg(place.join("case"));
    command.uid(NOBODY).gid(NOBODY);
    if command.spawn().map(|mut child| child.wait()).is_err() {
        let _ = fs::remove_dir_all(&place);
        let why = "no other user can be had";
        return skipped(
            "a_directory_that_cannot_be_written_is_found_before_the_run",
            why,
        );
    }
    expect_soon(&case, command, "permission denied");
    fs::remove_dir_all(&place).unwrap();
}
