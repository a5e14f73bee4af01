//! Directories that others can write: nobody is let in.

use std::fs::{self, File, Permissions};
use std::io::{BufRead, BufReader, Write};
use std::os::unix::fs::{MetadataExt, PermissionsExt, chown, symlink};
use std::os::unix::process::CommandExt;
use std::path::{Path, PathBuf};
use std::process::{Command, Stdio};

use crate::limits;
use crate::tool::{
    Case, Files, JOURNAL, LOG, NOBODY, POSITION, TOOL, Told, faulty, skipped, timeless,
};

const TABLES: [&str; 3] = ["parents.tbl", "objects.tbl", "reserve.tbl"];
const RUN: [&str; 3] = ["run", "--create", "--adopt"];

/// Every file that a save makes, while it is being made.
const UNFINISHED: [&str; 5] = [
    "lfsck-offline.journal.new",
    "lfsck-offline.log.new",
    "lfsck-offline.parents.tbl.new",
    "lfsck-offline.objects.tbl.new",
    "lfsck-offline.position.new",
];

fn set_mode(path: &Path, mode: u32) {
    fs::set_permissions(path, Permissions::from_mode(mode)).unwrap();
}

/// Owner, group and mode.
fn permissions(path: &Path) -> (u32, u32, u32) {
    let metadata = fs::symlink_metadata(path).expect("a file");
    (metadata.uid(), metadata.gid(), metadata.mode() & 0o7777)
}

/// A place that every user can reach, removed at the end.
struct Place(PathBuf);

impl Place {
    fn new(name: &str) -> Place {
        let name = format!("lfsck-offline-{name}-{}", std::process::id());
        let place = Place(std::env::temp_dir().join(name));
        fs::create_dir_all(place.case()).unwrap();
        set_mode(&place.case(), 0o777);
        place
    }

    fn case(&self) -> PathBuf {
        self.0.join("case")
    }

    fn run(&self, words: &[&str]) -> Told {
        let mut command = Command::new(TOOL);
        command.arg(words[0]).arg(self.case()).args(&words[1..]);
        command.output().expect("the tool").into()
    }

    fn read(&self, name: &str) -> Vec<u8> {
        fs::read(self.case().join(name)).expect(name)
    }

    /// Links to a file under the names of all that a save makes.
    fn make_links(&self, target: &Path) {
        fs::create_dir(self.0.join("links")).unwrap();
        for name in UNFINISHED {
            symlink(target, self.0.join("links").join(name)).unwrap();
        }
    }

    /// Lets another user plant these links in the case, where there is nothing yet; whether this
    /// process can be another user.
    fn plant(&self) -> bool {
        let mut copy = Command::new("cp");
        copy.args(["-P", "-n", "-t"]).arg(self.case());
        copy.args(UNFINISHED.map(|name| self.0.join("links").join(name)));
        copy.stderr(Stdio::null()).uid(NOBODY).gid(NOBODY);
        copy.status().is_ok()
    }

    /// A run during which that user plants links after each operation from this one on; the
    /// operations, and how it ended.
    fn run_among_links(&self, from: usize) -> (Vec<String>, Option<i32>) {
        let mut command = Command::new(faulty());
        command.arg("run").arg(self.case()).args(&RUN[1..]);
        command.env("LFSCK_OFFLINE_FAULT", format!("wait:{from}"));
        command.stdin(Stdio::piped()).stderr(Stdio::piped());
        let mut child = command.stdout(Stdio::null()).spawn().expect("the tool");
        let lines = BufReader::new(child.stderr.take().unwrap()).lines();
        let mut answers = child.stdin.take().unwrap();
        let mut operations = Vec::new();
        for line in lines {
            let line = line.unwrap();
            if let Some(operation) = line.strip_prefix("waiting after: ") {
                operations.push(operation.to_string());
                self.plant();
                let _ = answers.write_all(b"\n");
            }
        }
        (operations, child.wait().unwrap().code())
    }

    /// Removes all but the tables, and makes these as they were.
    fn restore(&self, tables: &[Vec<u8>; 3]) {
        for entry in fs::read_dir(self.case()).unwrap() {
            fs::remove_file(entry.unwrap().path()).unwrap();
        }
        for (name, bytes) in TABLES.iter().zip(tables) {
            fs::write(self.case().join(name), bytes).unwrap();
        }
    }
}

impl Drop for Place {
    fn drop(&mut self) {
        let _ = fs::remove_dir_all(&self.0);
    }
}

#[test]
fn a_link_that_another_user_plants_is_not_followed() {
    let place = Place::new("links");
    let victim = place.0.join("victim");
    fs::write(&victim, b"precious").unwrap();
    set_mode(&victim, 0o640);
    let before = permissions(&victim);
    place.make_links(&victim);
    if !place.plant() {
        let why = "no other user can be had";
        return skipped("a_link_that_another_user_plants_is_not_followed", why);
    }
    place.run(&["sample"]).expect(0);
    let sample = TABLES.map(|name| place.read(name));
    let mut refused = Vec::new();
    for from in 1.. {
        place.restore(&sample);
        place.plant();
        let (operations, status) = place.run_among_links(from);
        assert_eq!(fs::read(&victim).unwrap(), b"precious", "{operations:?}");
        assert_eq!(permissions(&victim), before, "{operations:?}");
        match status {
            Some(74) => refused.extend(operations.last().cloned()),
            _ => assert_eq!(status, Some(0)),
        }
        if operations.is_empty() {
            break;
        }
    }
    // A link in the moment between the removal of the last one and the making of the file.
    // A log is written into as it stands.
    for name in UNFINISHED.iter().filter(|name| !name.contains("log")) {
        assert!(refused.contains(&format!("remove {name}")), "{refused:?}");
    }
}

/// What is planted before the run is cleared away, and what it points at stays.
#[test]
fn what_stands_in_the_place_of_an_unfinished_file_is_removed_and_not_opened() {
    let case = Case::sample("planted");
    let start = case.files();
    case.run(&RUN).expect(0);
    let end = timeless(&case.files());
    let victim = Case::empty("planted-victim");
    victim.write("victim", b"precious");
    for name in UNFINISHED {
        case.restore(&start);
        let place = case.path().join(name);
        symlink(victim.path().join("victim"), &place).unwrap();
        case.run(&RUN).expect(0);
        assert!(fs::symlink_metadata(&place).is_err(), "{name}");
        assert_eq!(timeless(&case.files()), end);
        assert_eq!(victim.read("victim"), b"precious");
        fs::write(&place, b"what a crash left").unwrap();
        case.run(&RUN).expect(0);
        assert!(fs::symlink_metadata(&place).is_err(), "{name}");
    }
}

#[test]
fn a_link_in_the_place_of_a_file_of_the_tool_is_refused() {
    let case = Case::sample("own-links");
    let before = case.files();
    for name in [POSITION, JOURNAL, LOG] {
        let place = case.path().join(name);
        symlink("reserve.tbl", &place).unwrap();
        case.run(&RUN).expect_line(74, "this is not a plain file");
        fs::remove_file(&place).unwrap();
        assert_eq!(case.files(), before);
    }
}

/// Where everybody may make files but not change others', as in /tmp, nobody else says what stands
/// in the tables.
#[test]
fn a_file_of_the_tool_that_another_user_made_is_not_believed() {
    let case = Case::sample("planted-word");
    with_journal(&case);
    let journal = case.read(JOURNAL);
    case.run(&RUN).expect(0);
    let (log, position) = (case.read(LOG), case.read(POSITION));
    for (name, bytes, words) in [
        (JOURNAL, journal, &["check"][..]),
        (LOG, log, &["undo"]),
        (LOG, Vec::new(), &["run"]),
        (POSITION, position, &["run"]),
    ] {
        let case = Case::sample("planted-word-here");
        case.write(name, &bytes);
        let place = case.path().join(name);
        if chown(&place, Some(NOBODY), Some(NOBODY)).is_err() {
            let why = "files cannot be given to another user";
            let test = "a_file_of_the_tool_that_another_user_made_is_not_believed";
            return skipped(test, why);
        }
        let before = case.files();
        set_mode(case.path(), 0o1777);
        case.run(words)
            .expect_line(74, "this belongs to another user");
        assert!(case.files() == before, "{name}");
        // The owner of a table is believed.
        chown(case.path().join("objects.tbl"), Some(NOBODY), Some(NOBODY)).unwrap();
        let told = case.run(&["check"]).expect(0);
        assert_eq!(told.err.contains("completed"), name == JOURNAL, "{told:?}");
    }
}

/// Where everybody may replace the tables, a log that another user made is no worse; but he does
/// not read along.
#[test]
fn a_log_that_another_user_made_is_copied() {
    let case = Case::sample("log-owner");
    let log = case.path().join(LOG);
    fs::write(&log, b"").unwrap();
    set_mode(&log, 0o600);
    if chown(&log, Some(NOBODY), Some(NOBODY)).is_err() {
        let why = "files cannot be given to another user";
        return skipped("a_log_that_another_user_made_is_copied", why);
    }
    let reader = File::open(&log).unwrap();
    case.run(&RUN).expect(0);
    assert_eq!(reader.metadata().unwrap().len(), 0);
    assert_ne!(fs::metadata(&log).unwrap().uid(), NOBODY);
    assert!(!case.read(LOG).is_empty());
}

/// Opening a pipe would wait for somebody at its other end.
#[test]
fn a_pipe_in_the_place_of_a_file_is_refused_at_once() {
    for name in [POSITION, JOURNAL, LOG, "objects.tbl"] {
        let case = Case::sample("pipe");
        let place = case.path().join(name);
        let _ = fs::remove_file(&place);
        let made = Command::new("mkfifo").arg(&place).status().unwrap();
        assert!(made.success());
        case.run(&RUN).expect_line(74, "this is not a plain file");
    }
}

/// The operation at which the journal is in place, and the state of that moment.
fn with_journal(case: &Case) {
    let start = case.files();
    for number in 1.. {
        let told = case.run_with_fault(&RUN, format!("abort:{number}"));
        assert_eq!(told.status, None, "{told:?}");
        if told.err.contains(&format!("rename to {JOURNAL}")) {
            return;
        }
        restore_contents(case, &start);
    }
}

/// The contents alone; owners and modes stay.
fn restore_contents(case: &Case, files: &Files) {
    for (name, bytes) in files {
        case.write(name, bytes);
    }
}

#[test]
fn the_journal_lets_in_no_more_people_than_the_strictest_table() {
    for (modes, journal) in [
        ([0o644, 0o644, 0o644], 0o644),
        ([0o644, 0o640, 0o644], 0o640),
        ([0o640, 0o604, 0o666], 0o600),
        ([0o400, 0o444, 0o444], 0o600),
    ] {
        let case = Case::sample("journal-mode");
        for (name, mode) in TABLES.iter().zip(modes) {
            set_mode(&case.path().join(name), mode);
        }
        let (uid, gid, _) = permissions(&case.path().join(TABLES[0]));
        with_journal(&case);
        let found = permissions(&case.path().join(JOURNAL));
        assert_eq!(found, (uid, gid, journal), "{modes:?}");
        case.run(&["check"]).expect(0);
        let found = permissions(&case.path().join(POSITION));
        assert_eq!(found, (uid, gid, journal), "{modes:?}");
        for (name, mode) in TABLES.iter().zip(modes) {
            assert_eq!(permissions(&case.path().join(name)), (uid, gid, mode));
        }
    }
}

#[test]
fn a_journal_of_tables_of_two_owners_is_its_makers_alone() {
    let case = Case::sample("journal-owner");
    let objects = case.path().join("objects.tbl");
    let (uid, _, mode) = permissions(&case.path().join("parents.tbl"));
    if chown(&objects, Some(NOBODY), Some(NOBODY)).is_err() {
        let why = "files cannot be given to another user";
        return skipped("a_journal_of_tables_of_two_owners_is_its_makers_alone", why);
    }
    with_journal(&case);
    let (owner, _, journal) = permissions(&case.path().join(JOURNAL));
    assert_eq!((owner, journal), (uid, 0o600));
    case.run(&["check"]).expect(0);
    assert_eq!(permissions(&objects), (NOBODY, NOBODY, mode));
}

/// A user who cannot give files away still lets nobody in.
#[test]
fn a_user_who_cannot_keep_the_group_lets_nobody_in() {
    let place = Place::new("group");
    place.run(&["sample"]).expect(0);
    fs::copy(TOOL, place.0.join("tool")).unwrap();
    let names = ["objects.tbl", "parents.tbl"].map(|name| place.case().join(name));
    set_mode(&names[0], 0o604);
    let mut tool = Command::new(place.0.join("tool"));
    tool.arg("run")
        .arg(place.case())
        .args(["--create", "--adopt"]);
    tool.uid(NOBODY).gid(NOBODY);
    let Ok(told) = tool.output() else {
        let why = "no other user can be had";
        return skipped("a_user_who_cannot_keep_the_group_lets_nobody_in", why);
    };
    Told::from(told).expect(0);
    assert_eq!(permissions(&names[0]), (NOBODY, NOBODY, 0o600));
    assert_eq!(permissions(&names[1]), (NOBODY, NOBODY, 0o644));
}

/// Whether somebody has a case open.
fn is_open(directory: &Path) -> bool {
    File::open(directory).unwrap().try_lock().is_err()
}

/// The files of the directory that was opened are saved, also where its name is another's now.
#[test]
fn a_directory_that_is_exchanged_meanwhile_is_not_written() {
    let (mut parents, objects) = limits::clean(500, 160, 200);
    parents[27 + 8] ^= 0x40;
    let case = Case::empty("exchanged");
    let (name, moved) = (case.path().join("case"), case.path().join("moved"));
    fs::create_dir(&name).unwrap();
    for (table, bytes) in TABLES.iter().zip([&parents, &objects, &Vec::new()]) {
        fs::write(name.join(table), bytes).unwrap();
    }
    let mut command = Command::new(TOOL);
    command.arg("run").arg(&name).stdout(Stdio::null());
    let mut child = command.spawn().expect("the tool");
    while !is_open(&name) && child.try_wait().unwrap().is_none() {
        std::thread::yield_now();
    }
    fs::rename(&name, &moved).unwrap();
    fs::create_dir(&name).unwrap();
    let meanwhile = is_open(&moved);
    assert!(child.wait().unwrap().success());
    assert!(meanwhile, "the run was over too soon");
    assert_eq!(fs::read_dir(&name).unwrap().count(), 0);
    assert_ne!(fs::read(moved.join(TABLES[0])).unwrap(), parents);
    assert!(moved.join(POSITION).exists());
}

#[test]
fn the_released_command_has_no_hook_for_faults() {
    let case = Case::sample("no-hook");
    let mut command = case.command(&RUN);
    command.env("LFSCK_OFFLINE_FAULT", "fail:1");
    Told::from(command.output().unwrap()).expect(0);
    let program = fs::read(TOOL).unwrap();
    let variable = b"LFSCK_OFFLINE_FAULT";
    let mut parts = program.windows(variable.len());
    assert!(parts.all(|part| part != variable));
}
