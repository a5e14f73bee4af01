//! Bad input gets one clear line and changes nothing.

use std::ffi::OsStr;
use std::fs;
use std::os::unix::ffi::OsStrExt;
use std::os::unix::fs::{MetadataExt, PermissionsExt};
use std::os::unix::process::CommandExt;
use std::path::{Path, PathBuf};
use std::process::Command;

use crate::bytes::PARENT;
use crate::tool::{Case, JOURNAL, NOBODY, POSITION, TOOL, Told, sha256, skipped};

/// The commands that read a case.
const READERS: [&[&str]; 4] = [
    &["check"],
    &["classes"],
    &["run", "--create"],
    &["show", "0x200000401:1"],
];

fn tool(words: &[&str]) -> Told {
    Command::new(TOOL).args(words).output().unwrap().into()
}

/// Everything in a directory.
fn names(directory: &Path) -> Vec<String> {
    let entries = fs::read_dir(directory).unwrap();
    let mut names: Vec<String> = entries
        .map(|entry| entry.unwrap().file_name().into_string().unwrap())
        .collect();
    names.sort();
    names
}

#[test]
fn unknown_words_are_usage() {
    let case = Case::sample("usage");
    let before = case.files();
    for words in [
        &[][..],
        &["mend"],
        &["check"],
        &["run", "somewhere", "--steps"],
    ] {
        tool(words).expect_line(64, "see lfsck-offline --help");
    }
    for words in [
        &["check", "another"][..],
        &["check", "--create"],
        &["classes", "--only", "GOOD"],
        &["classes", "--only"],
        &["run", "--steps", "many"],
        &["run", "--steps", "-1"],
        &["run", "--repair"],
        &["show"],
        &["show", "P"],
        &["show", "[0x200000401:0x1:0x0"],
    ] {
        case.run(words).expect_line(64, "see lfsck-offline --help");
    }
    assert_eq!(case.files(), before);
}

#[test]
fn a_directory_that_is_not_there_is_not_made() {
    let case = Case::empty("no-directory");
    for words in READERS {
        let mut command = Command::new(TOOL);
        command.arg(words[0]).arg(case.path().join("missing"));
        let told: Told = command.args(&words[1..]).output().unwrap().into();
        told.expect_line(74, "no such file or directory");
    }
    assert!(names(case.path()).is_empty());
}

#[test]
fn a_file_is_no_case() {
    let case = Case::empty("file-as-directory");
    case.write("file", b"text");
    for words in READERS.iter().chain([&["sample"][..]].iter()) {
        let mut command = Command::new(TOOL);
        command.arg(words[0]).arg(case.path().join("file"));
        let told: Told = command.args(&words[1..]).output().unwrap().into();
        let told = told.expect(74);
        assert_eq!(told.err.lines().count(), 1, "{told:?}");
    }
    assert_eq!(case.read("file"), b"text");
}

#[test]
fn each_table_must_be_there() {
    for table in ["parents.tbl", "objects.tbl", "reserve.tbl"] {
        let case = Case::with("missing-table", b"", b"", b"");
        fs::remove_file(case.path().join(table)).unwrap();
        let before = names(case.path());
        for words in READERS {
            let told = case.run(words).expect_line(74, table);
            assert!(told.err.contains("no such file"), "{told:?}");
        }
        assert_eq!(names(case.path()), before);
    }
}

#[test]
fn a_table_must_be_a_plain_file() {
    let case = Case::with("directory-as-table", b"", b"", b"");
    let objects = case.path().join("objects.tbl");
    fs::remove_file(&objects).unwrap();
    fs::create_dir(&objects).unwrap();
    for words in READERS {
        case.run(words)
            .expect_line(74, "objects.tbl: this is a directory");
    }
    fs::remove_dir(&objects).unwrap();
    std::os::unix::fs::symlink("reserve.tbl", &objects).unwrap();
    for words in READERS {
        case.run(words)
            .expect_line(74, "objects.tbl: this is not a plain file");
    }
}

#[test]
fn a_table_that_is_too_long_is_refused() {
    for (table, most) in [
        ("parents.tbl", 1024 * PARENT),
        ("objects.tbl", 65_536 * 46),
        ("reserve.tbl", 65_536 * 16),
    ] {
        let case = Case::with("too-long", b"", b"", b"");
        let file = fs::File::create(case.path().join(table)).unwrap();
        // Far longer than memory: it must not be read whole.
        file.set_len(1 << 40).unwrap();
        let told = case.run(&["check"]).expect(2);
        let line = format!("{table}, length: the file is longer than {most} bytes");
        assert!(told.out.contains(&line), "{told:?}");
        for words in &READERS[1..] {
            case.run(words).expect_line(2, "refused with 11");
        }
        assert_eq!(file.metadata().unwrap().len(), 1 << 40);
        file.set_len(0).unwrap();
    }
}

#[test]
fn a_table_of_broken_rows_is_refused() {
    let case = Case::with("broken-rows", &[0; PARENT + 1], &[0; 45], &[0; 17]);
    let told = case.run(&["check"]).expect(2);
    for line in [
        "parents.tbl, length: 1 byte after the last whole row",
        "objects.tbl, length: 45 bytes after the last whole row",
        "reserve.tbl, length: 1 byte after the last whole row",
    ] {
        assert!(told.out.contains(line), "{line}: {told:?}");
    }
    let before = case.files();
    case.run(&["run"]).expect_line(2, "refused with 11");
    assert_eq!(case.files(), before);
}

/// A table, and what is done to it.
type Harm = (&'static str, fn(&mut Vec<u8>));

/// Whoever reads tables that are refused says the same line, in whichever of them the faults are,
/// and whatever is asked for.
#[test]
fn all_refuse_with_the_same_line() {
    let faults: [Harm; 4] = [
        ("parents.tbl", |table| table[25] ^= 1),
        ("objects.tbl", |table| table[13] = 1),
        ("reserve.tbl", |table| table[..8].fill(0)),
        ("reserve.tbl", |table| table.push(0)),
    ];
    for chosen in 1..1 << faults.len() {
        let case = Case::sample("refused-alike");
        for (bit, (table, fault)) in faults.iter().enumerate() {
            if chosen >> bit & 1 == 1 {
                case.edit(table, fault);
            }
        }
        let line = case.run(&["run"]).expect_line(2, "refused with").err;
        for words in [
            &["classes"][..],
            &["classes", "--file", "0x200000401:0x77"],
            &["show", "0x200000401:1"],
            &["show", "0x200000401:0x77"],
        ] {
            assert_eq!(case.run(words).expect(2).err, line, "{words:?}");
        }
    }
}

#[test]
fn a_position_that_cannot_be_read_is_refused() {
    let case = Case::sample("bad-position");
    case.run(&["run", "--steps", "5"]).expect(1);
    let good = case.read(POSITION);
    for bad in [&b""[..], b"1 2 3\n", &good[..good.len() - 1], &[0xff; 9000]] {
        case.write(POSITION, bad);
        let before = case.files();
        let told = case
            .run(&["run"])
            .expect_line(2, "this is no saved position");
        assert!(told.err.contains("--from-start"), "{told:?}");
        assert_eq!(case.files(), before);
        case.run(&["check"]).expect(0);
        case.run(&["classes"]).expect(0);
    }
    case.run(&["run", "--from-start"]).expect(0);
    case.run(&["run"]).expect(0);
}

/// The saved position with other numbers, as if it had been saved so.
fn forged(good: &[u8], position: &str) -> String {
    let good = str::from_utf8(good).unwrap();
    let lines = good.lines().filter(|line| !line.starts_with("digest "));
    let text: String = lines
        .map(|line| match line.strip_prefix("position ") {
            Some(_) => format!("position {position}\n"),
            None => format!("{line}\n"),
        })
        .collect();
    let digest = sha256(text.as_bytes());
    format!("{text}digest {digest}\n")
}

#[test]
fn a_saved_position_that_the_tables_do_not_have_is_refused() {
    let case = Case::sample("no-such-position");
    case.run(&["run", "--steps", "5"]).expect(1);
    let good = case.read(POSITION);
    assert_eq!(forged(&good, "1 2 0").as_bytes(), good);
    for position in ["1 99 7", "1 0 9", "2 25 0", "2 0 1", "3 0 1", "9 9 9"] {
        case.write(POSITION, forged(&good, position).as_bytes());
        let before = case.files();
        let told = case
            .run(&["run"])
            .expect_line(2, "refused with 16: no such position");
        assert!(told.err.contains("--from-start"), "{told:?}");
        assert_eq!(case.files(), before);
    }
    case.run(&["run", "--from-start"]).expect(0);
}

#[test]
fn a_directory_in_place_of_a_file_of_the_tool_is_trouble_with_files() {
    let case = Case::sample("directory-as-position");
    let before = case.files();
    fs::create_dir(case.path().join(POSITION)).unwrap();
    for words in [&["run"][..], &["run", "--from-start"]] {
        case.run(words).expect_line(74, "this is a directory");
    }
    case.run(&["check"]).expect(0);
    fs::remove_dir(case.path().join(POSITION)).unwrap();
    fs::create_dir(case.path().join(JOURNAL)).unwrap();
    for words in READERS {
        case.run(words).expect_line(74, "this is a directory");
    }
    assert_eq!(case.files(), before);
}

#[test]
fn an_empty_word_is_no_directory() {
    let case = Case::empty("empty-word");
    for words in [&["sample", ""][..], &["check", ""], &["run", ""]] {
        let mut command = Command::new(TOOL);
        command.args(words).current_dir(case.path());
        let told: Told = command.output().unwrap().into();
        told.expect_line(64, "the directory of the case is missing");
    }
    assert!(names(case.path()).is_empty());
}

/// Names of directories that trip programs.
#[test]
fn a_directory_may_have_any_name() {
    let case = Case::empty("names");
    let names: [&[u8]; 4] = [b"two words", b"-d", b"line\nline", b"caf\xe9 \x1b[1m"];
    for name in names {
        let name = OsStr::from_bytes(name);
        let run = |words: &[&str]| -> Told {
            let mut command = Command::new(TOOL);
            command.args(words).arg("--").arg(name);
            command.current_dir(case.path()).output().unwrap().into()
        };
        run(&["check"]).expect_line(74, "no such file or directory");
        run(&["sample"]).expect(0);
        run(&["sample"]).expect_line(74, "already there");
        run(&["check"]).expect(0);
        run(&["run", "--create"]).expect(0);
        crate::json::parse(&run(&["classes", "--json"]).expect(0).out);
    }
}

#[test]
fn words_that_are_no_text_are_usage() {
    let case = Case::sample("no-text");
    let before = case.files();
    let word = OsStr::from_bytes(b"\xff");
    for words in [&["check"][..], &["run", "--steps"], &["classes", "--only"]] {
        let mut command = case.command(words);
        let told: Told = command.arg(word).output().unwrap().into();
        told.expect_line(64, "see lfsck-offline --help");
    }
    let told: Told = case.command(&["show"]).arg(word).output().unwrap().into();
    told.expect_line(64, "is no FID");
    let told: Told = Command::new(TOOL).arg(word).output().unwrap().into();
    told.expect_line(64, "there is no command");
    assert_eq!(case.files(), before);
}

/// A place that every user can reach, with the tool and a case that nobody but root can write;
/// removed at the end.
struct ReadOnly(PathBuf);

impl ReadOnly {
    fn new() -> ReadOnly {
        let name = format!("lfsck-offline-read-only-{}", std::process::id());
        let place = ReadOnly(std::env::temp_dir().join(name));
        fs::create_dir_all(&place.0).unwrap();
        fs::copy(TOOL, place.0.join("tool")).unwrap();
        let made = Command::new(TOOL).arg("sample").arg(place.case()).output();
        Told::from(made.unwrap()).expect(0);
        place.set_mode(0o555);
        place
    }

    fn case(&self) -> PathBuf {
        self.0.join("case")
    }

    fn set_mode(&self, mode: u32) {
        for path in [&self.0, &self.case()] {
            let _ = fs::set_permissions(path, fs::Permissions::from_mode(mode));
        }
    }

    /// Runs the tool, as a user without rights where this one is root; none where that cannot be.
    fn run(&self, words: &[&str]) -> Option<Told> {
        let mut command = Command::new(self.0.join("tool"));
        command.arg(words[0]).arg(self.case()).args(&words[1..]);
        if fs::metadata(&self.0).unwrap().uid() == 0 {
            command.uid(NOBODY).gid(NOBODY);
        }
        Some(command.output().ok()?.into())
    }
}

impl Drop for ReadOnly {
    fn drop(&mut self) {
        self.set_mode(0o755);
        let _ = fs::remove_dir_all(&self.0);
    }
}

#[test]
fn a_case_that_cannot_be_written_can_be_read() {
    let place = ReadOnly::new();
    if place.run(&["check"]).is_none() {
        let why = "no other user can be had";
        return skipped("a_case_that_cannot_be_written_can_be_read", why);
    }
    let run = |words: &[&str]| place.run(words).expect("the tool");
    let before = names(&place.case());
    for words in [
        &["check"][..],
        &["classes"],
        &["show", "0x200000401:1"],
        &["run", "--steps", "0", "--json"],
    ] {
        let told = run(words);
        assert!(matches!(told.status, Some(0 | 1)), "{told:?}");
    }
    run(&["run", "--create"]).expect_line(74, "permission denied");
    run(&["sample"]).expect_line(74, "already there");
    assert_eq!(names(&place.case()), before);
    let parents = place.case().join("parents.tbl");
    fs::set_permissions(&parents, fs::Permissions::from_mode(0o000)).unwrap();
    run(&["check"]).expect_line(74, "parents.tbl: permission denied");
}

#[test]
fn a_directory_that_cannot_be_written_is_trouble_with_files() {
    let case = Case::sample("in-the-way");
    let before = case.files();
    // A directory in the way of the journal, which nobody can write over.
    fs::create_dir(case.path().join("lfsck-offline.journal.new")).unwrap();
    let told = case.run(&["run"]).expect(74);
    assert_eq!(told.err.lines().count(), 1, "{told:?}");
    assert_eq!(case.files(), before);
}
