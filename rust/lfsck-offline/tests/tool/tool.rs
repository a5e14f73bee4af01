//! Running the tool on a case.

use std::collections::BTreeMap;
use std::io::Write;
use std::path::{Path, PathBuf};
use std::process::{Command, Output, Stdio};
use std::sync::OnceLock;

use crate::json::{self, Value};

/// The program.
pub const TOOL: &str = env!("CARGO_BIN_EXE_lfsck-offline");

/// The saved position.
pub const POSITION: &str = "lfsck-offline.position";
/// The journal of a save.
pub const JOURNAL: &str = "lfsck-offline.journal";

/// The log.
pub const LOG: &str = "lfsck-offline.log";

/// A user without rights.
pub const NOBODY: u32 = 65_534;

/// The program with the hook for faults, which the released one has not: built here.
pub fn faulty() -> &'static Path {
    static BUILT: OnceLock<PathBuf> = OnceLock::new();
    BUILT.get_or_init(|| {
        let target = Path::new(env!("CARGO_TARGET_TMPDIR")).join("with-faults");
        let mut cargo = Command::new(env!("CARGO"));
        cargo.args(["build", "--release", "--offline", "--quiet"]);
        cargo
            .args(["--features", "faults", "--target-dir"])
            .arg(&target);
        cargo.current_dir(env!("CARGO_MANIFEST_DIR"));
        assert!(cargo.status().expect("cargo").success());
        target.join("release/lfsck-offline")
    })
}

/// Tells that a test cannot be made here, by its name; `tests/run` counts these.
pub fn skipped(test: &str, why: &str) {
    println!("skipped: {test}: {why}");
}

/// A directory of a test's own, removed when the test is done with it.
pub struct Case {
    directory: PathBuf,
}

/// What a command printed, and its exit status.
#[derive(Debug)]
pub struct Told {
    /// The exit status; none where it was killed.
    pub status: Option<i32>,
    /// Standard output.
    pub out: String,
    /// Standard error.
    pub err: String,
}

/// The files of a case, by name.
pub type Files = BTreeMap<String, Vec<u8>>;

impl Case {
    /// An empty directory; the name is the test's.
    pub fn empty(name: &str) -> Case {
        let directory = Path::new(env!("CARGO_TARGET_TMPDIR")).join(name);
        let _ = std::fs::remove_dir_all(&directory);
        std::fs::create_dir_all(&directory).expect("a directory for the test");
        Case { directory }
    }

    /// The sample.
    pub fn sample(name: &str) -> Case {
        let case = Case::empty(name);
        case.run(&["sample"]).expect(0);
        case
    }

    /// A case with these tables.
    pub fn with(name: &str, parents: &[u8], objects: &[u8], reserve: &[u8]) -> Case {
        let case = Case::empty(name);
        case.write("parents.tbl", parents);
        case.write("objects.tbl", objects);
        case.write("reserve.tbl", reserve);
        case
    }

    /// The directory.
    pub fn path(&self) -> &Path {
        &self.directory
    }

    /// The bytes of a file.
    pub fn read(&self, name: &str) -> Vec<u8> {
        std::fs::read(self.directory.join(name)).expect(name)
    }

    /// Writes a file.
    pub fn write(&self, name: &str, bytes: &[u8]) {
        std::fs::write(self.directory.join(name), bytes).expect(name);
    }

    /// Changes a file.
    pub fn edit(&self, name: &str, edit: impl FnOnce(&mut Vec<u8>)) {
        let mut bytes = self.read(name);
        edit(&mut bytes);
        self.write(name, &bytes);
    }

    /// All files.
    pub fn files(&self) -> Files {
        let entries = std::fs::read_dir(&self.directory).expect("the directory");
        let names = entries.map(|entry| entry.expect("an entry").file_name());
        let names = names.map(|name| name.into_string().expect("a name"));
        names
            .filter(|name| self.directory.join(name).is_file())
            .map(|name| {
                let bytes = self.read(&name);
                (name, bytes)
            })
            .collect()
    }

    /// Makes the directory hold these files and no others.
    pub fn restore(&self, files: &Files) {
        for name in self.files().keys() {
            std::fs::remove_file(self.directory.join(name)).expect(name);
        }
        for (name, bytes) in files {
            self.write(name, bytes);
        }
    }

    /// Runs a command: its name, then its words after the directory.
    pub fn run(&self, words: &[&str]) -> Told {
        self.command(words).output().expect("the tool").into()
    }

    /// Runs a command with a fault, as `abort:3`.
    pub fn run_with_fault(&self, words: &[&str], fault: String) -> Told {
        let mut command = self.command_of(faulty(), words);
        command.env("LFSCK_OFFLINE_FAULT", fault);
        command.output().expect("the tool").into()
    }

    /// Runs a command with `--json`, and reads what it prints.
    pub fn json(&self, words: &[&str], status: i32) -> Value {
        let words: Vec<&str> = words.iter().copied().chain(["--json"]).collect();
        json::parse(&self.run(&words).expect(status).out)
    }

    /// A command that can be started.
    pub fn command(&self, words: &[&str]) -> Command {
        self.command_of(Path::new(TOOL), words)
    }

    fn command_of(&self, tool: &Path, words: &[&str]) -> Command {
        let mut command = Command::new(tool);
        command.arg(words[0]).arg(&self.directory).args(&words[1..]);
        command
    }
}

impl Drop for Case {
    fn drop(&mut self) {
        if !std::thread::panicking() {
            let _ = std::fs::remove_dir_all(&self.directory);
        }
    }
}

impl Told {
    /// The status is this one.
    pub fn expect(self, status: i32) -> Told {
        assert_eq!(self.status, Some(status), "{self:?}");
        self
    }

    /// It was refused with this status by one line that says this.
    pub fn expect_line(self, status: i32, words: &str) -> Told {
        let told = self.expect(status);
        assert_eq!(told.out, "", "{told:?}");
        assert_eq!(told.err.lines().count(), 1, "{told:?}");
        assert!(told.err.starts_with("lfsck-offline: "), "{told:?}");
        assert!(told.err.contains(words), "{words}: {told:?}");
        told
    }
}

impl From<Output> for Told {
    fn from(output: Output) -> Told {
        let text = |bytes| String::from_utf8(bytes).expect("a text");
        Told {
            status: output.status.code(),
            out: text(output.stdout),
            err: text(output.stderr),
        }
    }
}

/// All of these stand in a text.
pub fn expect_lines(text: &str, lines: &[impl AsRef<str>]) {
    for line in lines.iter().map(AsRef::as_ref) {
        assert!(text.contains(line), "{line}: {text}");
    }
}

/// The files without the times in the log, which differ from run to run.
pub fn timeless(files: &Files) -> Files {
    let mut files = files.clone();
    if let Some(log) = files.get_mut(LOG) {
        let text = String::from_utf8(std::mem::take(log)).expect("a text");
        let mut parts = text.split_inclusive("\"when\":\"");
        let first = parts.next().unwrap_or_default().to_string();
        let rest = parts.map(|part| &part["2026-11-16T01:06:34Z".len()..]);
        *log = rest.fold(first, |text, part| text + part).into_bytes();
    }
    files
}

/// The bytes in hexadecimal digits.
pub fn hex(bytes: &[u8]) -> String {
    bytes.iter().map(|byte| format!("{byte:02x}")).collect()
}

/// The SHA-256 digest in hexadecimal digits, by another program.
pub fn sha256(bytes: &[u8]) -> String {
    let mut child = Command::new("sha256sum")
        .stdin(Stdio::piped())
        .stdout(Stdio::piped())
        .spawn()
        .expect("sha256sum");
    child.stdin.take().unwrap().write_all(bytes).unwrap();
    let out = child.wait_with_output().unwrap().stdout;
    String::from_utf8(out[..64].to_vec()).expect("digits")
}
