//! The outputs in README.md and docs/TOUR.md are what the commands print, and stand there once; the
//! demo's way to the library.

use std::os::unix::fs::PermissionsExt;
use std::path::Path;
use std::process::Command;

use crate::tool::{Case, TOOL, Told};

const REPOSITORY: &str = concat!(env!("CARGO_MANIFEST_DIR"), "/../..");
const README: &str = "README.md";
const TOUR: &str = "docs/TOUR.md";
/// The lines of a screen.
const SCREEN: usize = 24;

/// The command of a line, if it is one of ours.
fn command(line: &str) -> Option<Vec<&str>> {
    let words = line.strip_prefix("$ lfsck-offline ")?;
    Some(words.split_whitespace().collect())
}

/// What a command prints where its directory is `demo`.
fn printed(words: &[&str], directory: &Path) -> String {
    let mut tool = Command::new(TOOL);
    let told: Told = tool
        .args(words)
        .current_dir(directory)
        .output()
        .unwrap()
        .into();
    told.out + &told.err
}

/// A command in a text, and what stands below it.
struct Shown {
    command: String,
    output: Vec<String>,
}

/// The text with what the commands in it print.
fn told(text: &str, directory: &Path) -> String {
    let mut told = String::new();
    let mut in_output = false;
    for line in text.lines() {
        if let Some(words) = command(line) {
            told += &format!("{line}\n{}", printed(&words, directory));
            in_output = true;
        } else if !in_output || line == "```" {
            in_output = false;
            told += &format!("{line}\n");
        }
    }
    told
}

fn text(file: &str) -> String {
    std::fs::read_to_string(Path::new(REPOSITORY).join(file)).expect(file)
}

/// The commands of a text with the outputs that it shows.
fn shown(file: &str) -> Vec<Shown> {
    let mut list: Vec<Shown> = Vec::new();
    let mut in_output = false;
    for line in text(file).lines() {
        if command(line).is_some() {
            in_output = true;
            list.push(Shown {
                command: line.to_string(),
                output: Vec::new(),
            });
        } else if line == "```" {
            in_output = false;
        } else if in_output {
            let last = list.last_mut().expect("a command");
            last.output.push(line.to_string());
        }
    }
    list
}

/// A text shows what its commands print.
fn expect_true(file: &str, case: &Case) {
    let text = text(file);
    let told = told(&text, case.path());
    if told != text {
        let differs = told
            .lines()
            .zip(text.lines())
            .find(|(told, text)| told != text);
        panic!("{file}: the commands print otherwise: {differs:?}");
    }
}

#[test]
fn the_tour_is_true() {
    let case = Case::empty("tour");
    for dump in ["sizes", "site"] {
        let data = Path::new(REPOSITORY).join("tests/data").join(dump);
        std::os::unix::fs::symlink(data, case.path().join(dump)).expect("a link");
    }
    let old = case.path().join("old");
    std::fs::create_dir(&old).expect("a directory");
    let earlier = Path::new(REPOSITORY).join("tests/data/narrow");
    for entry in std::fs::read_dir(earlier).expect("a case") {
        let path = entry.expect("a file").path();
        std::fs::copy(&path, old.join(path.file_name().expect("a name"))).expect("a copy");
    }
    expect_true(TOUR, &case);
    assert!(shown(TOUR).len() >= 12);
}

/// The README's case is the demo's sample.
#[test]
fn the_readme_is_true() {
    let case = Case::empty("readme");
    printed(&["sample", "demo"], case.path());
    expect_true(README, &case);
}

/// The README has one screen of output, of at least two commands, and none that the tour has.
#[test]
fn no_output_stands_twice() {
    let (readme, tour) = (shown(README), shown(TOUR));
    let lines: usize = readme.iter().map(|shown| 1 + shown.output.len()).sum();
    assert!(readme.len() >= 2 && lines <= SCREEN, "{lines} lines");
    let all: Vec<&Shown> = readme.iter().chain(&tour).collect();
    for (at, one) in all.iter().enumerate() {
        assert!(!one.output.is_empty(), "{}", one.command);
        let twice = all[..at].iter().any(|other| other.output == one.output);
        assert!(!twice, "{} stands twice", one.command);
    }
}

/// `tests/library` says first that it takes long, has a line for each crate with its time, and
/// keeps all that the prover prints in a file; its status is the prover's.
#[test]
fn the_library_is_built_with_a_line_for_each_crate() {
    let case = Case::empty("library");
    let prover = case.path().join("rt");
    let lines =
        "fn wire::le16: proved\ncrate wire: modules loaded=0 checked=9\n\
         crate capi_c: modules loaded=0 checked=9\n";
    for status in [0, 1] {
        std::fs::write(
            &prover,
            format!("#!/bin/sh\ncat >&2 <<END\n{lines}END\nexit {status}\n"),
        )
        .unwrap();
        std::fs::set_permissions(&prover, PermissionsExt::from_mode(0o755)).unwrap();
        let log = case.path().join("log");
        let path = std::env::var("PATH").unwrap();
        let mut script = Command::new(Path::new(REPOSITORY).join("tests/library"));
        script
            .arg(&log)
            .env("PATH", format!("{}:{path}", case.path().display()));
        let told: Told = script.output().unwrap().into();
        let told = told.expect(status);
        assert!(
            told.out
                .starts_with("The library is proved before it is built."),
            "{told:?}"
        );
        let shown: Vec<&str> = told
            .out
            .lines()
            .filter(|line| line.starts_with("  "))
            .collect();
        assert_eq!(
            shown,
            ["  wire proved (0 s)", "  capi proved and built (0 s)"]
        );
        assert_eq!(std::fs::read_to_string(&log).unwrap(), lines);
        assert_eq!(told.err.is_empty(), status == 0, "{told:?}");
    }
}
