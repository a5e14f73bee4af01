//! Runs that somebody asks to stop.

use std::process::{Child, Command, Stdio};
use std::time::{Duration, Instant};

use crate::bytes::{PARENT, parent_row};
use crate::oracle;
use crate::tool::{Case, POSITION, TOOL, Told, faulty};

/// So many files take some seconds.
const FILES: u32 = 250;
const SLOTS: u32 = 160;

/// Files whose objects are all absent, so that a run looks long at each slot; the own FIDs of
/// the first and the last layout are not the files'.
pub fn long_case(name: &str, files: u32) -> Case {
    let mut parents = Vec::new();
    for file in 0..files {
        let slots: Vec<u32> = (1..=SLOTS).map(|slot| file * SLOTS + slot).collect();
        parents.extend(parent_row(file + 1, &slots));
    }
    for file in [0, files as usize - 1] {
        parents[PARENT * file + 27 + 8] ^= 0x40;
    }
    Case::with(name, &parents, b"", b"")
}

/// Whether a process has a handler for SIGINT, by what the system tells of it.
fn listens(child: &Child) -> bool {
    let status = std::fs::read_to_string(format!("/proc/{}/status", child.id()));
    let status = status.expect("a process");
    let mask = status.lines().find_map(|line| line.strip_prefix("SigCgt:"));
    let mask = u64::from_str_radix(mask.expect("a mask").trim(), 16).unwrap();
    mask & 2 == 2
}

fn wait_until(child: &Child, listening: bool) {
    while listens(child) != listening {
        std::thread::sleep(Duration::from_millis(2));
    }
}

/// The same command where nobody ignores signals, as a shell does for what it starts beside itself.
fn heeding(command: &Command) -> Command {
    let mut heeding = Command::new("env");
    heeding.arg("--default-signal=INT,TERM");
    heeding.arg(command.get_program()).args(command.get_args());
    let set = command
        .get_envs()
        .filter_map(|(name, value)| Some((name, value?)));
    heeding.envs(set);
    if let Some(directory) = command.get_current_dir() {
        heeding.current_dir(directory);
    }
    heeding
}

/// Starts a run, and waits until it listens.
fn start(command: Command) -> Child {
    let mut command = heeding(&command);
    command.stdin(Stdio::piped());
    command.stdout(Stdio::piped()).stderr(Stdio::piped());
    let child = command.spawn().expect("the tool");
    wait_until(&child, true);
    child
}

fn send(child: &Child, signal: &str) {
    let process = child.id().to_string();
    let sent = Command::new("kill").args([signal, &process]).status();
    assert!(sent.unwrap().success());
}

#[test]
fn a_run_that_is_asked_to_stop_saves_and_says_where() {
    let case = long_case("stopped", FILES);
    let start_files = case.files();
    let uncut = oracle::run(&start_files, 0, u64::MAX);
    for (signal, name) in [("-INT", "SIGINT"), ("-TERM", "SIGTERM")] {
        case.restore(&start_files);
        let started = Instant::now();
        let child = start(case.command(&["run"]));
        send(&child, signal);
        let told = Told::from(child.wait_with_output().unwrap()).expect(1);
        println!("stopped after {:.1} s", started.elapsed().as_secs_f64());
        let line = format!("Answer 1: {name} came and the run is stopped; the next step is at ");
        assert!(told.out.contains(&line), "{told:?}");
        assert!(told.out.contains("Repairs: SELF 1."), "{told:?}");
        assert!(case.files().contains_key(POSITION));
        let report = case.json(&["run"], 0);
        assert_eq!(report.get("resumed"), &crate::json::Value::Bool(true));
        assert_eq!(report.get("stopped"), &crate::json::Value::Null);
        uncut.expect_in(&case);
    }
    case.restore(&start_files);
    let child = start(case.command(&["run", "--json"]));
    send(&child, "-INT");
    let told = Told::from(child.wait_with_output().unwrap()).expect(1);
    let report = crate::json::parse(&told.out);
    assert_eq!(report.text("stopped"), "SIGINT");
    assert!(report.number("steps_left") > 0);
}

/// A run that waits before its first step, so that both signals come in time.
#[test]
fn a_second_signal_ends_a_run_at_once() {
    let case = Case::sample("stopped-twice");
    let before = case.files();
    let mut command = Command::new(faulty());
    command.arg("run").arg(case.path());
    command.env("LFSCK_OFFLINE_FAULT", "wait:1");
    let child = start(command);
    send(&child, "-INT");
    wait_until(&child, false);
    send(&child, "-INT");
    let told = Told::from(child.wait_with_output().unwrap());
    assert_eq!(told.status, None, "{told:?}");
    case.run(&["check"]).expect(0);
    assert_eq!(case.files(), before);
}

#[test]
fn a_signal_that_is_ignored_stays_ignored() {
    let case = long_case("ignored", FILES);
    let mut command = Command::new("sh");
    command.args(["-c", "trap '' INT; exec \"$@\"", "sh", TOOL]);
    command.arg("run").arg(case.path()).stdout(Stdio::piped());
    let child = command.spawn().expect("the shell");
    let program = format!("/proc/{}/comm", child.id());
    while std::fs::read_to_string(&program).unwrap() != "lfsck-offline\n" {
        std::thread::sleep(Duration::from_millis(2));
    }
    std::thread::sleep(Duration::from_millis(200));
    send(&child, "-INT");
    let told = Told::from(child.wait_with_output().unwrap()).expect(0);
    assert!(told.out.contains("Answer 0"), "{told:?}");
}
