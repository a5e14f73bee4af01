//! Long work on a terminal, by the program `script`: a bar, soon and at little cost.

use std::io::{Read, Seek, SeekFrom, Write};
use std::process::{Command, Stdio};
use std::time::{Duration, Instant};

use crate::bytes::{object, parent_row};
use crate::limits::clean;
use crate::tool::{Case, TOOL, Told, skipped};

/// What a command printed on a terminal.
#[derive(Debug)]
struct Seen {
    text: String,
    took: Duration,
    /// When the first picture of the bar was there.
    picture: Option<Duration>,
}

/// A command of the shell on a case, at a terminal.
fn on_terminal(case: &Case, command: &str) -> Seen {
    let started = Instant::now();
    let mut script = Command::new("script");
    script.args(["-qefc", command, "/dev/null"]);
    script.current_dir(case.path()).stdin(Stdio::null());
    let mut child = script.stdout(Stdio::piped()).spawn().expect("script");
    let mut out = child.stdout.take().expect("its output");
    let (mut bytes, mut part) = (Vec::new(), [0; 4096]);
    let mut picture = None;
    loop {
        let count = out.read(&mut part).expect("its output");
        if count == 0 {
            break;
        }
        bytes.extend(&part[..count]);
        let drawn = bytes.windows(2).any(|pair| pair == b"\r[");
        picture = picture.or(drawn.then(|| started.elapsed()));
    }
    assert!(child.wait().expect("script").success());
    Seen {
        text: String::from_utf8(bytes).expect("a text"),
        took: started.elapsed(),
        picture,
    }
}

/// The tool with its words.
fn tool(words: &str) -> String {
    format!("'{TOOL}' {words}")
}

impl Seen {
    /// The text without the bar.
    fn printed(&self) -> String {
        let lines = self.text.lines();
        let last = |line: &str| line.rsplit('\r').next().unwrap_or_default().to_string();
        lines.map(|line| last(line) + "\n").collect()
    }
}

/// The slots of a file.
const SLOTS: usize = 160;

const SECOND: Duration = Duration::from_secs(1);

/// Every command that can take long shows a bar within a second, and clears it before it prints
/// what it prints in a pipe.
#[test]
fn the_bar_is_there_within_a_second() {
    let (parents, objects) = clean(320, SLOTS, 320);
    let case = Case::with("bar-soon", &parents, &objects, b"");
    for words in [
        &["check"][..],
        &["classes", "--summary"],
        &["show", "0x200000401:5"],
        &["run"],
    ] {
        let files = case.files();
        let told = case.run(words).expect(0);
        assert_eq!(told.err, "", "no bar in a pipe");
        case.restore(&files);
        let seen = on_terminal(
            &case,
            &tool(&format!("{} . {}", words[0], words[1..].join(" "))),
        );
        println!(
            "{words:?}: {:?}, the bar after {:?}",
            seen.took, seen.picture
        );
        // What takes less than a second needs none.
        let soon = seen
            .picture
            .map_or(seen.took < SECOND, |picture| picture < SECOND);
        assert!(soon, "{words:?}: {seen:?}");
        assert_eq!(seen.printed(), told.out);
    }
}

/// A dump that comes slowly shows the bar while it is read, and then prints what it prints in a pipe.
#[test]
fn a_slow_dump_has_a_bar() {
    let site = concat!(env!("CARGO_MANIFEST_DIR"), "/../../tests/data/site");
    let case = Case::empty("bar-dump");
    let words = tool(&format!("intake made --owners '{site}/owners.txt'"));
    let seen = on_terminal(
        &case,
        &format!("(cat '{site}/dump.txt'; sleep 1) | {words}"),
    );
    assert!(seen.text.contains("] reading the dumps, "), "{seen:?}");
    assert!(
        seen.printed()
            .starts_with("A case is in made: 4 files and 5 objects from 1 dump.\n"),
        "{seen:?}"
    );
}

/// Of a long file the bar tells how much is read. It is one line that is skipped, nearly all of it a
/// hole on the disk.
#[test]
fn a_long_dump_shows_how_much_is_read() {
    let case = Case::empty("bar-long-dump");
    let lines = "# file: a\ntrusted.lov=0x\n\
                 trusted.lma=0x000000000000000001040000020000000100000000000000\ntrusted.x=";
    case.write("dump", lines.as_bytes());
    case.write("owners", b"1 2 3");
    let total = 1 << 29;
    let path = case.path().join("dump");
    let mut file = std::fs::File::options().write(true).open(path).unwrap();
    file.seek(SeekFrom::Start(total - 2)).unwrap();
    file.write_all(b"\n\n").unwrap();
    let words = tool("intake made dump --owners owners || true");
    let seen = on_terminal(&case, &words);
    println!("{:?}, the bar after {:?}", seen.took, seen.picture);
    let share = format!(" of {total} bytes, ");
    assert!(seen.text.contains(&share) || seen.took < SECOND, "{seen:?}");
    assert!(seen.printed().starts_with("A case is in made: 1 file and"));
}

#[test]
fn short_work_has_no_bar() {
    let case = Case::sample("no-bar");
    let seen = on_terminal(&case, &tool("run . --create --adopt"));
    assert!(
        seen.text.starts_with("The run begins at the start"),
        "{seen:?}"
    );
    assert_eq!(seen.picture, None);
}

/// The seconds that the processor spent, as bash tells them after the words.
fn processor_seconds(text: &str) -> f64 {
    let (_, times) = text.rsplit_once("spent ").expect("the times");
    times
        .split_whitespace()
        .map(|time| time.parse::<f64>().expect(time))
        .sum()
}

/// A command of the shell that tells the processor's time of another.
fn timed(command: &str) -> String {
    format!("bash -c \"TIMEFORMAT='spent %U %S'; time {command}\"")
}

/// The processor's time of a command in a pipe.
fn in_pipe(case: &Case, command: &str) -> f64 {
    let mut shell = Command::new("bash");
    shell.args(["-c", &timed(command)]).current_dir(case.path());
    let told: Told = shell.output().expect("bash").into();
    processor_seconds(&told.err)
}

/// So many files of which one object in a hundred is damaged.
fn damaged(name: &str, files: usize) -> Case {
    let (parents, mut objects) = clean(files, SLOTS, files);
    for (at, row) in objects.chunks_mut(46).step_by(100).enumerate() {
        match at % 4 {
            0 => row.fill(0),
            1 => row[29..45].fill(0),
            2 => row[21] ^= 1,
            _ => row[41] ^= 0x80,
        }
    }
    let reserve: Vec<u8> = (0..9000)
        .flat_map(|id| object(1_000_000 + id).to_bytes())
        .collect();
    Case::with(name, &parents, &objects, &reserve)
}

/// A run on a terminal takes at most 1.2 times the processor's time that it takes in a pipe. What
/// else the machine does adds to a time and takes nothing away, so the least of some count.
#[test]
fn the_bar_costs_little() {
    let case = damaged("bar-cost", 320);
    let run = tool("run . --create --adopt --dry-run --summary");
    let (mut pipe, mut terminal) = (f64::INFINITY, f64::INFINITY);
    for round in 1..=10 {
        pipe = in_pipe(&case, &run).min(pipe);
        terminal = processor_seconds(&on_terminal(&case, &timed(&run)).text).min(terminal);
        println!("round {round}: in a pipe {pipe:.2} s, on a terminal {terminal:.2} s");
        if round > 1 && terminal <= 1.2 * pipe {
            return;
        }
    }
    panic!("in a pipe {pipe:.2} s, on a terminal {terminal:.2} s");
}

/// The instructions that a command takes, as valgrind counts them: they are the same whatever else
/// the machine does. None where there is no valgrind.
fn instructions(case: &Case, words: &[&str]) -> Option<u64> {
    let mut valgrind = Command::new("valgrind");
    valgrind.args(["--tool=cachegrind", "--cache-sim=no"]);
    valgrind.args(["--cachegrind-out-file=/dev/null", TOOL]);
    let told: Told = valgrind
        .args(words)
        .current_dir(case.path())
        .output()
        .ok()?
        .into();
    let (_, count) = told.err.split_once("I   refs:").expect("a count");
    let digits = count.lines().next().expect("a count").replace(',', "");
    Some(digits.trim().parse().expect("a number"))
}

/// All classes take no longer than a run, which asks for them one by one: one check for each. The
/// two are but a few in a hundred apart, so it is instructions that are counted, and no time.
#[test]
fn classes_take_no_longer_than_a_run() {
    let case = damaged("classes-cost", 160);
    let run = ["run", ".", "--create", "--adopt", "--dry-run"];
    let counts = instructions(&case, &["classes", "."]).zip(instructions(&case, &run));
    let Some((listed, ran)) = counts else {
        let why = "valgrind cannot be had";
        return skipped("classes_take_no_longer_than_a_run", why);
    };
    println!("classes {listed} instructions, a run {ran}");
    assert!(listed <= ran, "classes {listed}, a run {ran}");
}

/// Work that is long beside the check of its input is made in slices, and the bar has its share.
/// It is the same run: every slot names an object that is absent, and there is none.
#[test]
fn long_work_shows_how_much_is_done() {
    let files = 250;
    let row = |file: usize| {
        let first = 1 + file * SLOTS;
        let slots: Vec<u32> = (first..first + SLOTS).map(|id| id as u32).collect();
        parent_row(1 + file as u32, &slots)
    };
    let parents: Vec<u8> = (0..files).flat_map(row).collect();
    let case = Case::with("bar-share", &parents, b"", b"");
    let total = files * (1 + SLOTS);
    for (words, counted) in [
        (["run", "--dry-run"], "steps"),
        (["classes", "--summary"], "positions"),
    ] {
        let told = case.run(&words).expect(0);
        let seen = on_terminal(&case, &tool(&format!("{} . {}", words[0], words[1])));
        println!("{words:?}: {:?}", seen.took);
        let share = format!(" of {total} {counted}, ");
        assert!(seen.text.contains(&share) || seen.took < SECOND, "{seen:?}");
        assert_eq!(seen.printed(), told.out.clone() + &told.err);
    }
    let told = case.run(&["run", "--dry-run"]).expect(0);
    assert!(told.out.contains(&format!("Steps: {total} done, 0 left.")));
}
