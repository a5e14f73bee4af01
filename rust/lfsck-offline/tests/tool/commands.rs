//! Every command and every exit status.

use difftest::Random;
use difftest::tables::{OBJECTS, Shape, random_tables, to_bytes};
use reference::class::Class;
use reference::position::Position;
use reference::site::Reason;

use crate::bytes::{PARENT, object, object_row, parent_row};
use crate::json::Value;
use crate::oracle;
use crate::tool::{Case, TOOL, Told};

/// Every class, by its number.
pub const CLASSES: [&str; 15] = [
    "CLEAN",
    "SELF",
    "HOLE",
    "MULTIPLE",
    "DANGLING",
    "BLANK",
    "UNMATCHED",
    "OWNER",
    "SPARE",
    "EMPTY",
    "ORPHAN",
    "CONFLICT",
    "KEPT",
    "UNUSED",
    "WRONG-OST",
];

/// The classes whose repairs are counted, in the order of the report.
pub const COUNTED: [&str; 9] = [
    "SELF",
    "MULTIPLE",
    "DANGLING",
    "BLANK",
    "UNMATCHED",
    "OWNER",
    "EMPTY",
    "ORPHAN",
    "WRONG-OST",
];

const SHAPE: Shape = Shape {
    parents: 5,
    objects: 8,
    slots: 4,
    files: 5,
    fids: 8,
};

/// A case of random tables.
fn random_case(name: &str, random: &mut Random) -> Case {
    let (parents, objects) = to_bytes(&random_tables(SHAPE, random), random);
    let reserve: Vec<u8> = OBJECTS.iter().flat_map(|fid| fid.to_bytes()).collect();
    Case::with(name, &parents, &objects, &reserve)
}

#[test]
fn the_sample_has_every_class() {
    let case = Case::sample("sample-classes");
    let classes = case.json(&["classes"], 0);
    for class in CLASSES {
        assert!(classes.get("summary").number(class) > 0, "{class}");
    }
    let repairs: Vec<String> = classes
        .list("findings")
        .iter()
        .filter(|finding| finding.text("class") == "ORPHAN")
        .map(|finding| finding.text("repair").to_string())
        .collect();
    for way in ["a hole", "grow to", "make the file", "destroy the empty"] {
        assert!(repairs.iter().any(|repair| repair.contains(way)), "{way}");
    }
}

#[test]
fn a_sample_overwrites_nothing() {
    let case = Case::sample("sample-twice");
    let before = case.files();
    case.run(&["sample"]).expect_line(74, "already there");
    assert_eq!(case.files(), before);
}

#[test]
fn a_sample_makes_its_directory() {
    let case = Case::empty("sample-new");
    let inner = case.path().join("a").join("b");
    let mut command = std::process::Command::new(TOOL);
    let told: Told = command
        .arg("sample")
        .arg(&inner)
        .arg("--json")
        .output()
        .unwrap()
        .into();
    let json = crate::json::parse(&told.expect(0).out);
    assert_eq!(json.number("parent_rows"), 13);
    assert!(inner.join("parents.tbl").is_file());
}

#[test]
fn sound_tables_are_said_to_be_sound() {
    let case = Case::sample("check-sound");
    let told = case.run(&["check"]).expect(0);
    assert!(told.out.starts_with("The tables are sound.\n"), "{told:?}");
    let json = case.json(&["check"], 0);
    assert_eq!(json.get("sound"), &Value::Bool(true));
    assert_eq!(json.number("answer"), 0);
    assert!(json.list("faults").is_empty());
}

#[test]
fn every_row_at_fault_is_listed() {
    let case = Case::sample("check-faults");
    case.edit("parents.tbl", |bytes| {
        bytes[PARENT + 27] = 0;
        bytes[2 * PARENT + 25] = 57;
        bytes[8 * PARENT] = 7;
    });
    case.edit("objects.tbl", |bytes| {
        bytes[46 + 19] = 1;
        bytes.copy_within(1..17, 3 * 46 + 1);
        bytes[16 * 46 + 45] = 1;
        bytes[17 * 46 + 45] = 2;
    });
    case.edit("reserve.tbl", |bytes| bytes[8] = 0);
    let lines = [
        "parents.tbl row 1, layout magic 0xbd30b00: neither version 1 (0xbd10bd0) nor version 3 (0xbd30bd0) (13)",
        "parents.tbl row 2, layout length: 57 bytes, 2 slots need 80 (13)",
        "parents.tbl row 8, used mark: 7, neither 0 nor 1 (11)",
        "objects.tbl row 1, OST index 65537: at most 65535 (14)",
        "objects.tbl row 3, self FID [0x240000400:0x10:0x0]: row 0 has it as well (15)",
        "objects.tbl row 16, fresh mark: fresh, but without claim (14)",
        "objects.tbl row 17, fresh mark: 2, neither 0 nor 1 (11)",
        "reserve.tbl row 0, FID [0x240000400:0x0:0x0]: object id 0 (14)",
    ];
    let told = case.run(&["check"]).expect(2);
    let mut printed = told.out.lines();
    let first =
        "The tables are not sound: 11, table not whole rows, too long, or a mark not 0 or 1.";
    assert_eq!(printed.next(), Some(first));
    let listed: Vec<&str> = printed.map(str::trim_start).collect();
    // The last line is of the names.
    assert_eq!(listed[..listed.len() - 1], lines);
    let json = case.json(&["check"], 2);
    assert_eq!(json.number("answer"), 11);
    assert_eq!(json.list("faults").len(), lines.len());
    assert_eq!(json.list("faults")[0].number("row"), 1);
    for command in [&["classes"][..], &["run"], &["show", "1:1"]] {
        case.run(command).expect_line(2, "refused with 11");
    }
}

#[test]
fn the_positions_of_each_class_can_be_listed() {
    let case = Case::sample("classes-only");
    let summary = case.json(&["classes"], 0);
    for class in CLASSES {
        let count = summary.get("summary").number(class);
        let listed = case.json(&["classes", "--only", class], 0);
        let findings = listed.list("findings");
        assert_eq!(findings.len() as u64, count, "{class}");
        assert!(findings.iter().all(|it| it.text("class") == class));
        let told = case.run(&["classes", "--only", class]).expect(0);
        assert!(told.out.contains(class));
    }
}

#[test]
fn the_text_has_a_line_for_each_finding() {
    let case = Case::sample("classes-text");
    let json = case.json(&["classes"], 0);
    let told = case.run(&["classes"]).expect(0);
    let lines: Vec<&str> = told.out.lines().filter(|it| it.starts_with("  ")).collect();
    for finding in json.list("findings") {
        let has = |line: &str, name: &str| match finding.get(name) {
            Value::Text(text) => line.contains(text.as_str()),
            Value::Number(number) => line.contains(&number.to_string()),
            _ => true,
        };
        let names = ["file", "slot", "object", "class", "repair", "denial"];
        let matching = lines
            .iter()
            .filter(|line| names.iter().all(|name| has(line, name)));
        assert_eq!(matching.count(), 1, "{finding:?}");
    }
}

#[test]
fn classes_and_keepers_are_those_of_the_reference() {
    let mut random = Random::for_test("classes of the tool");
    for round in 0..40 {
        let case = random_case(&format!("classes-{round}"), &mut random);
        let site = oracle::site(&case);
        let mut expected = vec![Vec::new(); CLASSES.len()];
        for position in Position::all(site.tables()) {
            if let Some(class) = Class::at(&site, position) {
                expected[class.number() as usize].push((position, class));
            }
        }
        for (class, expected) in CLASSES.iter().zip(expected) {
            if expected.is_empty() && round > 0 {
                continue;
            }
            let listed = case.json(&["classes", "--only", class], 0);
            let listed = listed.list("findings");
            assert_eq!(listed.len(), expected.len());
            for (finding, (position, class)) in listed.iter().zip(expected) {
                expect_finding(finding, position, class, &site);
            }
        }
    }
}

fn expect_finding(finding: &Value, position: Position, class: Class, site: &reference::site::Site) {
    let numbers = ["stage", "row", "part"].map(|name| finding.number(name));
    assert_eq!(numbers, position.to_numbers());
    expect_osts(finding, position, site);
    if let Class::Unmatched(claim) = class {
        assert_eq!(finding.text("claimed_file"), fid_text(claim.parent));
        assert_eq!(finding.number("claimed_slot"), claim.index.into());
    }
    let named = match position {
        Position::Slot { row, slot } => {
            let place = reference::site::Place { row, slot };
            site.stripe(place).map(|stripe| stripe.object)
        }
        _ => None,
    };
    let Some((keeper, reason)) = named.and_then(|object| site.keeper(object)) else {
        return;
    };
    let parent = site.parent(keeper.row).expect("the keeper's file");
    assert_eq!(finding.text("keeper_file"), fid_text(parent.fid));
    assert_eq!(finding.number("keeper_slot"), keeper.slot as u64);
    let rule = match reason {
        Reason::ClaimedSlot => "claimed slot",
        Reason::ClaimedParent => "claimed file",
        Reason::ScanOrder => "scan order",
    };
    assert_eq!(finding.text("keeper_rule"), rule);
}

/// A finding tells the OST that its slot names, and the one that its object is on.
fn expect_osts(finding: &Value, position: Position, site: &reference::site::Site) {
    let (stripe, row) = match position {
        Position::Slot { row, slot } => {
            let stripe = site.stripe(reference::site::Place { row, slot });
            let object = stripe.and_then(|stripe| site.object_row(stripe.object));
            (stripe, object)
        }
        Position::Object { row } => (None, Some(row)),
        _ => (None, None),
    };
    let object = row.and_then(|row| site.object(row));
    let number = |ost: Option<u32>| ost.map_or(Value::Null, |ost| Value::Number(ost.into()));
    assert_eq!(*finding.get("slot_ost"), number(stripe.map(|it| it.ost)));
    assert_eq!(*finding.get("object_ost"), number(object.map(|it| it.ost)));
}

fn fid_text(fid: reference::fid::Fid) -> String {
    format!("[{:#x}:{:#x}:{:#x}]", fid.sequence, fid.id, fid.version)
}

#[test]
fn runs_are_those_of_the_reference() {
    let mut random = Random::for_test("runs of the tool");
    let mut answers = std::collections::BTreeSet::new();
    for round in 0..60 {
        let case = random_case(&format!("run-{round}"), &mut random);
        let steps = random.pick(&["0", "1", "5", "1000"]);
        let policy = random.below(4) as u64;
        let oracle = oracle::run(&case.files(), policy, steps.parse().unwrap());
        let mut words = vec!["run", "--steps", steps];
        words.extend((policy & 1 == 1).then_some("--create"));
        words.extend((policy & 2 == 2).then_some("--adopt"));
        let status = match oracle.answer {
            0 => 0,
            1 => 1,
            _ => 3,
        };
        let told = case.json(&words, status);
        assert_eq!(told.number("answer"), oracle.answer.into());
        let numbers = ["stage", "row", "part"].map(|name| told.number(name));
        assert_eq!(numbers, oracle.position);
        assert_eq!(told.number("steps_done"), oracle.report[0]);
        for (class, count) in COUNTED.iter().zip(&oracle.report[1..]) {
            assert_eq!(told.get("repairs").number(class), *count);
        }
        let changed = oracle.report[1..].iter().any(|&count| count > 0);
        assert_eq!(!told.list("changes").is_empty(), changed);
        oracle.expect_in(&case);
        answers.insert(oracle.answer);
    }
    for answer in [0, 1] {
        assert!(answers.contains(&answer), "{answers:?}");
    }
}

#[test]
fn a_run_to_the_end_leaves_nothing_to_do() {
    let case = Case::sample("run-end");
    let told = case.run(&["run", "--create", "--adopt"]).expect(0);
    assert!(told.out.ends_with("Answer 0: the end is reached.\n"));
    assert_eq!(told.err, "", "no bar in a pipe");
    let done = case.files();
    for words in [
        &["run", "--create", "--adopt"][..],
        &["run", "--create", "--adopt", "--from-start"],
    ] {
        let told = case.run(words).expect(0);
        assert!(told.out.contains("Nothing was changed.\n"), "{told:?}");
        assert_eq!(case.files(), done);
    }
    case.run(&["check"]).expect(0);
}

#[test]
fn steps_left_are_counted() {
    let case = Case::sample("run-steps");
    let words = ["run", "--create", "--adopt", "--steps"];
    let run = |steps| [&words[..], &[steps]].concat();
    let told = case.run(&run("20")).expect(1);
    let lines = "Steps: 20 done, 35 left.\nAnswer 1: the steps are used up; the next step is at ";
    assert!(told.out.contains(lines), "{told:?}");
    let told = case.run(&run("0")).expect(1);
    assert!(told.out.contains("Steps: 0 done, 35 left."), "{told:?}");
    case.run(&run("35")).expect(0);
}

/// E4 to E6, and a file to be made where no parent row is unused.
#[test]
fn what_runs_out_is_named_with_its_file() {
    let parents = [parent_row(1, &[0x10, 0x11]), parent_row(2, &[0x10])].concat();
    let objects = [object_row(0x10, (2, 0)), object_row(0x11, (1, 1))].concat();
    let run = ["run", "--create"];

    let case = Case::with("out-22", &parents, &objects, &object(0x20).to_bytes());
    let told = case.run(&run).expect(3);
    let line = "Answer 22: an object is to be made, and no object row is unused. \
                The run rests at slot 0 of [0x200000401:0x1:0x0].\n";
    assert!(told.out.ends_with(line), "{told:?}");
    assert_eq!(case.json(&run, 3).number("answer"), 22);

    let case = Case::with("out-21", &parents, &objects, &[]);
    let told = case.run(&run).expect(3);
    let line = "Answer 21: a slot is to be redirected, and no FID of the reserve can be used. \
                The run rests at slot 0 of [0x200000401:0x1:0x0].\n";
    assert!(told.out.ends_with(line), "{told:?}");

    let objects = object_row(0x30, (9, 2));
    let case = Case::with("out-23", &parent_row(1, &[]), &objects, &[]);
    let told = case.run(&["run", "--adopt"]).expect(3);
    let line = "Answer 23: a file is to be made, and no parent row is unused. \
                The run rests at object [0x240000400:0x30:0x0], which claims slot 2 of \
                [0x200000401:0x9:0x0].\n";
    assert!(told.out.ends_with(line), "{told:?}");
}

/// What is shown of a FID has these lines.
fn expect_shown(case: &Case, fid: &str, lines: &[&str]) {
    let told = case.run(&["show", fid]).expect(0).out;
    for line in lines {
        assert!(told.contains(line), "{line}: {told}");
    }
}

#[test]
fn a_file_is_shown_with_its_slots_and_rules() {
    let case = Case::sample("show-file");
    let three = [
        "File [0x200000401:0x3:0x0], parent row 2\n",
        "  owner 1001:100\n",
        "  slot 0: MULTIPLE, names [0x240000400:0x11:0x0] on OST 1, generation 0\n",
        "the keeper is slot 1 of [0x200000401:0x1:0x0]: the object claims that slot\n",
        "  slot 1: CLEAN, names [0x240000400:0x13:0x0] on OST 3, generation 0\n",
    ];
    expect_shown(&case, "[0x200000401:0x3:0x0]", &three);
    let five = [
        "the object is on OST 1, has owner 1001:100 and claims nothing\n",
        "this slot is the keeper: it is the first slot in scan order that names the object\n",
        "the object is on OST 2, has owner 1001:100 and claims slot 0 of [0x200000401:0x5:0x0]\n",
        "this slot is the keeper: it is the first slot that names the object in the claimed file\n",
        "the object is on OST 3, has owner 0:0 and claims slot 2 of [0x200000401:0x5:0x0]\n",
        "repair, always: write the owner 1001:100\n",
    ];
    expect_shown(&case, "0x200000401:5", &five);
    let absent = "      the object is absent\n";
    expect_shown(&case, "0x200000401:4", &[absent]);
    let fresh = "the object is fresh, on OST 2, has owner";
    expect_shown(&case, "0x200000401:7", &[fresh]);
    let claimant = "object [0x240000400:0x24:0x0] claims slot 0";
    expect_shown(&case, "0x200000401:8", &[claimant]);
}

#[test]
fn a_file_is_shown_to_machines_with_its_classes() {
    let case = Case::sample("show-file-json");
    let json = case.json(&["show", "0x200000401:5"], 0);
    let positions = json.get("file").list("positions");
    let classes: Vec<&str> = positions.iter().map(|it| it.text("class")).collect();
    assert_eq!(classes, ["CLEAN", "BLANK", "UNMATCHED", "OWNER"]);
    assert_eq!(json.get("object"), &Value::Null);
}

#[test]
fn an_object_is_shown_with_its_keeper() {
    let case = Case::sample("show-object");
    let lines = [
        "Object [0x240000400:0x11:0x0], object row 1\n",
        "  claims slot 1 of [0x200000401:0x1:0x0]\n",
        "  named by slot 1 of [0x200000401:0x1:0x0], on OST 1: CLEAN\n",
        "  named by slot 0 of [0x200000401:0x3:0x0], on OST 1: MULTIPLE\n",
        "  the keeper is slot 1 of [0x200000401:0x1:0x0]: the object claims this slot\n",
    ];
    expect_shown(&case, "[0x240000400:0x11:0x0]", &lines);
    let told = case.run(&["show", "0x240000400:0x25:0"]).expect(0);
    assert!(told.out.contains("CONFLICT"), "{told:?}");
    assert!(told.out.contains("  no slot names it\n"), "{told:?}");
    let json = case.json(&["show", "0x240000400:0x20"], 0);
    let position = json.get("object").get("position");
    assert_eq!(position.text("class"), "ORPHAN");
}

#[test]
fn what_is_absent_is_shown_as_far_as_it_is_known() {
    let case = Case::sample("show-absent");
    let told = case.run(&["show", "0x240000400:0x14"]).expect(0);
    assert!(
        told.out
            .starts_with("Object [0x240000400:0x14:0x0]: absent\n")
    );
    assert!(
        told.out
            .contains("named by slot 0 of [0x200000401:0x4:0x0], on OST 0: DANGLING\n")
    );
    let told = case.run(&["show", "0x200000401:9"]).expect(0);
    assert!(told.out.starts_with("File [0x200000401:0x9:0x0]: absent\n"));
    assert!(told.out.contains("make the file"), "{told:?}");
    let json = case.json(&["show", "0x200000401:9"], 0);
    assert_eq!(json.list("claimed_by").len(), 1);
    let told = case.run(&["show", "0x200000401:0x77"]);
    told.expect_line(2, "nothing in");
}

#[test]
fn there_is_help_for_every_command() {
    let help = |words: &[&str]| -> Told {
        let mut command = std::process::Command::new(TOOL);
        command.args(words).output().unwrap().into()
    };
    for words in [&["--help"][..], &["-h"], &["help"]] {
        let told = help(words).expect(0);
        assert!(told.out.starts_with("Usage: lfsck-offline COMMAND"));
    }
    for (command, place) in [
        ("sample", "DIR"),
        ("intake", "DIR"),
        ("check", "DIR"),
        ("classes", "DIR"),
        ("run", "DIR"),
        ("show", "DIR"),
        ("log", "DIR"),
        ("undo", "DIR"),
        ("convert", "DIR"),
        ("names", "DIR"),
        ("link", "FILE"),
    ] {
        let told = help(&[command, "--help"]).expect(0);
        let usage = format!("Usage: lfsck-offline {command} {place}");
        assert!(told.out.starts_with(&usage), "{told:?}");
        assert!(told.out.contains("--json"), "{told:?}");
    }
}

/// Every option of the help and every class is in the man page, and the other way round.
#[test]
fn the_man_page_has_what_the_help_has() {
    const PAGE: &str = concat!(env!("CARGO_MANIFEST_DIR"), "/../../docs/lfsck-offline.1");
    let page = std::fs::read_to_string(PAGE).expect("the man page");
    let options = |text: &str| -> std::collections::BTreeSet<String> {
        let words = text.split(|letter: char| !letter.is_ascii_alphanumeric() && letter != '-');
        let options = words.filter(|word| word.starts_with("--") && word.len() > 2);
        options.map(str::to_string).collect()
    };
    let mut help = String::new();
    for command in [
        "sample", "intake", "check", "classes", "run", "show", "log", "undo", "convert", "names",
        "link",
    ] {
        let mut tool = std::process::Command::new(TOOL);
        let told: Told = tool.args([command, "--help"]).output().unwrap().into();
        help += &told.expect(0).out;
        assert!(
            page.contains(&format!("\\fBlfsck-offline {command}\\fR")),
            "{command}"
        );
    }
    let told: Told = std::process::Command::new(TOOL)
        .arg("help")
        .output()
        .unwrap()
        .into();
    help += &told.expect(0).out;
    assert_eq!(options(&help), options(&page));
    for class in CLASSES {
        assert!(page.contains(class) && help.contains(class), "{class}");
    }
    for status in [0, 1, 2, 3, 4, 64, 74] {
        assert!(page.contains(&format!(".B {status}\n")), "{status}");
    }
}

/// The man page and the rules name the edition that the help names, and the page this version.
#[test]
fn the_documents_have_the_edition() {
    let document = |name: &str| {
        let path = concat!(env!("CARGO_MANIFEST_DIR"), "/../../docs/");
        std::fs::read_to_string(format!("{path}{name}")).expect(name)
    };
    let told: Told = std::process::Command::new(TOOL)
        .args(["run", "--help"])
        .output()
        .unwrap()
        .into();
    let (_, rest) = told.out.split_once("this is edition ").expect("an edition");
    let (edition, _) = rest.split_once('.').expect("its end");
    let version = env!("CARGO_PKG_VERSION");
    let words = format!("This version, {version}, keeps to edition {edition}, ");
    assert!(document("lfsck-offline.1").contains(&words), "{words}");
    let words = format!("These are the rules of **edition** {edition}.");
    assert!(document("RULES.md").contains(&words), "{words}");
}

/// What each command prints has somewhere to go, or not; a run is saved either way.
const PRINTERS: [(&[&str], i32); 6] = [
    (&["check"], 0),
    (&["classes"], 0),
    (&["names"], 0),
    (&["show", "0x200000401:3"], 0),
    (&["run", "--steps", "9"], 1),
    (&["run", "--json"], 0),
];

#[test]
fn a_reader_that_leaves_is_no_trouble() {
    let case = Case::sample("broken-pipe");
    let uncut = oracle::run(&case.files(), 0, u64::MAX);
    for (words, status) in PRINTERS {
        let mut command = case.command(words);
        let mut child = command
            .stdout(std::process::Stdio::piped())
            .stderr(std::process::Stdio::piped())
            .spawn()
            .unwrap();
        drop(child.stdout.take());
        let told: Told = child.wait_with_output().unwrap().into();
        assert_eq!(told.expect(status).err, "");
    }
    uncut.expect_in(&case);
}

#[test]
fn output_that_cannot_be_written_is_trouble_with_files() {
    let case = Case::sample("full-device");
    let uncut = oracle::run(&case.files(), 0, u64::MAX);
    for (words, _) in PRINTERS {
        let full = std::fs::File::options().write(true).open("/dev/full");
        let mut command = case.command(words);
        let told: Told = command.stdout(full.unwrap()).output().unwrap().into();
        let told = told.expect_line(74, "standard output");
        let saved = told.err.ends_with("; the run was saved\n");
        assert_eq!(saved, words[0] == "run", "{told:?}");
    }
    uncut.expect_in(&case);
    let full = std::fs::File::options().write(true).open("/dev/full");
    let mut command = case.command(&["run", "--adopt", "-n"]);
    let told: Told = command.stdout(full.unwrap()).output().unwrap().into();
    assert!(!told.expect(74).err.contains("saved"), "nothing was");
}

#[test]
fn steps_may_be_as_many_as_a_number_can_be() {
    let case = Case::sample("many-steps");
    let uncut = oracle::run(&case.files(), 3, u64::MAX);
    let most = u64::MAX.to_string();
    let told = case.json(&["run", "--create", "--adopt", "--steps", &most], 0);
    assert_eq!(told.number("steps_done"), uncut.report[0]);
    uncut.expect_in(&case);
    case.run(&["run", "--steps", "18446744073709551616"])
        .expect_line(64, "is no number of steps");
}

#[test]
fn only_a_run_changes_files() {
    let case = Case::sample("readers");
    case.run(&["run", "--steps", "9"]).expect(1);
    let before = case.files();
    for words in [
        &["check"][..],
        &["classes"],
        &["classes", "--only", "CLEAN"],
        &["show", "0x200000401:1"],
        &["names"],
        &["names", "--mend", "--dry-run"],
    ] {
        case.run(words).expect(0);
        case.json(words, 0);
    }
    assert_eq!(case.files(), before);
}
