//! What a run says it changed is what differs in the files.

use difftest::tables::{OBJECTS, Shape, random_tables, to_bytes};
use difftest::{Coverage, Random};
use reference::check::read_tables;
use reference::fid::Fid;
use reference::layout::{HOLE_PATTERN, Layout, Stripe, Version};
use reference::tables::{Claim, Object, Owner, Parent, Tables};

use crate::bytes::{PARENT, object_row};
use crate::json::Value;
use crate::tool::Case;

const SHAPE: Shape = Shape {
    parents: 6,
    objects: 10,
    slots: 4,
    files: 6,
    fids: 10,
};

/// Every kind of change that a run makes.
const KINDS: [&str; 9] = [
    "file_made",
    "own_fid",
    "generation",
    "slot_count",
    "slot",
    "object_made",
    "object_destroyed",
    "claim",
    "owner",
];

/// The number in `0x` digits.
fn hexadecimal(text: &str) -> u64 {
    let digits = text.strip_prefix("0x").expect("0x");
    u64::from_str_radix(digits, 16).expect("digits")
}

fn fid(text: &str) -> Fid {
    let inner = text.trim_start_matches('[').trim_end_matches(']');
    let numbers: Vec<u64> = inner.split(':').map(hexadecimal).collect();
    assert_eq!(numbers[2], 0, "{text}");
    Fid::new(numbers[0], numbers[1] as u32)
}

fn owner(value: &Value) -> Owner {
    Owner {
        uid: value.number("uid") as u32,
        gid: value.number("gid") as u32,
    }
}

fn claim(value: &Value) -> Option<Claim> {
    let members = matches!(value, Value::Object(_));
    let claimed = members && *value.get("claimed_file") != Value::Null;
    claimed.then(|| Claim {
        parent: fid(value.text("claimed_file")),
        index: value.number("claimed_slot") as u32,
    })
}

fn stripe(value: &Value) -> Option<Stripe> {
    (*value != Value::Null).then(|| Stripe {
        object: fid(value.text("object")),
        generation: value.number("generation") as u32,
        ost: value.number("ost") as u32,
    })
}

fn object(change: &Value, value: &Value) -> Object {
    Object {
        fid: fid(change.text("object")),
        ost: value.number("ost") as u32,
        owner: owner(value),
        claim: claim(value),
        fresh: *value.get("fresh") == Value::Bool(true),
    }
}

/// A made file, its slots still holes.
fn parent(change: &Value, value: &Value) -> Parent {
    assert_eq!(value.number("version"), 1);
    Parent {
        fid: fid(change.text("file")),
        owner: owner(value),
        layout: Layout {
            version: Version::One,
            holes_allowed: value.number("pattern") == u64::from(HOLE_PATTERN),
            own_id: hexadecimal(value.text("own_id")),
            own_sequence: hexadecimal(value.text("own_sequence")),
            stripe_size: value.number("stripe_size") as u32,
            generation: value.number("generation") as u16,
            slots: vec![None; value.number("slots") as usize],
        },
    }
}

/// Puts the new value where the old one stands.
fn put<Of: PartialEq + std::fmt::Debug>(place: &mut Of, old: Of, new: Of) {
    assert_eq!(*place, old);
    assert_ne!(old, new);
    *place = new;
}

/// Makes a change of the list on the old tables.
fn make(change: &Value, tables: &mut Tables) {
    let row = change.number("row") as usize;
    let (old, new) = (change.get("old"), change.get("new"));
    match change.text("table") {
        "objects.tbl" => make_in_object(change, &mut tables.objects[row], old, new),
        "parents.tbl" if change.text("kind") == "file_made" => {
            put(&mut tables.parents[row], None, Some(parent(change, new)));
        }
        "parents.tbl" => {
            let parent = tables.parents[row].as_mut().expect("a file");
            assert_eq!(parent.fid, fid(change.text("file")));
            make_in_layout(change, &mut parent.layout, old, new);
        }
        other => panic!("{other}"),
    }
}

fn make_in_layout(change: &Value, layout: &mut Layout, old: &Value, new: &Value) {
    let own = |value: &Value| {
        let text = |name| hexadecimal(value.text(name));
        (text("own_sequence"), text("own_id"))
    };
    match (change.text("kind"), old, new) {
        ("own_fid", ..) => {
            let mut stands = (layout.own_sequence, layout.own_id);
            put(&mut stands, own(old), own(new));
            (layout.own_sequence, layout.own_id) = stands;
        }
        ("generation", Value::Number(old), Value::Number(new)) => {
            put(&mut layout.generation, *old as u16, *new as u16);
        }
        ("slot_count", Value::Number(old), Value::Number(new)) => {
            assert!(layout.slots.len() as u64 == *old && old < new);
            layout.slots.resize(*new as usize, None);
        }
        ("slot", ..) => {
            let slot = change.number("slot") as usize;
            put(&mut layout.slots[slot], stripe(old), stripe(new));
        }
        other => panic!("{other:?}"),
    }
}

fn make_in_object(change: &Value, row: &mut Option<Object>, old: &Value, new: &Value) {
    match change.text("kind") {
        "object_made" => put(row, None, Some(object(change, new))),
        "object_destroyed" => put(row, Some(object(change, old)), None),
        kind => {
            let row = row.as_mut().expect("an object");
            assert_eq!(row.fid, fid(change.text("object")));
            match kind {
                "claim" => put(&mut row.claim, claim(old), claim(new)),
                "owner" => put(&mut row.owner, owner(old), owner(new)),
                other => panic!("{other}"),
            }
        }
    }
}

fn tables(case: &Case) -> Tables {
    let (tables, faults) = read_tables(&case.read("parents.tbl"), &case.read("objects.tbl"));
    assert!(faults.is_empty());
    tables
}

/// Runs, and holds the list of changes to the difference of the tables: made on the old tables
/// one after the other, each on what it says stood there, they give the new ones.
fn expect_all_listed(case: &Case, words: &[&str], met: &mut Coverage<String>) {
    let words: Vec<&str> = words.iter().copied().chain(["--json"]).collect();
    let mut stand = tables(case);
    let told = case.run(&words);
    for change in crate::json::parse(&told.out).list("changes") {
        make(change, &mut stand);
        met.met(change.text("kind").to_string());
    }
    assert_eq!(stand, tables(case));
}

#[test]
fn every_change_is_listed() {
    let mut random = Random::for_test("changes of the tool");
    let mut met = Coverage::of("changes", KINDS.map(str::to_string));
    for round in 0..200 {
        let (parents, objects) = to_bytes(&random_tables(SHAPE, &mut random), &mut random);
        let objects = [objects, vec![0; 46 * random.below(4)]].concat();
        let reserve: Vec<u8> = OBJECTS.iter().flat_map(|fid| fid.to_bytes()).collect();
        let case = Case::with(&format!("changes-{round}"), &parents, &objects, &reserve);
        let steps = random.pick(&["3", "9", "1000"]);
        let policies: [&[&str]; 3] = [&["--create", "--adopt"], &["--adopt"], &[]];
        let words = [&["run", "--steps", steps][..], random.pick(&policies)].concat();
        expect_all_listed(&case, &words, &mut met);
        expect_all_listed(&case, &["run", "--create", "--adopt"], &mut met);
    }
    met.require(5);
}

/// Three objects that claim slots of one absent file: a line for the file and one for each slot.
/// The file is made with one slot, and grows twice.
#[test]
fn every_slot_of_a_made_file_is_listed() {
    let objects: Vec<u8> = (0..3)
        .flat_map(|slot| object_row(1 + slot, (9, slot)))
        .collect();
    let case = Case::with("made-file", &[0; PARENT], &objects, &[]);
    let before = case.files();
    let told = case.run(&["run", "--adopt"]).expect(0);
    let lines = "Changed:
  [0x200000401:0x9:0x0]       -  -                        file made, owner 500:600, 3 slots, generation 2
  [0x200000401:0x9:0x0]       0  [0x240000400:0x1:0x0]    slot names this object now, where there was none
  [0x200000401:0x9:0x0]       1  [0x240000400:0x2:0x0]    slot names this object now, where there was none
  [0x200000401:0x9:0x0]       2  [0x240000400:0x3:0x0]    slot names this object now, where there was none
Repairs: ORPHAN 3.\n";
    assert!(told.out.contains(lines), "{}", told.out);
    case.restore(&before);
    let report = case.json(&["run", "--adopt"], 0);
    let kinds: Vec<&str> = report
        .list("changes")
        .iter()
        .map(|change| change.text("kind"))
        .collect();
    assert_eq!(kinds, ["file_made", "slot", "slot", "slot"]);
}

/// The members that every change has, and the words for people beside them.
#[test]
fn a_change_has_its_kind_and_values() {
    let case = Case::sample("change-members");
    let report = case.json(&["run", "--create", "--adopt"], 0);
    let list = report.list("changes");
    let find = |kind: &str, slot: u64| {
        let mut changes = list.iter();
        changes
            .find(|it| it.text("kind") == kind && *it.get("slot") == Value::Number(slot))
            .expect(kind)
    };
    let owner = find("owner", 2);
    assert_eq!(owner.text("file"), "[0x200000401:0x5:0x0]");
    assert_eq!(owner.text("object"), "[0x240000400:0x17:0x0]");
    assert_eq!(owner.get("old").number("uid"), 0);
    assert_eq!(owner.get("new").number("uid"), 1001);
    let slot = find("slot", 0);
    assert_eq!(slot.get("old").text("object"), "[0x240000400:0x11:0x0]");
    assert_eq!(slot.get("new").text("object"), "[0x240000400:0x80:0x0]");
    let claim = find("claim", 0);
    assert_eq!(claim.get("old"), &Value::Null);
    assert_eq!(claim.get("new").number("claimed_slot"), 0);
}
