//! How many slots are compared to find a keeper: what `show` has from the library, and what
//! `classes` counts.

use difftest::Random;
use difftest::tables::{OBJECTS, Shape, random_tables, to_bytes};

use crate::bytes::{object_row, parent_row};
use crate::commands::CLASSES;
use crate::json::Value;
use crate::tool::Case;

/// Few files and objects, so that slots and claims meet.
const SHAPE: Shape = Shape {
    parents: 4,
    objects: 6,
    slots: 4,
    files: 3,
    fids: 6,
};

/// What `show` says of a FID.
fn shown(case: &Case, fid: &str) -> String {
    case.run(&["show", fid]).expect(0).out
}

/// Slots that name an object, slots compared for all, and the most for one.
fn sums(case: &Case, words: &[&str]) -> [u64; 3] {
    let told = case.json(&[&["classes", "--summary"], words].concat(), 0);
    ["slots", "sum", "greatest"].map(|name| told.get("compared").number(name))
}

/// The last line of a summary.
fn line(case: &Case, words: &[&str]) -> String {
    let told = case.run(&[&["classes", "--summary"], words].concat());
    let text = told.expect(0).out;
    text.lines().last().expect("a line").to_string()
}

/// The sample has 17 slots: 2 of file 1, 1 of file 2, 2 of file 3, 1 of file 4, 3 of file 5, and 8
/// after these. So 6 come before those of file 5.
///
/// - Slot 0 of file 5: the object claims nothing, and in scan order the 7th slot names it.
/// - Slot 1: the object claims slot 0, which is compared; then slots 0 and 1 of that file, and the
///   latter names it: 3.
/// - Slot 2: the object claims it, and only it is compared.
/// - File 4: the object is absent, and in scan order the 6th slot names it.
#[test]
fn a_file_is_shown_with_the_slots_compared() {
    let case = Case::sample("compared-file");
    let told = shown(&case, "0x200000401:5");
    let counts: Vec<&str> = told.lines().filter(|it| it.contains("compared")).collect();
    let expected = [
        "      7 slots compared to find the keeper",
        "      3 slots compared to find the keeper",
        "      1 slot compared to find the keeper",
    ];
    assert_eq!(counts, expected);
    let lines = "      this slot is the keeper: the object claims this slot\n      \
                 1 slot compared to find the keeper\n";
    assert!(told.contains(lines), "{told}");
    let lines = "      the object is absent\n      this slot is the keeper: it is the first slot \
                 in scan order that names the object\n      6 slots compared to find the keeper\n";
    assert!(shown(&case, "0x200000401:4").contains(lines));
    let json = case.json(&["show", "0x200000401:5"], 0);
    let positions = json.get("file").list("positions");
    let counts: Vec<&Value> = positions.iter().map(|it| it.get("compared")).collect();
    let number = Value::Number;
    assert_eq!(
        counts,
        [&Value::Null, &number(7), &number(3), &number(1)],
        "the header has none"
    );
}

/// A slot that does not keep its object tells what it costs to find the one that does, and a hole
/// tells nothing.
#[test]
fn multiple_slots_and_holes() {
    let case = Case::sample("compared-multiple");
    let told = shown(&case, "0x200000401:3");
    let lines =
        "the object claims that slot\n      1 slot compared to find the keeper\n      repair";
    assert!(told.contains(lines), "{told}");
    let told = shown(&case, "0x200000401:6");
    assert!(told.contains("  slot 1: HOLE\n  object"), "{told}");
    let json = case.json(&["show", "0x200000401:6"], 0);
    let positions = json.get("file").list("positions");
    assert_eq!(positions[2].get("compared"), &Value::Null);
}

/// Of an object that no slot names, all 17 slots in scan order come last. Before them:
///
/// - 0x20 claims slot 1 of file 6, a hole: 1, and the 2 slots of file 6.
/// - 0x21 claims slot 3 of file 6, which has 2: those 2.
/// - 0x22 claims file 9, which is absent, and 0x26 claims nothing.
/// - 0x24 claims slot 0 of file 8: 1, and the 1 slot of file 8.
#[test]
fn an_object_is_shown_with_the_slots_compared() {
    let case = Case::sample("compared-object");
    for (id, compared) in [
        (0x20, 1 + 2 + 17),
        (0x21, 2 + 17),
        (0x22, 17),
        (0x26, 17),
        (0x24, 1 + 1 + 17),
    ] {
        let fid = format!("0x240000400:{id:#x}");
        let lines =
            format!("  no slot names it\n  {compared} slots compared in search of a keeper\n");
        let told = shown(&case, &fid);
        assert!(told.ends_with(&lines), "{told}");
        let json = case.json(&["show", &fid], 0);
        let position = json.get("object").get("position");
        assert_eq!(position.number("compared"), compared, "{fid}");
    }
    let told = shown(&case, "0x240000400:0x11");
    let lines = "the object claims this slot\n  1 slot compared to find the keeper\n";
    assert!(told.ends_with(lines), "{told}");
    assert_eq!(told.matches("compared").count(), 1, "{told}");
    // The slots that name an absent object tell what it costs.
    let told = shown(&case, "0x240000400:0x14");
    assert!(told.ends_with("  6 slots compared to find the keeper\n"));
    let json = case.json(&["show", "0x240000400:0x14"], 0);
    assert_eq!(json.get("object"), &Value::Null);
    assert_eq!(json.list("named_by")[0].number("compared"), 6);
}

/// Two files, the second with slots 0x11 and 0x10, and 0x10 claims the slot of the other: that
/// one, then both slots of the file. The slot of the first file that names it as well is not
/// looked at.
#[test]
fn the_claimed_file_is_searched_after_the_claimed_slot() {
    let parents = [parent_row(1, &[0x10]), parent_row(2, &[0x11, 0x10])].concat();
    let objects = [object_row(0x10, (2, 0)), object_row(0x11, (2, 0))].concat();
    let case = Case::with("compared-claimed-file", &parents, &objects, &[]);
    let told = shown(&case, "0x240000400:0x10");
    let lines = "  the keeper is slot 1 of [0x200000401:0x2:0x0]: it is the first slot that names \
                 the object in the claimed file\n  3 slots compared to find the keeper\n";
    assert!(told.ends_with(lines), "{told}");
    // Two slots name it, and one names the object that claims it.
    assert_eq!(sums(&case, &[]), [3, 3 + 3 + 1, 3]);
}

/// The sample has 16 slots with an object. 12 cost 1; those of file 5 cost 7 and 3, the absent
/// objects of files 4 and 8 cost 6 and, in the 14th slot, 14.
#[test]
fn a_summary_has_the_sum_and_the_greatest() {
    let case = Case::sample("compared-summary");
    assert_eq!(sums(&case, &[]), [16, 12 + 7 + 3 + 6 + 14, 14]);
    let words = "Slots compared to find the keepers: 42 in all for 16 slots naming an object, \
                 at most 14 for one.";
    assert_eq!(line(&case, &[]), words);
    assert!(
        case.run(&["classes"])
            .expect(0)
            .out
            .ends_with(&format!("{words}\n"))
    );
    let whole = case.json(&["classes"], 0);
    assert_eq!(whole.get("compared").number("sum"), 42);
}

/// Only what is asked for is counted, whichever class is listed.
#[test]
fn a_summary_counts_the_slots_that_are_asked_for() {
    let case = Case::sample("compared-narrowed");
    assert_eq!(sums(&case, &["--file", "0x200000401:5"]), [3, 7 + 3 + 1, 7]);
    assert_eq!(sums(&case, &["--only", "SELF"]), [16, 42, 14]);
    // Two slots name it, and the object that they name is one row.
    assert_eq!(sums(&case, &["--object", "0x240000400:0x11"]), [2, 2, 1]);
    let words = "Slots compared to find the keepers: 6 in all for 1 slot naming an object, \
                 at most 6 for one.";
    assert_eq!(line(&case, &["--file", "0x200000401:4"]), words);
    // No slot names it.
    let alone = ["--object", "0x240000400:0x26"];
    assert_eq!(sums(&case, &alone), [0, 0, 0]);
    assert!(line(&case, &alone).starts_with("  SPARE"));
}

/// After a run to the end every slot costs one.
#[test]
fn a_clean_slot_costs_one() {
    let case = Case::sample("compared-clean");
    case.run(&["run", "--create", "--adopt"]).expect(0);
    assert_eq!(sums(&case, &[]), [19, 19, 1]);
}

/// The number that `show` has from the library is the one that `classes` counts, of every slot
/// and object, and the sums are theirs.
#[test]
fn show_and_classes_agree() {
    let mut random = Random::for_test("slots compared by the tool");
    let (mut slots, mut costly) = (0, 0);
    for round in 0..20 {
        let (parents, objects) = to_bytes(&random_tables(SHAPE, &mut random), &mut random);
        let case = Case::with(&format!("compared-{round}"), &parents, &objects, &[]);
        let mut told = Vec::new();
        for fid in OBJECTS {
            let fid = format!("{:#x}:{:#x}", fid.sequence, fid.id);
            let found = case.json(&with_every_class(&["classes", "--object", &fid]), 0);
            let findings = found.list("findings");
            if findings.is_empty() {
                continue;
            }
            let shown = case.json(&["show", &fid], 0);
            let compared = library_s(&shown);
            for finding in findings {
                assert_eq!(finding.number("compared"), compared, "{finding:?}");
                told.extend((finding.number("stage") == 1).then_some(compared));
            }
        }
        let greatest = told.iter().max().copied().unwrap_or(0);
        assert_eq!(
            sums(&case, &[]),
            [told.len() as u64, told.iter().sum(), greatest]
        );
        slots += told.len();
        costly += told.iter().filter(|count| **count > 1).count();
    }
    println!("{slots} slots, {costly} of them cost more than one");
    assert!(slots - costly >= 10 && costly >= 10);
}

/// What the library answered for the object that is shown.
fn library_s(shown: &Value) -> u64 {
    let object = shown.get("object");
    match object {
        Value::Null => shown.list("named_by")[0].number("compared"),
        _ => object.get("position").number("compared"),
    }
}

/// The words, and every class.
fn with_every_class<'word>(words: &[&'word str]) -> Vec<&'word str> {
    let only = CLASSES.iter().flat_map(|class| ["--only", class]);
    words.iter().copied().chain(only).collect()
}
