//! The numbers are those of the C header.

use numbers::{answer, call, child, entry, intake, layout, link, names, object, parent, reserve};

const HEADER: &str = include_str!("../../../include/lfsck_layout.h");

/// The number that the header gives a name.
fn number_of(name: &str) -> u64 {
    let words: Vec<&str> = HEADER.split_whitespace().collect();
    let value = words.windows(3).find_map(|three| match three {
        [found, "=", value] if *found == name => Some((value.trim_end_matches(','), 10)),
        ["#define", found, value] if *found == name => value
            .strip_prefix("UINT64_C(0x")
            .map(|value| (value.trim_end_matches(')'), 16)),
        _ => None,
    });
    let (digits, radix) = value.unwrap_or_else(|| panic!("{name} is not in the header"));
    u64::from_str_radix(digits, radix).expect(name)
}

#[test]
fn sizes_and_limits() {
    for (name, number) in [
        ("LFSCK_PARENT_BYTES", parent::BYTES),
        ("LFSCK_OBJECT_BYTES", object::BYTES),
        ("LFSCK_RESERVE_BYTES", reserve::BYTES),
        ("LFSCK_PARENTS_MAX", parent::MOST),
        ("LFSCK_OBJECTS_MAX", object::MOST),
        ("LFSCK_RESERVE_MAX", reserve::MOST),
        ("LFSCK_SLOTS_MAX", layout::MOST_SLOTS),
        ("LFSCK_OST_MAX", layout::LAST_OST as usize),
        ("LFSCK_HEADER_V1", layout::HEADER_ONE),
        ("LFSCK_HEADER_V3", layout::HEADER_THREE),
        ("LFSCK_POOL_BYTES", layout::POOL_BYTES),
        ("LFSCK_SLOT_BYTES", layout::SLOT_BYTES),
        ("LFSCK_LAYOUT_BYTES", layout::MOST_BYTES),
        ("LFSCK_STRIPE_UNIT", layout::STRIPE_UNIT as usize),
        ("LFSCK_PATTERN_PLAIN", layout::PLAIN as usize),
        ("LFSCK_PATTERN_HOLES", layout::HOLES as usize),
        ("LFSCK_LINK_MAGIC", link::MAGIC as usize),
        ("LFSCK_LINK_HEADER", link::HEADER),
        ("LFSCK_RECORD_BEFORE", link::NAME_AT),
        ("LFSCK_NAME_BYTES", link::MOST_NAME),
        ("LFSCK_ENTRY_BYTES", entry::BYTES),
        ("LFSCK_CHILD_BYTES", child::BYTES),
        ("LFSCK_ENTRIES_MAX", entry::MOST),
        ("LFSCK_CHILDREN_MAX", child::MOST),
        ("LFSCK_ENTRY_NAME", entry::ROOM),
        ("LFSCK_LINK_ROOM", child::ROOM),
        ("LFSCK_LEVELS_MAX", names::MOST_LEVELS),
        ("LFSCK_WORKING_BYTES", names::WORKING),
        ("LFSCK_INTAKE_STATE", intake::STATE),
        ("LFSCK_PIECE_MAX", intake::MOST_PIECE),
    ] {
        assert_eq!(number as u64, number_of(name), "{name}");
    }
}

#[test]
fn what_calls_are_handed() {
    for (name, number) in [
        ("LFSCK_READ_FIELDS", call::HEADER_READ),
        ("LFSCK_WRITE_FIELDS", call::HEADER_WRITTEN),
        ("LFSCK_SLOT_NUMBERS", call::SLOT),
        ("LFSCK_POSITION_NUMBERS", call::POSITION),
        ("LFSCK_CLASS_NUMBERS", call::CLASS),
        ("LFSCK_KEEPER_NUMBERS", call::KEEPER),
        ("LFSCK_REPORT_NUMBERS", call::REPORT),
        ("LFSCK_WRITES_NUMBERS", call::WRITES),
        ("LFSCK_ROW_NUMBERS", call::ROW),
        ("LFSCK_LINK_FIELDS", call::LINK_HEADER),
        ("LFSCK_RECORD_READ", call::LINK_READ),
        ("LFSCK_RECORD_WRITE", call::LINK_WRITTEN),
        ("LFSCK_FINDING_NUMBERS", call::FINDING),
        ("LFSCK_MENDED_NUMBERS", call::MENDED),
        // The last of each.
        ("LFSCK_WRONG_OST", call::CLASSES - 1),
        ("LFSCK_REPORT_WRONG_OST", call::COUNTED),
    ] {
        assert_eq!(number as u64, number_of(name), "{name}");
    }
    for (name, number) in [
        ("LFSCK_CREATE", call::CREATE),
        ("LFSCK_ADOPT", call::ADOPT),
        ("LFSCK_TABLE_PARENTS", call::TABLE_PARENTS),
        ("LFSCK_TABLE_OBJECTS", call::TABLE_OBJECTS),
        ("LFSCK_STAGE_PARENTS", call::STAGE_PARENTS),
        ("LFSCK_STAGE_OBJECTS", call::STAGE_OBJECTS),
        ("LFSCK_STAGE_END", call::STAGE_END),
        ("LFSCK_ROOT_SEQUENCE", names::ROOT_SEQUENCE),
        ("LFSCK_ROOT_ID", names::ROOT_ID.into()),
        ("LFSCK_MARK_HIDDEN", names::HIDDEN),
        ("LFSCK_MARK_VISIBLE", names::VISIBLE),
        ("LFSCK_MARK_NO_FID", names::NO_FID),
    ] {
        assert_eq!(number, number_of(name), "{name}");
    }
}

#[test]
fn what_is_found_of_names() {
    for (name, number) in [
        ("LFSCK_FID_CONSISTENT", names::FID_CONSISTENT),
        ("LFSCK_FID_NO_DIRENT", names::FID_NO_DIRENT),
        ("LFSCK_FID_DIFFERS", names::FID_DIFFERS),
        ("LFSCK_FID_NO_SELF", names::FID_NO_SELF),
        ("LFSCK_FID_NEITHER", names::FID_NEITHER),
        ("LFSCK_RECORD_CONSISTENT", names::RECORD_CONSISTENT),
        ("LFSCK_RECORD_MISSING", names::RECORD_MISSING),
    ] {
        assert_eq!(number, number_of(name), "{name}");
    }
}

#[test]
fn answers() {
    for (name, number) in [
        ("LFSCK_OK", answer::OK),
        ("LFSCK_STEPS_USED", answer::STEPS_USED),
        ("LFSCK_BAD_TABLE", answer::BAD_TABLE),
        ("LFSCK_BAD_POLICY", answer::BAD_POLICY),
        ("LFSCK_BAD_LAYOUT", answer::BAD_LAYOUT),
        ("LFSCK_BAD_FID", answer::BAD_FID),
        ("LFSCK_FID_TWICE", answer::FID_TWICE),
        ("LFSCK_NO_POSITION", answer::NO_POSITION),
        ("LFSCK_NO_ROOM", answer::NO_ROOM),
        ("LFSCK_NO_RESERVE", answer::NO_RESERVE),
        ("LFSCK_NO_OBJECT_ROW", answer::NO_OBJECT_ROW),
        ("LFSCK_NO_PARENT_ROW", answer::NO_PARENT_ROW),
        ("LFSCK_BAD_LINK", answer::BAD_LINK),
        ("LFSCK_BAD_DUMP", answer::BAD_DUMP),
        ("LFSCK_ATTR_TWICE", answer::ATTRIBUTE_TWICE),
        ("LFSCK_NO_SELF", answer::NO_SELF),
        ("LFSCK_NO_KIND", answer::NO_KIND),
        ("LFSCK_NO_FIT", answer::NO_FIT),
        ("LFSCK_LINK_FULL", answer::LINK_FULL),
        ("LFSCK_LONG_CLIMB", answer::LONG_CLIMB),
    ] {
        assert_eq!(u64::from(number), number_of(name), "{name}");
    }
}
