//! A dump that getfattr printed, and the tables that it gives.

use reference::check::{Faults, faults};
use reference::intake::read;

const DUMP: &[u8] = include_bytes!("../../../tests/data/site/dump.txt");
const OWNERS: &[u8] = include_bytes!("../../../tests/data/site/owners.txt");
const PARENTS: &[u8] = include_bytes!("../../../tests/data/site/parents.tbl");
const OBJECTS: &[u8] = include_bytes!("../../../tests/data/site/objects.tbl");

#[test]
fn the_dump_gives_the_tables() {
    let (mut parents, mut objects) = (vec![0; PARENTS.len()], vec![0; OBJECTS.len()]);
    assert_eq!(read(DUMP, OWNERS, &mut parents, &mut objects), Ok(()));
    assert!(parents == PARENTS && objects == OBJECTS);
    assert_eq!(PARENTS.len() / 48_075, 4);
    assert_eq!(OBJECTS.len() / 46, 5);
    let used = |table: &[u8], size| table.chunks(size).all(|row| row[0] == 1);
    assert!(used(PARENTS, 48_075) && used(OBJECTS, 46));
    let found = faults(PARENTS, OBJECTS, b"", 0, [3, 0, 0]);
    assert_eq!(found, Faults::new());
}

/// Names with a blank, a newline and a backslash, and both forms of `trusted.fid`, stand in it.
#[test]
fn the_dump_has_what_it_is_to_show() {
    let text = str::from_utf8(DUMP).expect("a text");
    for part in [
        "# file: mdt/report 1.txt\n",
        "# file: mdt/new\\012line.dat\n",
        "# file: mdt/back\\134slash\n",
        "# file: mdt/# file: x\\012\\012trusted.lov=0x\n",
        "trusted.link=0x",
    ] {
        assert!(text.contains(part), "{part:?}");
    }
    let claims = text.lines().filter(|line| line.starts_with("trusted.fid="));
    let mut lengths: Vec<usize> = claims.map(|line| (line.len() - 14) / 2).collect();
    lengths.sort_unstable();
    assert_eq!(lengths, [16, 16, 16, 16, 32]);
    assert!(text.ends_with("\n\n"));
}
