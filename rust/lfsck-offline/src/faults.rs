//! Every fault of the tables, row by row, with the field and the reason.
//!
//! The library says whether tables pass, by the lowest number that applies. This list is for
//! the person who has to mend them; the tests hold it to the library's number.

use std::collections::HashMap;

use numbers::answer::{BAD_FID, BAD_LAYOUT, BAD_TABLE, FID_TWICE};
use numbers::layout::{
    COUNT_AT, HEADER_ONE, HEADER_THREE, HOLES, LAST_OST, MAGIC_AT, MAGIC_ONE, MAGIC_THREE,
    MOST_SLOTS, PATTERN_AT, PLAIN, SLOT_BYTES, SLOT_OST_AT, STRIPE_SIZE_AT, STRIPE_UNIT,
};
use numbers::object::{CLAIM_AT, FRESH_AT, OST_AT, SELF_AT};
use numbers::parent::{LAYOUT_AT, LENGTH_AT};

use crate::fid::{Fid, number16, number32};
use crate::narrow;
use crate::tables::{Table, Tables, Together};

/// Something that is wrong with a table.
#[derive(Clone, Debug, PartialEq, Eq)]
pub struct Fault {
    /// The number in document 01.
    pub number: u32,
    /// The table.
    pub table: Table,
    /// The row; none where the table as a whole is at fault.
    pub row: Option<usize>,
    /// The earlier row of the table that has the same FID, where that is the fault.
    pub other: Option<usize>,
    /// The field.
    pub field: String,
    /// What is wrong with it.
    pub reason: String,
}

/// The faults of one row.
struct Row<'list> {
    list: &'list mut Vec<Fault>,
    table: Table,
    row: usize,
}

impl Row<'_> {
    fn add(&mut self, number: u32, field: impl Into<String>, reason: impl Into<String>) {
        self.list.push(Fault {
            number,
            table: self.table,
            row: Some(self.row),
            other: None,
            field: field.into(),
            reason: reason.into(),
        });
    }

    /// The self FID is that of an earlier row.
    fn add_twice(&mut self, own: Fid, first: usize) {
        self.list.push(Fault {
            number: FID_TWICE,
            table: self.table,
            row: Some(self.row),
            other: Some(first),
            field: format!("self FID {own}"),
            reason: format!("row {first} has it as well"),
        });
    }
}

/// The self FIDs of the used rows that were read, with the row of each.
type Known = HashMap<Fid, usize>;

/// Everything that is wrong with the tables, table by table and row by row.
pub fn faults(tables: &Tables) -> Vec<Fault> {
    let mut list = Vec::new();
    for table in Table::ALL {
        let bytes = tables.of(table);
        list.extend(length_fault(table, bytes));
        if is_narrow(table, bytes) {
            continue;
        }
        let mut known = Known::new();
        for (row, bytes) in tables.rows(table).enumerate() {
            let mut row = Row {
                list: &mut list,
                table,
                row,
            };
            match table {
                Table::Parents => parent(&mut row, bytes, &mut known),
                Table::Objects => object(&mut row, bytes, &mut known),
                _ => fid(&mut row, "FID", Fid::read(bytes, 0)),
            }
        }
    }
    list
}

/// The rows are those of an edition before 2026-07, where no row of this one begins.
fn is_narrow(table: Table, bytes: &[u8]) -> bool {
    table == Table::Parents && narrow::rows(bytes).is_some()
}

/// Whole rows, and not too many.
pub fn length_fault(table: Table, bytes: &[u8]) -> Option<Fault> {
    let (size, most) = (table.row_bytes(), table.most_bytes());
    let reason = if is_narrow(table, bytes) {
        format!(
            "the rows have {} bytes, those of an edition with at most {} slots; \
             lfsck-offline convert DIR widens them to {size} bytes",
            narrow::BYTES,
            narrow::SLOTS
        )
    } else if bytes.len() > most {
        format!("the file is longer than {most} bytes, which are the most rows there may be")
    } else if !bytes.len().is_multiple_of(size) {
        let rest = match bytes.len() % size {
            1 => "1 byte".to_string(),
            rest => format!("{rest} bytes"),
        };
        format!("{rest} after the last whole row of {size} bytes")
    } else {
        return None;
    };
    Some(Fault {
        number: BAD_TABLE,
        table,
        row: None,
        other: None,
        field: "length".to_string(),
        reason,
    })
}

/// The used mark; whether the other fields are examined.
fn used(row: &mut Row, mark: u8) -> bool {
    if mark > 1 {
        row.add(BAD_TABLE, "used mark", format!("{mark}, neither 0 nor 1"));
    }
    mark == 1
}

fn fid(row: &mut Row, field: &str, fid: Fid) {
    if let Some(reason) = fid.fault() {
        row.add(BAD_FID, format!("{field} {fid}"), reason);
    }
}

/// A row's own FID: good, and no earlier row's.
fn own(row: &mut Row, bytes: &[u8], known: &mut Known) {
    let own = Fid::read(bytes, SELF_AT);
    fid(row, "self FID", own);
    let at = row.row;
    let first = *known.entry(own).or_insert(at);
    if first != at {
        row.add_twice(own, first);
    }
}

fn parent(row: &mut Row, bytes: &[u8], known: &mut Known) {
    if !used(row, bytes[0]) {
        return;
    }
    own(row, bytes, known);
    let length = usize::from(number16(bytes, LENGTH_AT));
    let room = &bytes[LAYOUT_AT..];
    match room.get(..length) {
        Some(bytes) => layout(row, bytes),
        None => {
            let reason = format!("{length} bytes, the room is {}", room.len());
            row.add(BAD_LAYOUT, "layout length", reason);
        }
    }
}

/// What is wrong with a stripe size that is not 0.
const NO_MULTIPLE: &str = "no multiple of 65,536";

/// The stripe size, also of a layout without slots.
fn stripe_size(row: &mut Row, size: u32) {
    let reason = match size {
        0 => "a stripe of no bytes",
        _ if size.is_multiple_of(STRIPE_UNIT) => return,
        _ => NO_MULTIPLE,
    };
    row.add(BAD_LAYOUT, format!("stripe size {size}"), reason);
}

/// A layout: magic, pattern, stripe size, count, length, slots.
fn layout(row: &mut Row, bytes: &[u8]) {
    if bytes.len() < HEADER_ONE {
        let reason = format!("{} bytes, a header alone is {HEADER_ONE}", bytes.len());
        row.add(BAD_LAYOUT, "layout length", reason);
        return;
    }
    let header = match number32(bytes, MAGIC_AT) {
        MAGIC_ONE => HEADER_ONE,
        MAGIC_THREE => HEADER_THREE,
        magic => {
            let reason =
                format!("neither version 1 ({MAGIC_ONE:#x}) nor version 3 ({MAGIC_THREE:#x})");
            row.add(BAD_LAYOUT, format!("layout magic {magic:#x}"), reason);
            return;
        }
    };
    let pattern = number32(bytes, PATTERN_AT);
    if pattern != PLAIN && pattern != HOLES {
        let reason = format!("neither {PLAIN:#x} nor {HOLES:#x} (with holes)");
        row.add(BAD_LAYOUT, format!("layout pattern {pattern:#x}"), reason);
    }
    stripe_size(row, number32(bytes, STRIPE_SIZE_AT));
    let count = usize::from(number16(bytes, COUNT_AT));
    if count > MOST_SLOTS {
        let field = format!("stripe count {count}");
        row.add(BAD_LAYOUT, field, format!("at most {MOST_SLOTS}"));
    }
    let wanted = header + SLOT_BYTES * count;
    if bytes.len() != wanted {
        let reason = format!("{} bytes, {count} slots need {wanted}", bytes.len());
        row.add(BAD_LAYOUT, "layout length", reason);
        return;
    }
    for (index, bytes) in bytes[header..].chunks(SLOT_BYTES).enumerate() {
        slot(row, index, bytes, pattern == HOLES);
    }
}

fn slot(row: &mut Row, index: usize, bytes: &[u8], holes_allowed: bool) {
    if bytes.iter().all(|&byte| byte == 0) {
        if !holes_allowed {
            let reason = "a hole, which the pattern does not allow";
            row.add(BAD_LAYOUT, format!("slot {index}"), reason);
        }
        return;
    }
    let fid = Fid::read(bytes, 0);
    if let Some(reason) = fid.fault() {
        row.add(
            BAD_LAYOUT,
            format!("slot {index}, object FID {fid}"),
            reason,
        );
    }
    let ost = number32(bytes, SLOT_OST_AT);
    if ost > LAST_OST {
        let field = format!("slot {index}, OST index {ost}");
        row.add(BAD_LAYOUT, field, format!("at most {LAST_OST}"));
    }
}

fn object(row: &mut Row, bytes: &[u8], known: &mut Known) {
    if !used(row, bytes[0]) {
        return;
    }
    own(row, bytes, known);
    let ost = number32(bytes, OST_AT);
    if ost > LAST_OST {
        let field = format!("OST index {ost}");
        row.add(BAD_FID, field, format!("at most {LAST_OST}"));
    }
    let claim = Fid::read(bytes, CLAIM_AT);
    let claims = claim != Fid::new(0, 0);
    if let Some(reason) = claim.number_fault().filter(|_| claims) {
        row.add(BAD_FID, format!("claim {claim}"), reason);
    }
    match bytes[FRESH_AT] {
        0 => (),
        1 if claims => (),
        1 => row.add(BAD_FID, "fresh mark", "fresh, but without claim"),
        mark => row.add(BAD_TABLE, "fresh mark", format!("{mark}, neither 0 nor 1")),
    }
}

#[cfg(test)]
mod tests {
    use super::*;
    use difftest::Random;
    use difftest::tables::{Shape, random_tables, to_bytes};

    const SHAPE: Shape = Shape {
        parents: 3,
        objects: 4,
        slots: 3,
        files: 3,
        fids: 4,
    };

    fn random_case(random: &mut Random) -> Tables {
        let (parents, objects) = to_bytes(&random_tables(SHAPE, random), random);
        let reserve = (0..random.below(4))
            .flat_map(|_| random.pick(&difftest::tables::OBJECTS).to_bytes())
            .collect();
        Tables {
            parents,
            objects,
            reserve,
        }
    }

    /// Stripe sizes, the bounds of good ones among them, with the fault of each.
    const SIZES: [(u32, Option<&str>); 8] = [
        (0, Some("a stripe of no bytes")),
        (1, Some(NO_MULTIPLE)),
        (65_535, Some(NO_MULTIPLE)),
        (65_536, None),
        (65_537, Some(NO_MULTIPLE)),
        (131_072, None),
        (4_294_901_760, None),
        (4_294_967_295, Some(NO_MULTIPLE)),
    ];

    /// Where a parent row has the stripe size.
    const SIZE_AT: usize = LAYOUT_AT + STRIPE_SIZE_AT;

    /// Puts a stripe size in any parent row.
    fn resize_stripes(parents: &mut [u8], random: &mut Random) {
        let rows = parents.len() / numbers::parent::BYTES;
        if rows > 0 {
            let at = random.below(rows) * numbers::parent::BYTES + SIZE_AT;
            let (size, _) = random.pick(&SIZES);
            parents[at..at + 4].copy_from_slice(&size.to_le_bytes());
        }
    }

    /// Puts any byte, or one that matters, in a place that a field has.
    fn damage(table: &mut Vec<u8>, size: usize, fields: usize, random: &mut Random) {
        if random.one_in(12) {
            let length = random.below(table.len() + 2);
            table.resize(length, 0);
            return;
        }
        if table.len() < size {
            return;
        }
        let row = random.below(table.len() / size);
        if random.one_in(6) {
            let from = random.below(table.len() / size) * size;
            table.copy_within(from + 1..from + numbers::fid::BYTES, row * size + 1);
            return;
        }
        let at = row * size + random.below(fields);
        let any = random.any() as u8;
        table[at] = random.pick(&[0, 1, 2, 32, 255, any]);
    }

    #[test]
    fn the_list_agrees_with_the_library() {
        let mut random = Random::for_test("faults");
        let mut met = HashMap::new();
        let mut sizes = 0;
        for _ in 0..60_000 {
            let mut tables = random_case(&mut random);
            for _ in 0..random.below(4) {
                match random.below(4) {
                    3 => resize_stripes(&mut tables.parents, &mut random),
                    0 => damage(
                        &mut tables.parents,
                        numbers::parent::BYTES,
                        110,
                        &mut random,
                    ),
                    1 => damage(&mut tables.objects, 46, 46, &mut random),
                    _ => damage(&mut tables.reserve, 16, 16, &mut random),
                }
            }
            let list = faults(&tables);
            let lowest = list.iter().map(|fault| fault.number).min().unwrap_or(0);
            assert_eq!(lowest, tables.check(), "{list:?}");
            *met.entry(lowest).or_insert(0) += 1;
            let of_size = |fault: &Fault| fault.field.starts_with("stripe size ");
            sizes += u32::from(list.len() == 1 && of_size(&list[0]));
        }
        println!("lowest numbers met: {met:?}, a stripe size alone: {sizes}");
        assert!(sizes > 1_000);
        for number in [0, BAD_TABLE, BAD_LAYOUT, BAD_FID, FID_TWICE] {
            assert!(met.get(&number).is_some_and(|&count| count > 100));
        }
    }

    /// A file of one parent row, with a layout of so many slots, all holes.
    fn file(header: usize, count: usize, size: u32) -> Tables {
        let mut row = vec![0; numbers::parent::BYTES];
        row[0] = 1;
        row[SELF_AT..SELF_AT + numbers::fid::BYTES]
            .copy_from_slice(&difftest::tables::FILES[0].to_bytes());
        let length = (header + SLOT_BYTES * count) as u16;
        row[LENGTH_AT..LAYOUT_AT].copy_from_slice(&length.to_le_bytes());
        let magic = match header {
            HEADER_ONE => MAGIC_ONE,
            _ => MAGIC_THREE,
        };
        let layout = &mut row[LAYOUT_AT..];
        layout[MAGIC_AT..MAGIC_AT + 4].copy_from_slice(&magic.to_le_bytes());
        layout[PATTERN_AT..PATTERN_AT + 4].copy_from_slice(&HOLES.to_le_bytes());
        layout[STRIPE_SIZE_AT..STRIPE_SIZE_AT + 4].copy_from_slice(&size.to_le_bytes());
        layout[COUNT_AT..COUNT_AT + 2].copy_from_slice(&(count as u16).to_le_bytes());
        Tables {
            parents: row,
            ..Tables::default()
        }
    }

    /// The fields and the reasons of the faults.
    fn told(tables: &Tables) -> Vec<(String, String)> {
        let told = |fault: Fault| {
            assert_eq!((fault.number, fault.row), (BAD_LAYOUT, Some(0)));
            (fault.field, fault.reason)
        };
        faults(tables).into_iter().map(told).collect()
    }

    /// Of both versions, with slots and without.
    #[test]
    fn a_stripe_size_is_a_multiple_above_0() {
        for (size, reason) in SIZES {
            let wanted = reason.map(|reason| (format!("stripe size {size}"), reason.to_string()));
            let number = wanted.as_ref().map_or(0, |_| BAD_LAYOUT);
            for header in [HEADER_ONE, HEADER_THREE] {
                for count in [0, 1, MOST_SLOTS] {
                    let tables = file(header, count, size);
                    assert_eq!(told(&tables), Vec::from_iter(wanted.clone()));
                    assert_eq!(tables.check(), number, "{size}, {count} slots");
                }
            }
        }
    }

    /// The reason says of what a size is a multiple.
    #[test]
    fn the_reason_has_the_unit() {
        let unit = format!("{},{:03}", STRIPE_UNIT / 1000, STRIPE_UNIT % 1000);
        assert_eq!(NO_MULTIPLE, format!("no multiple of {unit}"));
    }

    /// Beside the other faults of the layout it stands between pattern and count; an unused row has
    /// none, and neither has one whose header can't be read.
    #[test]
    fn a_stripe_size_is_told_beside_other_faults() {
        let mut tables = file(HEADER_ONE, 1, 0);
        tables.parents[LAYOUT_AT + PATTERN_AT] = 2;
        tables.parents[LAYOUT_AT + COUNT_AT + 1] = 255;
        let fields = |tables: &Tables| -> Vec<String> {
            told(tables).into_iter().map(|(field, _)| field).collect()
        };
        assert_eq!(
            fields(&tables),
            [
                "layout pattern 0x40000002",
                "stripe size 0",
                "stripe count 65281",
                "layout length"
            ]
        );
        tables.parents[LAYOUT_AT + MAGIC_AT] = 0;
        assert_eq!(fields(&tables), ["layout magic 0xbd10b00"]);
        tables.parents[LENGTH_AT] = 31;
        assert_eq!(fields(&tables), ["layout length"]);
        assert_eq!(tables.check(), BAD_LAYOUT);
        tables.parents[0] = 0;
        assert_eq!((told(&tables).len(), tables.check()), (0, 0));
    }

    #[test]
    fn a_table_that_is_too_long_is_named() {
        for table in Table::ALL {
            let mut tables = Tables::default();
            let bytes = vec![0; table.most_bytes() + 1];
            match table {
                Table::Parents => tables.parents = bytes,
                Table::Objects => tables.objects = bytes,
                _ => tables.reserve = bytes,
            }
            let fault = faults(&tables).remove(0);
            assert_eq!((fault.table, fault.number), (table, BAD_TABLE));
            assert_eq!(tables.check(), BAD_TABLE);
        }
    }
}
