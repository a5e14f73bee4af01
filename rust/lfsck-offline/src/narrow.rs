//! Parent rows of the editions before 2026-07, whose files had at most 160 slots.
//!
//! They are rows of this edition without the end of the room, so zeros at the end of each make
//! them such rows.

use numbers::layout::{HEADER_THREE, SLOT_BYTES};
use numbers::parent::{BYTES as WIDE, LAYOUT_AT, MOST};

/// The first edition with wider rows.
pub const BEFORE: &str = "2026-07";

/// The most slots of a file in those editions.
pub const SLOTS: usize = 160;

/// The bytes of a parent row of those editions.
pub const BYTES: usize = LAYOUT_AT + HEADER_THREE + SLOT_BYTES * SLOTS;

/// How many rows of those editions a parent table is; none where it is none of theirs. No length
/// is whole rows of theirs and of this one's: that would be 3,205 rows at least.
pub fn rows(parents: &[u8]) -> Option<usize> {
    let rows = parents.len() / BYTES;
    let whole = parents.len() == rows * BYTES && !parents.len().is_multiple_of(WIDE);
    (whole && (1..=MOST).contains(&rows)).then_some(rows)
}

/// The rows of those editions as rows of this one.
pub fn widened(parents: &[u8]) -> Vec<u8> {
    let mut wide = vec![0; parents.len() / BYTES * WIDE];
    let rows = parents.chunks_exact(BYTES);
    for (row, place) in rows.zip(wide.chunks_exact_mut(WIDE)) {
        place[..BYTES].copy_from_slice(row);
    }
    wide
}

#[cfg(test)]
mod tests {
    use numbers::answer::BAD_TABLE;

    use super::*;
    use crate::tables::Tables;

    /// Every table of those editions is one that the library refuses, and no table of this one is
    /// taken for one of theirs.
    #[test]
    fn the_library_refuses_every_table_of_those_editions() {
        assert_eq!((BYTES, WIDE), (3915, 48_075));
        let mut tables = Tables::default();
        for count in 1..=MOST {
            tables.parents.resize(count * BYTES, 0);
            assert_eq!(rows(&tables.parents), Some(count));
            assert_eq!(tables.check(), BAD_TABLE, "{count} rows");
        }
        let whole = vec![0; MOST * WIDE];
        for count in 0..=MOST {
            assert_eq!(rows(&whole[..count * WIDE]), None);
        }
    }

    #[test]
    fn other_lengths_are_no_such_table() {
        for length in [0, 1, BYTES - 1, BYTES + 1, (MOST + 1) * BYTES] {
            assert_eq!(rows(&vec![0; length]), None, "{length}");
        }
    }

    #[test]
    fn widened_rows_are_the_rows_and_zeros() {
        let narrow = [[1; BYTES], [2; BYTES]].concat();
        let zeros = [0; WIDE - BYTES];
        let wide = [&[1; BYTES][..], &zeros, &[2; BYTES], &zeros].concat();
        assert!(widened(&narrow) == wide);
    }
}
