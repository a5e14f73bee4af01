//! Random stripe sizes, and kinds of them.

use crate::Random;
use numbers::layout::{COUNT_AT, STRIPE_SIZE_AT, STRIPE_UNIT};
use numbers::parent;

/// The greatest number of units in a stripe size.
const MOST_UNITS: u32 = u32::MAX / STRIPE_UNIT;
/// The units in the stripe size of a file that a step makes.
const MADE_UNITS: u32 = 16;

/// The stripe size of a file that a step makes.
pub const MADE: u32 = MADE_UNITS * STRIPE_UNIT;

/// The kinds of good stripe sizes.
pub const GOOD: [&str; 4] = ["65,536", "1,048,576", "another good", "4,294,901,760"];

/// The kinds of stripe sizes that are none.
pub const BAD: [&str; 6] = ["0", "1", "65,535", "65,537", "another bad", "4,294,967,295"];

/// The kind of a stripe size.
pub fn kind_of(size: u32) -> &'static str {
    match size {
        0 => "0",
        1 => "1",
        65_535 => "65,535",
        65_536 => "65,536",
        65_537 => "65,537",
        MADE => "1,048,576",
        4_294_901_760 => "4,294,901,760",
        u32::MAX => "4,294,967,295",
        _ if size.is_multiple_of(STRIPE_UNIT) => "another good",
        _ => "another bad",
    }
}

/// The stripe sizes of the files in their rows; an unused row has none.
pub fn sizes(parents: &[u8]) -> impl Iterator<Item = Option<u32>> {
    parents.chunks_exact(parent::BYTES).map(|row| {
        let size = &row[parent::LAYOUT_AT..][STRIPE_SIZE_AT..COUNT_AT];
        (row[0] == 1).then(|| u32::from_le_bytes(size.try_into().expect("four bytes")))
    })
}

impl Random {
    /// A good stripe size: often the smallest, the greatest or that of a made file, else any.
    pub fn stripe_size(&mut self) -> u32 {
        let any = 1 + self.below(MOST_UNITS as usize) as u32;
        STRIPE_UNIT * self.pick(&[1, MOST_UNITS, MADE_UNITS, any, any, any])
    }

    /// A stripe size that is none: often 0 or next to a bound, else any that is no multiple.
    pub fn bad_stripe_size(&mut self) -> u32 {
        let past = 1 + self.below(STRIPE_UNIT as usize - 1) as u32;
        let any = self.any() as u32 / STRIPE_UNIT * STRIPE_UNIT + past;
        let one_bit = self.stripe_size() + (1 << self.below(16));
        let bounds = [1, STRIPE_UNIT - 1, STRIPE_UNIT + 1, u32::MAX];
        let bound = self.pick(&bounds);
        self.pick(&[0, 0, bound, bound, one_bit, any])
    }
}

#[cfg(test)]
mod tests {
    use super::*;

    const TIMES: usize = 1_000_000;

    #[test]
    fn good_sizes_are_multiples_over_the_whole_range() {
        let mut random = Random::for_test("good stripe sizes");
        let mut sizes: Vec<u32> = (0..TIMES).map(|_| random.stripe_size()).collect();
        assert!(sizes.iter().all(|size| size % 65_536 == 0));
        sizes.sort();
        sizes.dedup();
        assert_eq!([sizes[0], sizes[sizes.len() - 1]], [65_536, 4_294_901_760]);
        assert!(sizes.contains(&MADE) && sizes.len() > 65_000);
    }

    #[test]
    fn bad_sizes_are_0_or_no_multiples() {
        let mut random = Random::for_test("bad stripe sizes");
        let mut sizes: Vec<u32> = (0..TIMES).map(|_| random.bad_stripe_size()).collect();
        assert!(sizes.iter().all(|&size| size == 0 || size % 65_536 != 0));
        sizes.sort();
        sizes.dedup();
        for size in [0, 1, 65_535, 65_537, u32::MAX] {
            assert!(sizes.contains(&size), "{size}");
        }
    }
}
