//! What the differential tests share: random numbers that can be repeated, and counts of what
//! a test has met.

pub mod dumps;
pub mod indices;
pub mod names;
pub mod stripes;
pub mod tables;

use std::collections::BTreeMap;

/// The seed of every test, unless the environment variable `DIFFTEST_SEED` has another.
const SEED: u64 = 0x9e37_79b9_7f4a_7c15;

/// Random numbers by xorshift; the same seed gives the same numbers.
#[derive(Clone, Debug)]
pub struct Random(u64);

impl Random {
    /// The numbers that follow from a seed.
    pub fn new(seed: u64) -> Random {
        Random(seed.max(1))
    }

    /// The numbers of a test, from the seed that is printed.
    pub fn for_test(name: &str) -> Random {
        let seed = match std::env::var("DIFFTEST_SEED") {
            Ok(text) => text.parse().expect("DIFFTEST_SEED is a number"),
            Err(_) => SEED,
        };
        println!("{name}: DIFFTEST_SEED={seed}");
        Random::new(seed)
    }

    /// Any number of 64 bits.
    pub fn any(&mut self) -> u64 {
        self.0 ^= self.0 >> 12;
        self.0 ^= self.0 << 25;
        self.0 ^= self.0 >> 27;
        self.0.wrapping_mul(0x2545_f491_4f6c_dd1d)
    }

    /// A number below `bound`.
    pub fn below(&mut self, bound: usize) -> usize {
        ((u128::from(self.any()) * bound as u128) >> 64) as usize
    }

    /// True once in `times`.
    pub fn one_in(&mut self, times: usize) -> bool {
        self.below(times) == 0
    }

    /// One of the items.
    pub fn pick<Item: Copy>(&mut self, items: &[Item]) -> Item {
        items[self.below(items.len())]
    }

    /// Bytes of any value.
    pub fn bytes(&mut self, count: usize) -> Vec<u8> {
        let mut bytes = vec![0; count];
        self.fill(&mut bytes);
        bytes
    }

    /// Fills some bytes with any values.
    pub fn fill(&mut self, bytes: &mut [u8]) {
        for part in bytes.chunks_mut(8) {
            part.copy_from_slice(&self.any().to_le_bytes()[..part.len()]);
        }
    }

    /// The items in another order.
    pub fn shuffle<Item>(&mut self, items: &mut [Item]) {
        for last in (1..items.len()).rev() {
            items.swap(last, self.below(last + 1));
        }
    }

    /// Numbers of any value.
    pub fn numbers(&mut self, count: usize) -> Vec<u64> {
        (0..count).map(|_| self.any()).collect()
    }
}

/// How often a test has met each thing that it is to meet.
#[derive(Debug)]
pub struct Coverage<Thing> {
    title: &'static str,
    counts: BTreeMap<Thing, u64>,
}

impl<Thing: Ord + std::fmt::Debug> Coverage<Thing> {
    /// Counts for the things that must be met, each still at none.
    pub fn of(title: &'static str, things: impl IntoIterator<Item = Thing>) -> Coverage<Thing> {
        let counts = things.into_iter().map(|thing| (thing, 0)).collect();
        Coverage { title, counts }
    }

    /// Counts one more of a thing that was announced.
    pub fn met(&mut self, thing: Thing) {
        match self.counts.get_mut(&thing) {
            Some(count) => *count += 1,
            None => panic!("{}: {thing:?} was not expected", self.title),
        }
    }

    /// Prints the counts, and fails where a thing was met less often than `least`.
    pub fn require(&self, least: u64) {
        println!("{}", self.line());
        for (thing, &count) in &self.counts {
            assert!(
                count >= least,
                "{}: {thing:?} met {count} times, at least {least} wanted",
                self.title
            );
        }
    }

    /// How many things were met in all.
    pub fn total(&self) -> u64 {
        self.counts.values().sum()
    }

    /// The counts in a line; of very many things only how many there are, and the least count.
    fn line(&self) -> String {
        let mut line = format!("{}:", self.title);
        if self.counts.len() > 64 {
            let least = self.counts.values().min().unwrap_or(&0);
            return format!(
                "{line} {} of them, each met {least} times or more",
                self.counts.len()
            );
        }
        for (thing, count) in &self.counts {
            line += &format!(" {thing:?} {count};");
        }
        line
    }
}
