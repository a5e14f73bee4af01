//! Random linkEAs, as a program that breaks no rule would write them.

use difftest::Random;
use reference::fid::Fid;
use reference::link::{Link, Record};

/// The longest name.
pub const LONGEST: usize = 65_517;
/// So many records are many.
pub const MANY: usize = 100;

/// A linkEA; a few have very many records or very long names.
pub fn random_link(random: &mut Random) -> Link {
    let count = match random.below(2500) {
        0 => MANY + random.below(150),
        1..250 => 0,
        _ => 1 + random.below(4),
    };
    random_link_of(count, random)
}

/// A linkEA of so many records.
pub fn random_link_of(count: usize, random: &mut Random) -> Link {
    let mut link = Link {
        time: random_number(random),
        padding: random_number(random),
        records: Vec::with_capacity(count),
    };
    for _ in 0..count {
        let record = match link.records.last() {
            Some(last) if random.one_in(8) => last.clone(),
            _ => random_record(count, random),
        };
        link.records.push(record);
    }
    link
}

fn random_record(count: usize, random: &mut Random) -> Record {
    Record {
        parent: Fid {
            sequence: match random.below(4) {
                0 => random.pick(&[0, 0x2_0000_0007, u64::MAX]),
                _ => random.any(),
            },
            id: random_number(random),
            version: random_number(random),
        },
        name: random_name(count, random),
    }
}

fn random_number(random: &mut Random) -> u32 {
    match random.below(4) {
        0 => 0,
        1 => u32::MAX,
        _ => random.any() as u32,
    }
}

fn random_name(count: usize, random: &mut Random) -> Vec<u8> {
    let length = match random.below(3000) {
        0 if count < MANY => LONGEST - random.pick(&[0, 0, 0, 1]),
        1..50 => 255,
        50..100 => 256,
        100..150 => 1 + random.below(600),
        150..900 => 1,
        _ => 2 + random.below(10),
    };
    if random.one_in(16) {
        return random
            .pick(&[&b"."[..], b"..", b"...", b" ", b"\\"])
            .to_vec();
    }
    let mut name = random.bytes(length);
    for byte in &mut name {
        // Neighbours of the two bytes that no name has, more often than others.
        *byte = match *byte {
            0 => 1,
            b'/' => b'.',
            b'a'..=b'f' => b'/' + 1,
            b'p'..=b's' => 0x80 | b'/',
            byte => byte,
        };
    }
    name
}

/// A place: of a record, of the end, near to one, or any.
pub fn random_place(link: &Link, random: &mut Random) -> u64 {
    let total = link.total() as u64;
    let near = match link.records.len() {
        0 => 24,
        count => {
            let which = random.below(count);
            link.placed().nth(which).map_or(24, |(place, _)| place) as u64
        }
    };
    match random.below(16) {
        0 => total,
        1 => near + 1,
        2 => near - 1,
        3 => near + 2 + random.below(30) as u64,
        4 => random.below(24) as u64,
        5 => total + 1 + random.below(30) as u64,
        6 => random.pick(&[u64::MAX, u64::MAX - 17, 1 << 63, 1 << 32]),
        7 => near + random.pick(&[1 << 32, 1 << 16, 1 << 63]),
        8 => random.any(),
        _ => near,
    }
}
