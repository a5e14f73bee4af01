//! Why bytes are no linkEA: the first rule that is broken, and where.
//!
//! The library says whether they are one. This is for the person who has to find out what
//! happened to it; the tests hold it to the library's answer.

use std::fmt;

use numbers::link::{COUNT_AT, HEADER, LEAST_RECORD, MAGIC, MAGIC_AT, NAME_AT, TOTAL_AT};

use crate::fid::{number32, number64};

/// A broken rule; places count from the first byte.
#[derive(Clone, Copy, Debug, PartialEq, Eq)]
pub enum Fault {
    /// There are only so many bytes.
    ShortHeader(usize),
    /// The magic is this one.
    Magic(u32),
    /// The header says another total than there are bytes.
    Total {
        /// What it says.
        said: u64,
        /// How many there are.
        found: usize,
    },
    /// A record is broken.
    Record {
        /// Its place.
        place: usize,
        /// How.
        fault: RecordFault,
    },
    /// The header counts other records than there are.
    Count {
        /// What it says.
        said: u32,
        /// How many there are.
        found: usize,
    },
}

/// A broken rule of a record.
#[derive(Clone, Copy, Debug, PartialEq, Eq)]
pub enum RecordFault {
    /// It says this length, below the least.
    Short(usize),
    /// It says a length with which it goes past the end.
    PastEnd {
        /// What it says; nothing where only a byte of the length is there.
        length: Option<usize>,
        /// The end.
        end: usize,
    },
    /// Its name has a slash at a place.
    Slash(usize),
    /// Its name has a zero byte at a place.
    Zero(usize),
}

/// The first broken rule: of the header, then of each record, then of their count.
pub fn fault(bytes: &[u8]) -> Option<Fault> {
    let found = bytes.len();
    if found < HEADER {
        return Some(Fault::ShortHeader(found));
    }
    let magic = number32(bytes, MAGIC_AT);
    if magic != MAGIC {
        return Some(Fault::Magic(magic));
    }
    let said = number64(bytes, TOTAL_AT);
    if said != found as u64 {
        return Some(Fault::Total { said, found });
    }
    match walk(bytes) {
        Err(fault) => Some(fault),
        Ok(found) => {
            let said = number32(bytes, COUNT_AT);
            (said as usize != found).then_some(Fault::Count { said, found })
        }
    }
}

/// How many records there are.
fn walk(bytes: &[u8]) -> Result<usize, Fault> {
    let (mut place, mut found) = (HEADER, 0);
    while place < bytes.len() {
        let length = record(bytes, place);
        place += length.map_err(|fault| Fault::Record { place, fault })?;
        found += 1;
    }
    Ok(found)
}

/// The length of the record at a place.
fn record(bytes: &[u8], place: usize) -> Result<usize, RecordFault> {
    let end = bytes.len();
    let length = bytes[place..].first_chunk().copied();
    let length = length.map(|length| usize::from(u16::from_be_bytes(length)));
    let past = RecordFault::PastEnd { length, end };
    let length = length.ok_or(past)?;
    if length < LEAST_RECORD {
        return Err(RecordFault::Short(length));
    }
    let record = bytes.get(place..place + length).ok_or(past)?;
    let bad = |byte: &u8| *byte == b'/' || *byte == 0;
    match record[NAME_AT..].iter().position(bad) {
        None => Ok(length),
        Some(letter) => {
            let at = place + NAME_AT + letter;
            Err(match bytes[at] {
                0 => RecordFault::Zero(at),
                _ => RecordFault::Slash(at),
            })
        }
    }
}

impl fmt::Display for Fault {
    fn fmt(&self, out: &mut fmt::Formatter<'_>) -> fmt::Result {
        match *self {
            Fault::ShortHeader(found) => {
                write!(out, "header: only {found} of its {HEADER} bytes are there")
            }
            Fault::Magic(magic) => write!(out, "header, magic: {magic:#x}, not {MAGIC:#x}"),
            Fault::Total { said, found } => {
                write!(
                    out,
                    "header, total length: {said}, and there are {found} bytes"
                )
            }
            Fault::Record { place, fault } => write!(out, "record at {place}, {fault}"),
            Fault::Count { said, found } => {
                write!(
                    out,
                    "header, record count: {said}, and there are {found} records"
                )
            }
        }
    }
}

impl fmt::Display for RecordFault {
    fn fmt(&self, out: &mut fmt::Formatter<'_>) -> fmt::Result {
        match *self {
            RecordFault::Short(length) => write!(out, "length: {length}, below {LEAST_RECORD}"),
            RecordFault::PastEnd { length, end } => match length {
                Some(length) => write!(out, "length: {length}, past the end at {end}"),
                None => write!(out, "length: cut off by the end at {end}"),
            },
            RecordFault::Slash(at) => write!(out, "name: a slash at {at}"),
            RecordFault::Zero(at) => write!(out, "name: a zero byte at {at}"),
        }
    }
}

#[cfg(test)]
mod tests {
    use super::*;
    use difftest::{Coverage, Random};
    use numbers::answer::{BAD_LINK, OK};
    use reference::fid::Fid;
    use reference::link::{Fault as Rule, Link, Record};

    impl Fault {
        /// The reference's name of the rule.
        fn rule(self) -> Rule {
            match self {
                Fault::ShortHeader(_) => Rule::ShortHeader,
                Fault::Magic(_) => Rule::Magic,
                Fault::Total { .. } => Rule::Total,
                Fault::Record { fault, .. } => match fault {
                    RecordFault::Short(_) => Rule::RecordShort,
                    RecordFault::PastEnd { .. } => Rule::RecordPastEnd,
                    RecordFault::Slash(_) => Rule::Slash,
                    RecordFault::Zero(_) => Rule::Zero,
                },
                Fault::Count { said, found } if (said as usize) < found => Rule::CountTooSmall,
                Fault::Count { .. } => Rule::CountTooLarge,
            }
        }
    }

    fn sound(random: &mut Random) -> Vec<u8> {
        let mut record = |_| Record {
            parent: Fid::new(random.any(), 7),
            name: vec![b'n'; 1 + random.below(5)],
        };
        let records = (0..4).map(&mut record).collect();
        let link = Link {
            time: 1,
            padding: 2,
            records,
        };
        link.encode()
    }

    /// Bytes changed, cut, added and made to agree, one after another.
    fn damage(bytes: &mut Vec<u8>, random: &mut Random) {
        for _ in 0..1 + random.below(3) {
            match random.below(8) {
                0 => bytes.truncate(random.below(bytes.len() + 1)),
                1 => {
                    let more = 1 + random.below(25);
                    bytes.extend(random.bytes(more));
                }
                2 if bytes.len() >= 16 => {
                    let total = bytes.len() as u64;
                    bytes[8..16].copy_from_slice(&total.to_le_bytes());
                }
                _ if bytes.is_empty() => (),
                3 => {
                    let at = random.below(bytes.len());
                    bytes[at] = random.pick(&[0, b'/', 1, 18, 19, 20]);
                }
                _ => {
                    let at = random.below(bytes.len());
                    bytes[at] = bytes[at].wrapping_add(random.pick(&[1, 255]));
                }
            }
        }
    }

    /// A reason is told exactly where the library refuses, and it is one that holds.
    #[test]
    fn a_reason_is_told_where_the_library_refuses() {
        let mut random = Random::for_test("link faults");
        let mut met = Coverage::of(
            "reasons",
            [
                None,
                Some(Rule::ShortHeader),
                Some(Rule::Magic),
                Some(Rule::Total),
                Some(Rule::RecordShort),
                Some(Rule::RecordPastEnd),
                Some(Rule::Slash),
                Some(Rule::Zero),
                Some(Rule::CountTooSmall),
                Some(Rule::CountTooLarge),
            ],
        );
        for _ in 0..200_000 {
            let mut bytes = sound(&mut random);
            damage(&mut bytes, &mut random);
            let answer = lfsck_sys::link_read(&bytes, &mut [0; 4]);
            let fault = fault(&bytes);
            let expected = if fault.is_some() { BAD_LINK } else { OK };
            assert_eq!(answer, expected, "{fault:?} of {bytes:02x?}");
            let rule = fault.map(Fault::rule);
            if let Some(rule) = rule {
                let rules = Link::parse(&bytes).expect_err("the reference refuses too");
                assert!(rules.contains(&rule), "{fault:?} of {bytes:02x?}");
            }
            met.met(rule);
        }
        met.require(100);
    }

    /// What is told of bytes.
    fn told(bytes: &[u8]) -> String {
        fault(bytes).map_or(String::new(), |fault| fault.to_string())
    }

    /// What is told of them with another byte at a place.
    fn told_with(bytes: &[u8], at: usize, byte: u8) -> String {
        let mut bytes = bytes.to_vec();
        bytes[at] = byte;
        told(&bytes)
    }

    #[test]
    fn the_field_of_the_header_is_told() {
        let bytes = sound(&mut Random::new(1));
        let end = bytes.len();
        let words = "header, magic: 0x11eaf100, not 0x11eaf1df";
        assert_eq!(told_with(&bytes, 0, 0), words);
        let words = "header, record count: 5, and there are 4 records";
        assert_eq!(told_with(&bytes, 4, 5), words);
        let other = end | 256;
        let words = format!("header, total length: {other}, and there are {end} bytes");
        assert_eq!(told_with(&bytes, 9, 1), words);
        let words = "header: only 5 of its 24 bytes are there";
        assert_eq!(told(&bytes[..5]), words);
        assert_eq!(fault(&[]), Some(Fault::ShortHeader(0)));
    }

    #[test]
    fn the_place_of_the_record_is_told() {
        let bytes = sound(&mut Random::new(1));
        let link = Link::parse(&bytes).unwrap();
        let (third, record) = link.placed().nth(2).unwrap();
        let name = third + 18 + record.name.len() - 1;
        let (long, end) = (256 + record.length(), bytes.len());
        for (at, byte, words) in [
            (third + 1, 18, "length: 18, below 19".to_string()),
            (third, 1, format!("length: {long}, past the end at {end}")),
            (name, b'/', format!("name: a slash at {name}")),
            (name, 0, format!("name: a zero byte at {name}")),
        ] {
            let words = format!("record at {third}, {words}");
            assert_eq!(told_with(&bytes, at, byte), words);
        }
        let half = [&bytes[..8], &25_u64.to_le_bytes(), &[0; 9]].concat();
        let words = "record at 24, length: cut off by the end at 25";
        assert_eq!(told(&half), words);
    }
}
