//! LinkEAs, the values of `trusted.link`: under which names, in which directories, a file stands.

use std::collections::BTreeSet;

use crate::fid::Fid;
use crate::take;

/// The magic.
pub const MAGIC: u32 = 0x11EA_F1DF;
/// The bytes before the records.
pub const HEADER_BYTES: usize = 24;
/// The bytes of a record before its name: length and parent.
pub const BEFORE_NAME: usize = 18;
/// The least length of a record.
pub const LEAST_RECORD: usize = 19;
/// The greatest length of a record.
pub const MOST_RECORD: usize = 65_535;

/// A name of the file.
#[derive(Clone, Debug, PartialEq, Eq)]
pub struct Record {
    /// The directory.
    pub parent: Fid,
    /// The name in it.
    pub name: Vec<u8>,
}

/// A linkEA. Its record count and total length follow from the records.
#[derive(Clone, Debug, PartialEq, Eq)]
pub struct Link {
    /// The overflow time.
    pub time: u32,
    /// The padding.
    pub padding: u32,
    /// The records in their order.
    pub records: Vec<Record>,
}

/// A condition under which bytes are no linkEA.
#[derive(Clone, Copy, Debug, PartialEq, Eq, PartialOrd, Ord)]
pub enum Fault {
    /// There are fewer bytes than a header has.
    ShortHeader,
    /// The magic is another.
    Magic,
    /// A record's length is below 19.
    RecordShort,
    /// A record goes past the end.
    RecordPastEnd,
    /// The header counts fewer records than there are.
    CountTooSmall,
    /// The header counts more records than there are.
    CountTooLarge,
    /// The total is not the number of bytes.
    Total,
    /// A name has a slash.
    Slash,
    /// A name has a zero byte.
    Zero,
}

/// Every condition that holds.
pub type Faults = BTreeSet<Fault>;

/// The records of some bytes, as far as one follows another.
struct Walk {
    /// Whole records, with names of any bytes.
    records: Vec<Record>,
    /// How many records begin, the one at which the walk ended included.
    begun: u64,
    faults: Faults,
}

impl Record {
    /// The length that the record says it has.
    pub fn length(&self) -> usize {
        BEFORE_NAME + self.name.len()
    }

    fn encode(&self, bytes: &mut Vec<u8>) {
        bytes.extend((self.length() as u16).to_be_bytes());
        bytes.extend(self.parent.sequence.to_be_bytes());
        bytes.extend(self.parent.id.to_be_bytes());
        bytes.extend(self.parent.version.to_be_bytes());
        bytes.extend(&self.name);
    }
}

impl Link {
    /// The linkEA that these bytes are, all of them.
    pub fn parse(bytes: &[u8]) -> Result<Link, Faults> {
        let walk = walk(bytes.get(HEADER_BYTES..).unwrap_or_default());
        let mut faults = walk.faults;
        let mut rest = bytes;
        let header = take_header(&mut rest, bytes.len() as u64, walk.begun, &mut faults);
        match header {
            None => {
                faults.insert(Fault::ShortHeader);
                Err(faults)
            }
            Some(_) if !faults.is_empty() => Err(faults),
            Some((time, padding)) => Ok(Link {
                time,
                padding,
                records: walk.records,
            }),
        }
    }

    /// The bytes of the linkEA.
    pub fn encode(&self) -> Vec<u8> {
        let total = self.total();
        let mut bytes = Vec::with_capacity(total);
        bytes.extend(MAGIC.to_le_bytes());
        bytes.extend((self.records.len() as u32).to_le_bytes());
        bytes.extend((total as u64).to_le_bytes());
        bytes.extend(self.time.to_le_bytes());
        bytes.extend(self.padding.to_le_bytes());
        for record in &self.records {
            record.encode(&mut bytes);
        }
        bytes
    }

    /// The total length.
    pub fn total(&self) -> usize {
        let lengths = self.records.iter().map(Record::length);
        HEADER_BYTES + lengths.sum::<usize>()
    }

    /// Each record with the place where it begins.
    pub fn placed(&self) -> impl Iterator<Item = (usize, &Record)> {
        let mut next = HEADER_BYTES;
        self.records.iter().map(move |record| {
            let place = next;
            next += record.length();
            (place, record)
        })
    }
}

/// Time and padding; `None` where bytes are missing. What is there of the rest is held to the
/// number of bytes and of records.
fn take_header(
    rest: &mut &[u8],
    bytes: u64,
    records: u64,
    faults: &mut Faults,
) -> Option<(u32, u32)> {
    if take::number32(rest)? != MAGIC {
        faults.insert(Fault::Magic);
    }
    let count = u64::from(take::number32(rest)?);
    if count < records {
        faults.insert(Fault::CountTooSmall);
    }
    if count > records {
        faults.insert(Fault::CountTooLarge);
    }
    if take::number64(rest)? != bytes {
        faults.insert(Fault::Total);
    }
    Some((take::number32(rest)?, take::number32(rest)?))
}

/// Takes records from the front of some bytes until none are left, or one is too short or goes
/// past the end: where another would begin cannot be told then.
fn walk(mut rest: &[u8]) -> Walk {
    let mut walk = Walk {
        records: Vec::new(),
        begun: 0,
        faults: Faults::new(),
    };
    while !rest.is_empty() {
        walk.begun += 1;
        let length = take::bytes(&mut &*rest).map(u16::from_be_bytes);
        let length = length.map(usize::from);
        if length.is_some_and(|length| length < LEAST_RECORD) {
            walk.faults.insert(Fault::RecordShort);
        }
        if length.is_none_or(|length| length > rest.len()) {
            walk.faults.insert(Fault::RecordPastEnd);
        }
        let whole = length.filter(|&length| length >= LEAST_RECORD);
        let Some((record, after)) = whole.and_then(|length| rest.split_at_checked(length)) else {
            break;
        };
        walk.add(record);
        rest = after;
    }
    walk
}

impl Walk {
    /// Adds a record of at least 19 bytes.
    fn add(&mut self, mut bytes: &[u8]) {
        let length: Option<[u8; 2]> = take::bytes(&mut bytes);
        let parent = length.and_then(|_| take_parent(&mut bytes));
        if let Some(parent) = parent {
            self.faults.extend(name_faults(bytes));
            let name = bytes.to_vec();
            self.records.push(Record { parent, name });
        }
    }
}

/// A FID whose fields are big-endian.
fn take_parent(rest: &mut &[u8]) -> Option<Fid> {
    Some(Fid {
        sequence: take::bytes(rest).map(u64::from_be_bytes)?,
        id: take::bytes(rest).map(u32::from_be_bytes)?,
        version: take::bytes(rest).map(u32::from_be_bytes)?,
    })
}

/// What is wrong with the bytes of a name.
pub fn name_faults(name: &[u8]) -> impl Iterator<Item = Fault> {
    let slash = name.contains(&b'/').then_some(Fault::Slash);
    let zero = name.contains(&0).then_some(Fault::Zero);
    slash.into_iter().chain(zero)
}

#[cfg(test)]
mod tests {
    use super::*;

    /// Three records, byte by byte: `a` in ROOT, `bc` and `..` in other directories.
    const THREE: &str = "dff1ea11 03000000 5300000000000000 78563412 01020304 \
                         0013 0000000200000007 00000001 00000000 61 \
                         0014 0000000200000401 0000000a 00000005 6263 \
                         0014 0123456789abcdef 01020304 05060708 2e2e";

    fn bytes_of(hex: &str) -> Vec<u8> {
        let digits: Vec<char> = hex.chars().filter(|c| !c.is_whitespace()).collect();
        let pairs = digits.chunks(2).map(|pair| pair.iter().collect::<String>());
        pairs
            .map(|pair| u8::from_str_radix(&pair, 16).unwrap())
            .collect()
    }

    fn record(sequence: u64, id: u32, version: u32, name: &[u8]) -> Record {
        Record {
            parent: Fid {
                sequence,
                id,
                version,
            },
            name: name.to_vec(),
        }
    }

    fn three() -> Link {
        Link {
            time: 0x1234_5678,
            padding: 0x0403_0201,
            records: vec![
                record(0x2_0000_0007, 1, 0, b"a"),
                record(0x2_0000_0401, 10, 5, b"bc"),
                record(0x0123_4567_89ab_cdef, 0x0102_0304, 0x0506_0708, b".."),
            ],
        }
    }

    /// What is wrong with the three records after a change.
    fn changed(change: impl FnOnce(&mut Vec<u8>)) -> Vec<Fault> {
        let mut bytes = bytes_of(THREE);
        change(&mut bytes);
        match Link::parse(&bytes) {
            Ok(_) => Vec::new(),
            Err(faults) => faults.into_iter().collect(),
        }
    }

    #[test]
    fn three_records_are_read_and_written() {
        let bytes = bytes_of(THREE);
        assert_eq!(bytes.len(), 83);
        assert_eq!(Link::parse(&bytes), Ok(three()));
        assert_eq!(three().encode(), bytes);
        let places: Vec<usize> = three().placed().map(|(place, _)| place).collect();
        assert_eq!(places, [24, 43, 63]);
    }

    #[test]
    fn a_header_alone_is_a_linkea() {
        let bytes = bytes_of("dff1ea11 00000000 1800000000000000 00000000 00000000");
        let link = Link::parse(&bytes).unwrap();
        assert!(link.records.is_empty());
        assert_eq!(link.encode(), bytes);
    }

    #[test]
    fn a_header_of_23_bytes_is_short_and_nothing_else() {
        for length in 0..24 {
            let mut bytes = bytes_of("dff1ea11 00000000 0000000000000000 00000000 00000000");
            bytes[8] = length;
            bytes.truncate(length.into());
            let faults = Link::parse(&bytes).unwrap_err();
            assert_eq!(faults, Faults::from([Fault::ShortHeader]), "{length}");
        }
    }

    #[test]
    fn each_condition_is_found_alone() {
        use Fault::*;
        assert_eq!(changed(|_| ()), []);
        assert_eq!(changed(|bytes| bytes[0] ^= 1), [Magic]);
        assert_eq!(changed(|bytes| bytes[4] = 2), [CountTooSmall]);
        assert_eq!(changed(|bytes| bytes[4] = 4), [CountTooLarge]);
        assert_eq!(changed(|bytes| bytes[7] = 1), [CountTooLarge]);
        assert_eq!(changed(|bytes| bytes[8] += 1), [Total]);
        assert_eq!(changed(|bytes| bytes[15] = 1), [Total]);
        // The last record, so that none is lost behind it.
        assert_eq!(changed(|bytes| bytes[64] = 18), [RecordShort]);
        assert_eq!(changed(|bytes| bytes[64] = 0), [RecordShort]);
        assert_eq!(changed(|bytes| bytes[64] = 21), [RecordPastEnd]);
        assert_eq!(changed(|bytes| bytes[63] = 0xff), [RecordPastEnd]);
        assert_eq!(changed(|bytes| bytes[42] = b'/'), [Slash]);
        assert_eq!(changed(|bytes| bytes[82] = 0), [Zero]);
    }

    #[test]
    fn several_conditions_are_all_found() {
        use Fault::*;
        // One byte of a length, which the header counts neither as byte nor as record.
        let one_more = changed(|bytes| bytes.push(0));
        assert_eq!(one_more, [RecordPastEnd, CountTooSmall, Total]);
        let cut = changed(|bytes| bytes.truncate(82));
        assert_eq!(cut, [RecordPastEnd, Total]);
        // Where a record is too short, those behind it are not found.
        let short = changed(|bytes| bytes[25] = 2);
        assert_eq!(short, [RecordShort, CountTooLarge]);
        let both = changed(|bytes| bytes[61..63].copy_from_slice(b"/\0"));
        assert_eq!(both, [Slash, Zero]);
        // A length that is both below 19 and past the end.
        let tail = changed(|bytes| bytes.extend([0, 5]));
        assert_eq!(tail, [RecordShort, RecordPastEnd, CountTooSmall, Total]);
    }

    #[test]
    fn names_may_be_of_any_other_bytes() {
        let mut link = three();
        link.records[1].name = (1..=255).filter(|&byte| byte != b'/').collect();
        link.records[2] = link.records[1].clone();
        assert_eq!(Link::parse(&link.encode()), Ok(link.clone()));
        link.records[0].name = vec![b'n'; 65_517];
        assert_eq!(link.records[0].length(), MOST_RECORD);
        assert_eq!(Link::parse(&link.encode()), Ok(link));
    }
}
