//! Changes to the bytes of a linkEA.

use difftest::Random;
use reference::link::{Link, Record};

/// What is done to the bytes. Those that end in `Agreed` bring total or count along, so that one
/// condition is broken and no other.
#[derive(Clone, Copy, Debug, PartialEq, Eq, PartialOrd, Ord)]
pub enum Change {
    None,
    Cut,
    CutShort,
    CutAgreed,
    CutHeader,
    CutHeaderAgreed,
    Stretched,
    StretchedByRecord,
    StretchedByRecordAgreed,
    StretchedAgreed,
    HalfLengthAgreed,
    AnyByte,
    Magic,
    Count,
    Total,
    Time,
    Padding,
    RecordLength,
    LastLengthShort,
    LastLengthLong,
    LastShortAgreed,
    RecordLostAgreed,
    Parent,
    NameByte,
    Slash,
    Zero,
}

impl Change {
    pub const ALL: [Change; 26] = [
        Change::None,
        Change::Cut,
        Change::CutShort,
        Change::CutAgreed,
        Change::CutHeader,
        Change::CutHeaderAgreed,
        Change::Stretched,
        Change::StretchedByRecord,
        Change::StretchedByRecordAgreed,
        Change::StretchedAgreed,
        Change::HalfLengthAgreed,
        Change::AnyByte,
        Change::Magic,
        Change::Count,
        Change::Total,
        Change::Time,
        Change::Padding,
        Change::RecordLength,
        Change::LastLengthShort,
        Change::LastLengthLong,
        Change::LastShortAgreed,
        Change::RecordLostAgreed,
        Change::Parent,
        Change::NameByte,
        Change::Slash,
        Change::Zero,
    ];

    /// The bytes of the linkEA after the change.
    pub fn make(self, link: &Link, random: &mut Random) -> Vec<u8> {
        let mut bytes = link.encode();
        match self {
            Change::None => (),
            Change::Cut
            | Change::CutShort
            | Change::CutAgreed
            | Change::CutHeader
            | Change::CutHeaderAgreed => self.cut(&mut bytes, random),
            Change::Stretched
            | Change::StretchedAgreed
            | Change::StretchedByRecord
            | Change::StretchedByRecordAgreed
            | Change::HalfLengthAgreed => self.stretch(link, &mut bytes, random),
            Change::AnyByte => {
                let at = random.below(bytes.len());
                bytes[at] ^= 1 << random.below(8);
            }
            Change::Magic | Change::Count | Change::Total | Change::Time | Change::Padding => {
                self.make_in_header(&mut bytes, random);
            }
            _ => self.make_in_record(link, &mut bytes, random),
        }
        bytes
    }

    fn cut(self, bytes: &mut Vec<u8>, random: &mut Random) {
        match self {
            Change::Cut => bytes.truncate(random.below(bytes.len())),
            Change::CutShort => bytes.truncate(bytes.len() - 1 - random.below(20)),
            Change::CutAgreed => {
                bytes.truncate(24 + random.below(bytes.len() - 23));
                agree(bytes);
            }
            Change::CutHeader => bytes.truncate(random.below(24)),
            Change::CutHeaderAgreed => {
                bytes.truncate(24);
                let left = random.below(24);
                put(bytes, 4, &0_u32.to_le_bytes());
                put(bytes, 8, &(left as u64).to_le_bytes());
                bytes.truncate(left);
            }
            _ => unreachable!("{self:?} cuts nothing off"),
        }
    }

    fn stretch(self, link: &Link, bytes: &mut Vec<u8>, random: &mut Random) {
        match self {
            Change::Stretched | Change::StretchedAgreed => {
                let mut more = vec![0; 1 + random.below(30)];
                let from = random.pick(&[0, 1, 2]).min(more.len());
                random.fill(&mut more[from..]);
                bytes.extend(more);
            }
            Change::StretchedByRecord | Change::StretchedByRecordAgreed => {
                bytes.extend(last_record(link));
            }
            Change::HalfLengthAgreed => {
                bytes.push(random.pick(&[0, 1, 19, 255]));
                add_to_count(bytes, 1);
            }
            _ => unreachable!("{self:?} adds nothing"),
        }
        if !matches!(self, Change::Stretched | Change::StretchedByRecord) {
            agree(bytes);
        }
    }

    fn make_in_header(self, bytes: &mut [u8], random: &mut Random) {
        let total = bytes.len() as u64;
        match self {
            Change::Magic if random.one_in(2) => bytes[random.below(4)] ^= 1 << random.below(8),
            Change::Magic => put(
                bytes,
                0,
                &random
                    .pick(&[0x11EA_F1DF_u32.swap_bytes(), 0x0BD1_0BD0, 0, u32::MAX])
                    .to_le_bytes(),
            ),
            Change::Count if random.one_in(2) => {
                add_to_count(bytes, random.pick(&[1, u32::MAX, 2, 256, 1 << 24]));
            }
            Change::Count => {
                let any = random.any() as u32;
                let count = random.pick(&[0, 1, 3, 5, u32::MAX, any]);
                put(bytes, 4, &count.to_le_bytes());
            }
            Change::Total => {
                let other = random.pick(&[
                    total - 1,
                    total + 1,
                    total - 24,
                    total + (1 << 32),
                    total | 1 << 63,
                    total.swap_bytes(),
                    0,
                    24,
                    u64::MAX,
                ]);
                put(bytes, 8, &other.to_le_bytes());
            }
            Change::Time => random.fill(&mut bytes[16..20]),
            Change::Padding => random.fill(&mut bytes[20..24]),
            _ => unreachable!("{self:?} is no change to the header"),
        }
    }

    /// The place of the record to be changed and the record, if there is any.
    fn record_of<'link>(
        self,
        link: &'link Link,
        random: &mut Random,
    ) -> Option<(usize, &'link Record)> {
        let last = matches!(
            self,
            Change::LastLengthShort | Change::LastLengthLong | Change::LastShortAgreed
        );
        match link.records.len() {
            0 => None,
            count if last => link.placed().nth(count - 1),
            count => link.placed().nth(random.below(count)),
        }
    }

    /// A change to one record, if there is any.
    fn make_in_record(self, link: &Link, bytes: &mut Vec<u8>, random: &mut Random) {
        let Some((at, record)) = self.record_of(link, random) else {
            return;
        };
        let (length, name) = (record.length() as u16, at + 18..at + record.length());
        match self {
            Change::RecordLength | Change::LastLengthShort | Change::LastLengthLong => {
                put(bytes, at, &self.other_length(length, random).to_be_bytes());
            }
            Change::LastShortAgreed => {
                let short = random.pick(&[2_u16, 10, 17, 18, 18, 18]);
                put(bytes, at, &short.to_be_bytes());
                bytes.truncate(at + usize::from(short));
                agree(bytes);
            }
            Change::RecordLostAgreed => {
                bytes.drain(at..name.end);
                agree(bytes);
            }
            Change::Parent => random.fill(&mut bytes[at + 2..at + 18]),
            Change::NameByte => bytes[random.pick_in(name)] = random.any() as u8,
            Change::Slash => bytes[random.pick_in(name)] = b'/',
            Change::Zero => bytes[random.pick_in(name)] = 0,
            _ => unreachable!("{self:?} is no change to a record"),
        }
    }

    /// Another length of a record, too short or too long where the change says so.
    fn other_length(self, length: u16, random: &mut Random) -> u16 {
        match self {
            Change::LastLengthShort => random.below(19) as u16,
            Change::LastLengthLong => {
                length.saturating_add(random.pick(&[1, 2, 256, u16::MAX - length]))
            }
            _ => {
                let less = length.wrapping_sub(1);
                let more = length.wrapping_add(1);
                random.pick(&[
                    0,
                    1,
                    2,
                    18,
                    19,
                    20,
                    less,
                    more,
                    length.swap_bytes(),
                    u16::MAX,
                ])
            }
        }
    }
}

/// One of some places, the first and the last more often.
trait PickIn {
    fn pick_in(&mut self, places: std::ops::Range<usize>) -> usize;
}

impl PickIn for Random {
    fn pick_in(&mut self, places: std::ops::Range<usize>) -> usize {
        match self.below(4) {
            0 => places.start,
            1 => places.end - 1,
            _ => places.start + self.below(places.len()),
        }
    }
}

/// The bytes of the last record, or of any where there is none.
fn last_record(link: &Link) -> Vec<u8> {
    match link.placed().last() {
        Some((at, _)) => link.encode()[at..].to_vec(),
        None => [&[0, 20][..], &[7; 16], b"xy"].concat(),
    }
}

/// Makes the total the number of bytes.
fn agree(bytes: &mut [u8]) {
    let total = bytes.len() as u64;
    put(bytes, 8, &total.to_le_bytes());
}

fn add_to_count(bytes: &mut [u8], more: u32) {
    let count = u32::from_le_bytes([bytes[4], bytes[5], bytes[6], bytes[7]]);
    put(bytes, 4, &count.wrapping_add(more).to_le_bytes());
}

fn put(bytes: &mut [u8], at: usize, field: &[u8]) {
    bytes[at..at + field.len()].copy_from_slice(field);
}
