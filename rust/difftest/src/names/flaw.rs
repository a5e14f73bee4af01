//! What can be wrong with what a call is lent.

use super::{FIDS, Lent};
use crate::Random;
use numbers::call::{FINDING, MENDED};
use numbers::link::{COUNT_AT, HEADER, NAME_AT, TOTAL_AT};
use numbers::names::{NO_FID, WORKING};
use numbers::{child, entry};
use reference::link::{Fault, Link, Record};

/// A function.
#[derive(Clone, Copy, Debug, PartialEq, Eq, PartialOrd, Ord)]
pub enum Call {
    /// Judges.
    Judge,
    /// Tells the findings.
    Find,
    /// Mends under marks.
    Mend,
    /// Judges and mends.
    Pass,
}

impl Call {
    /// All of them.
    pub const ALL: [Call; 4] = [Call::Judge, Call::Find, Call::Mend, Call::Pass];
}

/// A flaw that refuses a call.
#[derive(Clone, Copy, Debug, PartialEq, Eq, PartialOrd, Ord)]
pub enum Flaw {
    /// The entries are not whole rows.
    EntriesCut,
    /// The children are not whole rows.
    ChildrenCut,
    /// Fewer marks than rows are handed to a mending.
    MarksFew,
    /// More marks than rows are.
    MarksMany,
    /// A mark is none.
    MarkAbove,
    /// A row without self FID is marked as a directory.
    MarkOfNone,
    /// A child's row is at or past the rows.
    ChildRow,
    /// A name is empty.
    NameEmpty,
    /// A name is longer than its room.
    NameLong,
    /// A name has a slash.
    NameSlash,
    /// A name has a zero byte.
    NameZero,
    /// A linkEA is longer than its room.
    LinkLong,
    /// Bytes are no linkEA, for this reason.
    Link(Fault),
    /// The index is too short.
    IndexShort,
    /// The room is too short.
    RoomShort,
    /// There are too few places for the marks.
    MarksShort,
    /// There are too few places for the findings.
    FindingsShort,
    /// There are too few places for the report.
    ReportShort,
}

/// The numbers of refusals in their order.
const ORDER: [u32; 4] = [11, 16, 31, 17];

impl Flaw {
    /// All of them.
    pub const ALL: [Flaw; 26] = [
        Flaw::EntriesCut,
        Flaw::ChildrenCut,
        Flaw::MarksFew,
        Flaw::MarksMany,
        Flaw::MarkAbove,
        Flaw::MarkOfNone,
        Flaw::ChildRow,
        Flaw::NameEmpty,
        Flaw::NameLong,
        Flaw::NameSlash,
        Flaw::NameZero,
        Flaw::LinkLong,
        Flaw::Link(Fault::ShortHeader),
        Flaw::Link(Fault::Magic),
        Flaw::Link(Fault::RecordShort),
        Flaw::Link(Fault::RecordPastEnd),
        Flaw::Link(Fault::CountTooSmall),
        Flaw::Link(Fault::CountTooLarge),
        Flaw::Link(Fault::Total),
        Flaw::Link(Fault::Slash),
        Flaw::Link(Fault::Zero),
        Flaw::IndexShort,
        Flaw::RoomShort,
        Flaw::MarksShort,
        Flaw::FindingsShort,
        Flaw::ReportShort,
    ];

    /// The number that it has alone.
    pub fn number(self) -> u32 {
        use Flaw::*;
        match self {
            EntriesCut | ChildrenCut | MarksFew | MarksMany | MarkAbove | MarkOfNone => 11,
            ChildRow => 16,
            NameEmpty | NameLong | NameSlash | NameZero | LinkLong | Link(_) => 31,
            IndexShort | RoomShort | MarksShort | FindingsShort | ReportShort => 17,
        }
    }

    /// Whether a function sees it.
    pub fn is_seen_by(self, call: Call) -> bool {
        use Flaw::*;
        match self {
            MarksFew | MarksMany | MarkAbove | MarkOfNone => call == Call::Mend,
            IndexShort | RoomShort => call != Call::Find,
            MarksShort => matches!(call, Call::Judge | Call::Pass),
            FindingsShort => call == Call::Find,
            ReportShort => matches!(call, Call::Mend | Call::Pass),
            _ => true,
        }
    }

    /// The number that a call with these flaws is refused with, if it is.
    pub fn refusal(flaws: &[Flaw], call: Call) -> Option<u32> {
        let applies = |number: &u32| {
            let mut seen = flaws.iter().filter(|flaw| flaw.is_seen_by(call));
            seen.any(|flaw| flaw.number() == *number)
        };
        ORDER.into_iter().find(applies)
    }

    /// Puts it in what is lent; false where there is no row or place for it.
    pub fn put(self, lent: &mut Lent, random: &mut Random) -> bool {
        use Flaw::*;
        match self {
            EntriesCut => cut(&mut lent.entries, entry::BYTES, random),
            ChildrenCut => cut(&mut lent.children, child::BYTES, random),
            MarksFew | MarksMany | MarkAbove | MarkOfNone => self.put_in_marks(lent, random),
            ChildRow | NameEmpty | NameLong | NameSlash | NameZero => {
                let rows = lent.children.len() / child::BYTES;
                let entry = pick_row(&mut lent.entries, entry::BYTES, random);
                entry.is_some_and(|row| self.put_in_entry(row, rows, random))
            }
            LinkLong | Link(_) => {
                let child = pick_row(&mut lent.children, child::BYTES, random);
                child.is_some_and(|row| self.put_in_child(row, random))
            }
            _ => self.shorten(lent, random),
        }
    }

    fn put_in_marks(self, lent: &mut Lent, random: &mut Random) -> bool {
        let rows = lent.children.len() / child::BYTES;
        match self {
            Flaw::MarksFew => return shorten(&mut lent.handed, rows, random),
            Flaw::MarksMany => lent.handed.resize(rows + 1, random.pick(&[0, 1, 2])),
            Flaw::MarkAbove if lent.handed.is_empty() => return false,
            Flaw::MarkAbove => {
                let at = random.below(lent.handed.len());
                lent.handed[at] = random.pick(&[3, 4, 1 << 32, 1 << 32 | 1, u64::MAX]);
            }
            _ => {
                let rows = lent.children.chunks_exact(child::BYTES);
                let rows = rows.zip(&mut lent.handed);
                let mut nameless = rows.filter(|(row, _)| is_zero(&row[..child::UP_AT]));
                let Some((_, mark)) = nameless.next() else {
                    return false;
                };
                *mark = random.below(NO_FID as usize) as u64;
            }
        }
        true
    }

    fn put_in_entry(self, row: &mut [u8], rows: usize, random: &mut Random) -> bool {
        let length = usize::from(row[entry::LENGTH_AT]);
        match self {
            Flaw::ChildRow => {
                let past = random.pick(&[rows as u32, rows as u32 + 1, 65_536, u32::MAX]);
                put(row, entry::CHILD_AT, &past.to_le_bytes());
            }
            Flaw::NameEmpty => put(row, entry::LENGTH_AT, &[0, 0]),
            Flaw::NameLong => {
                let long = random.pick(&[256_u16, 257, 512, u16::MAX]);
                put(row, entry::LENGTH_AT, &long.to_le_bytes());
            }
            // A name that another flaw has emptied.
            _ if length == 0 => return false,
            _ => {
                let any = random.below(length);
                let at = random.pick(&[0, length - 1, any]);
                row[entry::NAME_AT + at] = if self == Flaw::NameSlash { b'/' } else { 0 };
            }
        }
        true
    }

    fn put_in_child(self, row: &mut [u8], random: &mut Random) -> bool {
        let Flaw::Link(fault) = self else {
            let long = random.pick(&[4097_u16, 4098, 8192, u16::MAX]);
            put(row, child::LENGTH_AT, &long.to_le_bytes());
            return true;
        };
        let bytes = bad_link(fault, random);
        put(row, child::LENGTH_AT, &(bytes.len() as u16).to_le_bytes());
        put(row, child::LINK_AT, &bytes);
        true
    }

    /// Leaves too few places.
    fn shorten(self, lent: &mut Lent, random: &mut Random) -> bool {
        let working = WORKING * lent.rows();
        let children = lent.children.len() / child::BYTES;
        let entries = lent.entries.len() / entry::BYTES;
        match self {
            Flaw::IndexShort => shorten(&mut lent.index, working, random),
            Flaw::RoomShort => shorten(&mut lent.room, working, random),
            Flaw::MarksShort => shorten(&mut lent.marks, children, random),
            Flaw::FindingsShort => shorten(&mut lent.findings, FINDING * entries, random),
            _ => shorten(&mut lent.report, MENDED, random),
        }
    }
}

/// A byte too many or too few, once.
fn cut(table: &mut Vec<u8>, bytes: usize, random: &mut Random) -> bool {
    let whole = table.len().is_multiple_of(bytes);
    match whole {
        true if table.is_empty() || random.one_in(2) => table.push(random.any() as u8),
        true => table.truncate(table.len() - 1),
        false => (),
    }
    whole
}

/// Leaves fewer than so many, where that can be.
fn shorten<Item>(places: &mut Vec<Item>, needed: usize, random: &mut Random) -> bool {
    let most = needed.min(places.len());
    if most > 0 {
        let any = random.below(most);
        places.truncate(random.pick(&[most - 1, any]));
    }
    most > 0
}

fn pick_row<'table>(
    table: &'table mut [u8],
    bytes: usize,
    random: &mut Random,
) -> Option<&'table mut [u8]> {
    let rows = table.len() / bytes;
    let at = random.below(rows.max(1));
    table.chunks_exact_mut(bytes).nth(at)
}

fn put(row: &mut [u8], at: usize, field: &[u8]) {
    row[at..at + field.len()].copy_from_slice(field);
}

fn is_zero(bytes: &[u8]) -> bool {
    bytes.iter().all(|&byte| byte == 0)
}

/// Bytes that are no linkEA for one reason alone. It has two records, unless its header is cut.
fn bad_link(fault: Fault, random: &mut Random) -> Vec<u8> {
    let record = |name: &[u8]| Record {
        parent: FIDS[0],
        name: name.to_vec(),
    };
    let link = Link {
        time: 1,
        padding: 2,
        records: vec![record(b"first"), record(b"last")],
    };
    let mut bytes = link.encode();
    let last = HEADER + link.records[0].length();
    match fault {
        Fault::ShortHeader => {
            bytes.truncate(1 + random.below(HEADER - 1));
            let total = bytes.len() as u8;
            bytes.iter_mut().skip(COUNT_AT).for_each(|byte| *byte = 0);
            bytes
                .iter_mut()
                .skip(TOTAL_AT)
                .take(1)
                .for_each(|byte| *byte = total);
        }
        Fault::Magic => bytes[random.below(COUNT_AT)] ^= 1 << random.below(8),
        Fault::RecordShort => {
            let short = 2 + random.below(NAME_AT - 1);
            bytes[last + 1] = short as u8;
            bytes.truncate(last + short);
            bytes[TOTAL_AT] = bytes.len() as u8;
        }
        Fault::RecordPastEnd => bytes[last + 1] += 1 + random.below(8) as u8,
        Fault::CountTooSmall => bytes[COUNT_AT] = random.below(2) as u8,
        Fault::CountTooLarge => bytes[COUNT_AT + random.below(4)] += 1,
        Fault::Total => bytes[TOTAL_AT + random.below(8)] ^= 1 << random.below(8),
        Fault::Slash => bytes[last + NAME_AT + random.below(4)] = b'/',
        Fault::Zero => bytes[last + NAME_AT + random.below(4)] = 0,
    }
    bytes
}
