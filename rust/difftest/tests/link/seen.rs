//! Everything that the test is to meet.

use difftest::Coverage;
use reference::interface::{LinkFault, link_of_numbers};
use reference::link::{Fault, Faults, Link};

use crate::change::Change;
use crate::given::Given;
use crate::input::{LONGEST, MANY};

/// Counts of what was met.
pub struct Seen {
    pub read: Coverage<u32>,
    pub record: Coverage<u32>,
    pub write: Coverage<u32>,
    pub order: Coverage<&'static str>,
    pub changes: Coverage<Change>,
    /// Sound linkEAs that were read and written again.
    pub back: u64,
    alone: Coverage<Fault>,
    write_alone: Coverage<LinkFault>,
    write_kinds: Coverage<&'static str>,
    places: Coverage<&'static str>,
    names: Coverage<usize>,
    shapes: Coverage<&'static str>,
}

/// The names of these lengths are to be met.
const NAMES: [usize; 5] = [1, 255, 256, LONGEST - 1, LONGEST];

impl Seen {
    /// Nothing is met yet.
    pub fn nothing() -> Seen {
        Seen {
            read: Coverage::of("answers of the header's reader", [0, 17, 31]),
            record: Coverage::of("answers of the record's reader", [0, 16, 17, 31]),
            write: Coverage::of("answers of the writer", [0, 17, 31]),
            order: Coverage::of(
                "of two refusals the first, in the readers",
                [
                    "31 before 17 in the header's reader",
                    "31 before 17 in the record's reader",
                    "16 before 17 in the record's reader",
                ],
            ),
            changes: Coverage::of("changes to the bytes", Change::ALL),
            back: 0,
            alone: Coverage::of("conditions of 31 alone", FAULTS),
            write_alone: Coverage::of("conditions of 31 alone, in the writer", WRITE_FAULTS),
            write_kinds: Coverage::of(
                "kinds of input in the writer",
                [
                    "31 with a short destination",
                    "31 with no place for the length",
                    "short destination",
                    "no place for the length",
                    "a name that ends past 64 bits, alone",
                    "a wide count whose low bits are right",
                    "no records",
                    "a name that two records share",
                ],
            ),
            places: Coverage::of(
                "places in sound linkEAs",
                [
                    "a record",
                    "the end",
                    "the header",
                    "between",
                    "past the end",
                ],
            ),
            names: Coverage::of("lengths of names", NAMES),
            shapes: Coverage::of("numbers of records", ["none", "one", "some", "many"]),
        }
    }

    /// Everything was met.
    pub fn require(&self) {
        self.read.require(1);
        self.record.require(1);
        self.write.require(1);
        self.order.require(1);
        self.changes.require(1);
        self.alone.require(1);
        self.write_alone.require(1);
        self.write_kinds.require(1);
        self.places.require(1);
        self.names.require(1);
        self.shapes.require(1);
        println!("there and back: {}", self.back);
        assert!(self.back > 0);
    }

    /// How many records there are, and the lengths of their names.
    pub fn note_shape(&mut self, link: &Link) {
        self.shapes.met(match link.records.len() {
            0 => "none",
            1 => "one",
            MANY.. => "many",
            _ => "some",
        });
        for record in &link.records {
            if NAMES.contains(&record.name.len()) {
                self.names.met(record.name.len());
            }
        }
    }

    /// A condition that alone makes bytes no linkEA.
    pub fn note_faults(&mut self, faults: &Faults) {
        if let [fault] = faults.iter().copied().collect::<Vec<_>>()[..] {
            self.alone.met(fault);
        }
    }

    /// What kind of place was asked for.
    pub fn note_place(&mut self, bytes: &[u8], place: u64, answer: u32) {
        let end = bytes.len() as u64;
        match answer {
            0 => self.places.met("a record"),
            16 if place == end => self.places.met("the end"),
            16 if place < 24 => self.places.met("the header"),
            16 if place < end => self.places.met("between"),
            16 => self.places.met("past the end"),
            _ => (),
        }
    }

    /// Which condition alone refused a write, and what room was missing.
    pub fn note_write(&mut self, given: &Given, short: bool, placeless: bool, answer: u32) {
        match link_of_numbers(&given.fields, &given.records, &given.names) {
            Ok(link) => self.note_good(given, &link),
            Err(faults) => {
                let faults: Vec<LinkFault> = faults.into_iter().collect();
                self.note_refused(given, &faults);
            }
        }
        match (answer, short, placeless) {
            (31, true, _) => self.write_kinds.met("31 with a short destination"),
            (31, _, true) => self.write_kinds.met("31 with no place for the length"),
            (17, true, false) => self.write_kinds.met("short destination"),
            (17, false, true) => self.write_kinds.met("no place for the length"),
            _ => (),
        }
    }

    fn note_good(&mut self, given: &Given, link: &Link) {
        if link.records.is_empty() {
            self.write_kinds.met("no records");
        }
        let mut starts: Vec<u64> = given.records.chunks(5).map(|record| record[3]).collect();
        starts.sort_unstable();
        if starts.windows(2).any(|pair| pair[0] == pair[1]) {
            self.write_kinds.met("a name that two records share");
        }
    }

    /// A count above 32 bits is never that of the records, so the two conditions hold together.
    fn note_refused(&mut self, given: &Given, faults: &[LinkFault]) {
        match *faults {
            [fault] => self.write_alone.met(fault),
            [LinkFault::CountTooLarge, LinkFault::CountWide] => {
                self.write_alone.met(LinkFault::CountWide);
                if given.fields[0] as u32 as usize == given.records.len() / 5 {
                    self.write_kinds
                        .met("a wide count whose low bits are right");
                }
            }
            _ => (),
        }
        let wraps = |record: &[u64]| record[3].checked_add(record[4]).is_none();
        if *faults == [LinkFault::NameOutside] && given.records.chunks_exact(5).any(wraps) {
            self.write_kinds.met("a name that ends past 64 bits, alone");
        }
    }
}

/// Every condition of the readers.
const FAULTS: [Fault; 9] = [
    Fault::ShortHeader,
    Fault::Magic,
    Fault::RecordShort,
    Fault::RecordPastEnd,
    Fault::CountTooSmall,
    Fault::CountTooLarge,
    Fault::Total,
    Fault::Slash,
    Fault::Zero,
];

/// Every condition of the writer.
const WRITE_FAULTS: [LinkFault; 15] = [
    LinkFault::Fields,
    LinkFault::Records,
    LinkFault::CountTooLarge,
    LinkFault::CountTooSmall,
    LinkFault::CountWide,
    LinkFault::Total,
    LinkFault::TimeWide,
    LinkFault::PaddingWide,
    LinkFault::IdWide,
    LinkFault::VersionWide,
    LinkFault::NameOutside,
    LinkFault::NameEmpty,
    LinkFault::NameLong,
    LinkFault::Slash,
    LinkFault::Zero,
];
