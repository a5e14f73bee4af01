//! What the comparison of layouts is to meet.

use crate::Change;
use crate::rewrite::{GENERATIONS, PLACES, REWRITES};
use difftest::Coverage;
use difftest::stripes::{BAD, GOOD};
use numbers::layout::MOST_SLOTS;
use reference::fid::FidFault;
use reference::layout::Fault;

/// Everything that the test is to meet.
pub struct Seen {
    pub read: Coverage<u32>,
    pub slot: Coverage<u32>,
    pub write: Coverage<u32>,
    pub rewrite: Coverage<u32>,
    pub slot_kinds: Coverage<&'static str>,
    pub read_rules: Coverage<Fault>,
    pub write_rules: Coverage<Fault>,
    pub rewrite_rules: Coverage<Fault>,
    pub rewrite_order: Coverage<&'static str>,
    pub rewrites: Coverage<&'static str>,
    pub generations: Coverage<&'static str>,
    /// Where the slots of changed layouts begin, and whether the last that can be is changed.
    pub places: Coverage<(usize, bool)>,
    pub write_order: Coverage<&'static str>,
    pub changes: Coverage<Change>,
    pub slot_counts: Coverage<usize>,
    /// Stripe sizes, and whether the layout has no slots.
    pub sizes: Coverage<(&'static str, bool)>,
    /// Lengths at the bounds, and what becomes of them.
    pub lengths: Coverage<(usize, &'static str)>,
}

/// The longest layouts of both versions, lengths beside them, and those of one slot more.
pub const LENGTHS: [(usize, &str); 8] = [
    (48_031, "refused"),
    (48_032, "read"),
    (48_033, "refused"),
    (48_047, "refused"),
    (48_048, "read"),
    (48_049, "refused"),
    (48_056, "refused"),
    (48_072, "refused"),
];

/// Reasons for 17, and 13 that comes before it.
const WRITE_ORDER: [&str; 4] = [
    "13 with a short destination",
    "13 with no place for the length",
    "short destination",
    "no place for the length",
];

/// The rules that a slot can break in any of the functions.
const SLOT_RULES: [Fault; 6] = [
    Fault::Hole,
    Fault::Object(FidFault::SequenceLow),
    Fault::Object(FidFault::SequenceHigh),
    Fault::Object(FidFault::Id),
    Fault::Object(FidFault::Version),
    Fault::Ost,
];

impl Seen {
    pub fn nothing() -> Seen {
        use Fault::*;
        let bytes_alone = [Header, Magic, Pattern, Count, Length, StripeSize];
        let of_bytes = SLOT_RULES.into_iter().chain(bytes_alone);
        let numbers_alone = [Pattern, Count, Amount, Version, Width, Mark, StripeSize];
        // A slot of numbers has no FID version.
        let of_numbers = SLOT_RULES
            .into_iter()
            .filter(|&rule| rule != Object(FidFault::Version));
        Seen {
            read: Coverage::of("read answers", [0, 13, 17]),
            slot: Coverage::of("slot answers", [0, 13, 16, 17]),
            write: Coverage::of("write answers", [0, 13, 17]),
            rewrite: Coverage::of("rewrite answers", [0, 13, 16]),
            slot_kinds: Coverage::of("slots", ["hole read", "named read"]),
            read_rules: Coverage::of("rules of the reader", of_bytes),
            write_rules: Coverage::of(
                "rules of the writer",
                of_numbers.clone().chain(numbers_alone),
            ),
            rewrite_rules: Coverage::of(
                "rules of the rewritten slot",
                of_numbers.chain([Amount, Width, Mark]),
            ),
            rewrite_order: Coverage::of("13 before 16 in the rewrite", ["bad layout", "bad slot"]),
            rewrites: Coverage::of("rewritten slots", REWRITES),
            generations: Coverage::of("generations of rewritten layouts", GENERATIONS),
            places: Coverage::of(
                "first bytes of changed slots, and whether it is slot 1,999",
                PLACES,
            ),
            write_order: Coverage::of("13 before 17 and reasons for 17 in the writer", WRITE_ORDER),
            changes: Coverage::of("changes to the bytes", Change::ALL),
            slot_counts: Coverage::of("slot counts", 0..=MOST_SLOTS + 1),
            sizes: Coverage::of("stripe sizes, and whether there are no slots", sizes()),
            lengths: Coverage::of("lengths at the bounds", LENGTHS),
        }
    }

    pub fn require(&self) {
        self.read.require(1);
        self.slot.require(1);
        self.write.require(1);
        self.rewrite.require(1);
        self.slot_kinds.require(1);
        self.read_rules.require(1);
        self.write_rules.require(1);
        self.rewrite_rules.require(1);
        self.rewrite_order.require(1);
        self.rewrites.require(1000);
        self.generations.require(1000);
        self.places.require(200);
        self.write_order.require(1);
        self.changes.require(1);
        self.slot_counts.require(1);
        self.sizes.require(20);
        self.lengths.require(1);
    }
}

/// Every kind of stripe size, with slots and without.
fn sizes() -> impl Iterator<Item = (&'static str, bool)> {
    let kinds = GOOD.into_iter().chain(BAD);
    kinds.flat_map(|kind| [(kind, false), (kind, true)])
}
