//! Striping layouts: which objects hold the data of a file.

use crate::fid::{Fid, FidFault};
use crate::take;

/// The most slots that a layout may have.
pub const MOST_SLOTS: usize = 2_000;
/// The greatest index of an OST.
pub const LAST_OST: u32 = 65_535;
/// Of what every stripe size is a multiple.
const STRIPE_UNIT: u32 = 65_536;
/// The bytes of one slot.
pub const SLOT_BYTES: usize = 24;
/// The bytes before the slots, version 1.
const HEADER_ONE: usize = 32;
/// The bytes before the slots, version 3.
const HEADER_THREE: usize = 48;
/// The bytes of the longest layout: version 3 with the most slots.
pub const MOST_BYTES: usize = HEADER_THREE + SLOT_BYTES * MOST_SLOTS;

const MAGIC_ONE: u32 = 0x0BD1_0BD0;
const MAGIC_THREE: u32 = 0x0BD3_0BD0;
/// The pattern in which every slot names an object.
pub const PLAIN_PATTERN: u32 = 1;
/// The pattern in which slots may be holes.
pub const HOLE_PATTERN: u32 = 0x4000_0001;

/// The two versions of a layout; the third has a pool name more than the first.
#[derive(Clone, Copy, Debug, PartialEq, Eq)]
pub enum Version {
    /// Version 1.
    One,
    /// Version 3, with its pool name.
    Three([u8; 16]),
}

/// A slot that names an object.
#[derive(Clone, Copy, Debug, PartialEq, Eq)]
pub struct Stripe {
    /// The object.
    pub object: Fid,
    /// The slot's generation.
    pub generation: u32,
    /// The index of the OST that holds the object.
    pub ost: u32,
}

/// A layout; a slot of `None` is a hole.
#[derive(Clone, Debug, PartialEq, Eq)]
pub struct Layout {
    /// Its version.
    pub version: Version,
    /// Whether slots may be holes.
    pub holes_allowed: bool,
    /// The id of the file that it says it belongs to.
    pub own_id: u64,
    /// The sequence of that file.
    pub own_sequence: u64,
    /// The stripe size in bytes.
    pub stripe_size: u32,
    /// The generation.
    pub generation: u16,
    /// The slots in their order.
    pub slots: Vec<Option<Stripe>>,
}

/// The rule that a refused layout breaks.
#[derive(Clone, Copy, Debug, PartialEq, Eq, PartialOrd, Ord)]
pub enum Fault {
    /// It is shorter than its header.
    Header,
    /// The magic is that of neither version.
    Magic,
    /// The pattern is neither of the two.
    Pattern,
    /// It has too many slots.
    Count,
    /// Its length is not header and slots.
    Length,
    /// The stripe size is 0 or no multiple of 65,536.
    StripeSize,
    /// A slot is a hole, and the pattern allows none.
    Hole,
    /// A slot's FID is not good.
    Object(FidFault),
    /// A slot's OST index is too great.
    Ost,
    /// Numbers or a pool were handed in another amount than the layout has.
    Amount,
    /// The version is neither 1 nor 3.
    Version,
    /// A number does not fit its field.
    Width,
    /// A slot's first number says neither hole nor named.
    Mark,
}

impl Version {
    /// The bytes of the header.
    pub fn header_bytes(self) -> usize {
        match self {
            Version::One => HEADER_ONE,
            Version::Three(_) => HEADER_THREE,
        }
    }
}

impl Stripe {
    /// A stripe has a good FID and an OST index within the bound.
    pub fn check(self) -> Result<(), Fault> {
        self.object.check().map_err(Fault::Object)?;
        if self.ost > LAST_OST {
            return Err(Fault::Ost);
        }
        Ok(())
    }

    fn take(rest: &mut &[u8]) -> Option<Stripe> {
        Some(Stripe {
            object: Fid::take(rest)?,
            generation: take::number32(rest)?,
            ost: take::number32(rest)?,
        })
    }
}

/// A stripe size is not 0 and a multiple of 65,536.
pub fn check_stripe_size(size: u32) -> Result<(), Fault> {
    if size == 0 || !size.is_multiple_of(STRIPE_UNIT) {
        return Err(Fault::StripeSize);
    }
    Ok(())
}

/// A slot is a hole where that is allowed, or a sound stripe.
pub fn check_slot(slot: Option<Stripe>, holes_allowed: bool) -> Result<(), Fault> {
    match slot {
        Some(stripe) => stripe.check(),
        None if holes_allowed => Ok(()),
        None => Err(Fault::Hole),
    }
}

impl Layout {
    /// The layout that these bytes are, all of them.
    pub fn parse(bytes: &[u8]) -> Result<Layout, Fault> {
        let mut rest = bytes;
        let magic = take::number32(&mut rest).ok_or(Fault::Header)?;
        if magic != MAGIC_ONE && magic != MAGIC_THREE {
            return Err(Fault::Magic);
        }
        let (mut layout, count) =
            Layout::take_header(magic == MAGIC_THREE, &mut rest).ok_or(Fault::Header)??;
        if count > MOST_SLOTS {
            return Err(Fault::Count);
        }
        if rest.len() != SLOT_BYTES * count {
            return Err(Fault::Length);
        }
        for slot in rest.chunks(SLOT_BYTES) {
            layout.slots.push(parse_slot(slot));
        }
        layout.check()?;
        Ok(layout)
    }

    /// A layout still without slots, and how many are to come; `None` where bytes are missing.
    fn take_header(pooled: bool, rest: &mut &[u8]) -> Option<Result<(Layout, usize), Fault>> {
        let pattern = take::number32(rest)?;
        let mut layout = Layout {
            version: Version::One,
            holes_allowed: pattern == HOLE_PATTERN,
            own_id: take::number64(rest)?,
            own_sequence: take::number64(rest)?,
            stripe_size: take::number32(rest)?,
            generation: 0,
            slots: Vec::new(),
        };
        let count = take::number16(rest)?;
        layout.generation = take::number16(rest)?;
        if pooled {
            layout.version = Version::Three(take::bytes(rest)?);
        }
        if pattern != PLAIN_PATTERN && pattern != HOLE_PATTERN {
            return Some(Err(Fault::Pattern));
        }
        Some(Ok((layout, count.into())))
    }

    /// The rules on the stripe size, on the number of slots and on each of them.
    pub fn check(&self) -> Result<(), Fault> {
        check_stripe_size(self.stripe_size)?;
        if self.slots.len() > MOST_SLOTS {
            return Err(Fault::Count);
        }
        self.slots
            .iter()
            .try_for_each(|&slot| check_slot(slot, self.holes_allowed))
    }

    /// The generation goes up by one; 0 comes after the last.
    pub fn raise_generation(&mut self) {
        self.generation = self.generation.wrapping_add(1);
    }

    /// The pattern's number.
    pub fn pattern(&self) -> u32 {
        if self.holes_allowed {
            HOLE_PATTERN
        } else {
            PLAIN_PATTERN
        }
    }

    /// The bytes of the layout.
    pub fn encode(&self) -> Vec<u8> {
        let magic = match self.version {
            Version::One => MAGIC_ONE,
            Version::Three(_) => MAGIC_THREE,
        };
        let mut bytes = Vec::with_capacity(HEADER_THREE + SLOT_BYTES * self.slots.len());
        bytes.extend(magic.to_le_bytes());
        bytes.extend(self.pattern().to_le_bytes());
        bytes.extend(self.own_id.to_le_bytes());
        bytes.extend(self.own_sequence.to_le_bytes());
        bytes.extend(self.stripe_size.to_le_bytes());
        bytes.extend((self.slots.len() as u16).to_le_bytes());
        bytes.extend(self.generation.to_le_bytes());
        if let Version::Three(pool) = self.version {
            bytes.extend(pool);
        }
        for &slot in &self.slots {
            bytes.extend(encode_slot(slot));
        }
        bytes
    }
}

/// A slot of zeros is a hole; any other names an object, however badly.
fn parse_slot(mut bytes: &[u8]) -> Option<Stripe> {
    if bytes.iter().all(|&byte| byte == 0) {
        None
    } else {
        Stripe::take(&mut bytes)
    }
}

/// The 24 bytes of a slot.
fn encode_slot(slot: Option<Stripe>) -> [u8; SLOT_BYTES] {
    let mut bytes = [0; SLOT_BYTES];
    if let Some(stripe) = slot {
        bytes[..16].copy_from_slice(&stripe.object.to_bytes());
        bytes[16..20].copy_from_slice(&stripe.generation.to_le_bytes());
        bytes[20..].copy_from_slice(&stripe.ost.to_le_bytes());
    }
    bytes
}

#[cfg(test)]
mod tests {
    use super::*;

    /// The layout of example E2, byte for byte as the paper prints it.
    const E2: &str = "d00bd10b 01000000 0100000000000000 0104000002000000 00001000 0100 0000 \
                      0004004002000000 10000000 00000000 00000000 03000000";

    fn bytes_of(hex: &str) -> Vec<u8> {
        let digits: Vec<char> = hex.chars().filter(|c| !c.is_whitespace()).collect();
        let pairs = digits.chunks(2).map(|pair| pair.iter().collect::<String>());
        pairs
            .map(|pair| u8::from_str_radix(&pair, 16).unwrap())
            .collect()
    }

    fn layout_of_e2() -> Layout {
        Layout {
            version: Version::One,
            holes_allowed: false,
            own_id: 1,
            own_sequence: 0x2_0000_0401,
            stripe_size: 1_048_576,
            generation: 0,
            slots: vec![Some(Stripe {
                object: Fid::new(0x2_4000_0400, 0x10),
                generation: 0,
                ost: 3,
            })],
        }
    }

    #[test]
    fn e2_is_read_as_the_paper_says() {
        assert_eq!(Layout::parse(&bytes_of(E2)), Ok(layout_of_e2()));
    }

    #[test]
    fn e2_is_written_as_the_paper_prints_it() {
        assert_eq!(layout_of_e2().encode(), bytes_of(E2));
    }

    #[test]
    fn e3_another_length_is_refused() {
        let mut bytes = bytes_of(E2);
        assert_eq!(bytes.len(), 56);
        bytes.push(0);
        assert_eq!(Layout::parse(&bytes), Err(Fault::Length));
        bytes.truncate(55);
        assert_eq!(Layout::parse(&bytes), Err(Fault::Length));
    }

    #[test]
    fn version_three_has_a_pool_before_its_slots() {
        let pool = *b"a pool of sixtee";
        let mut layout = layout_of_e2();
        layout.version = Version::Three(pool);
        let bytes = layout.encode();
        assert_eq!(bytes.len(), 72);
        assert_eq!(bytes[..4], 0x0BD3_0BD0_u32.to_le_bytes());
        assert_eq!(bytes[32..48], pool);
        assert_eq!(bytes[48..], bytes_of(E2)[32..]);
        assert_eq!(Layout::parse(&bytes), Ok(layout));
    }

    #[test]
    fn a_zero_slot_is_a_hole_under_the_hole_pattern_alone() {
        let mut layout = layout_of_e2();
        layout.slots.push(None);
        assert_eq!(Layout::parse(&layout.encode()), Err(Fault::Hole));
        layout.holes_allowed = true;
        assert_eq!(Layout::parse(&layout.encode()), Ok(layout));
    }

    #[test]
    fn a_stripe_size_is_a_multiple_of_65536_and_not_0() {
        let sizes = [
            (0, false),
            (1, false),
            (32_768, false),
            (65_535, false),
            (65_536, true),
            (65_537, false),
            (131_072, true),
            (4_294_901_760, true),
            (4_294_967_295, false),
        ];
        for (size, good) in sizes {
            let rule = if good { Ok(()) } else { Err(Fault::StripeSize) };
            assert_eq!(check_stripe_size(size), rule, "{size}");
            for version in [Version::One, Version::Three([7; 16])] {
                for count in [0, 1, 2] {
                    let mut layout = layout_of_e2();
                    layout.version = version;
                    layout.stripe_size = size;
                    layout.slots = vec![layout.slots[0]; count];
                    assert_eq!(layout.check(), rule, "{size}, {count} slots");
                    let read = Layout::parse(&layout.encode());
                    assert_eq!(read, rule.map(|()| layout), "{size}, {count} slots");
                }
            }
        }
    }

    #[test]
    fn slots_are_2000_at_most() {
        for (version, bytes) in [(Version::One, 48_032), (Version::Three([7; 16]), 48_048)] {
            let mut layout = layout_of_e2();
            layout.version = version;
            layout.slots = vec![layout.slots[0]; 2_000];
            assert_eq!(layout.encode().len(), bytes);
            assert_eq!(Layout::parse(&layout.encode()), Ok(layout.clone()));
            layout.slots.push(layout.slots[0]);
            assert_eq!(Layout::parse(&layout.encode()), Err(Fault::Count));
        }
    }

    #[test]
    fn each_bound_of_a_slot_is_held_to() {
        let good = layout_of_e2();
        let with = |edit: fn(&mut Stripe)| {
            let mut layout = good.clone();
            edit(layout.slots[0].as_mut().unwrap());
            Layout::parse(&layout.encode()).map(|_| ())
        };
        let bad = |fault| Err(Fault::Object(fault));
        assert_eq!(with(|s| s.object.sequence = 0x2_0000_0400), Ok(()));
        assert_eq!(
            with(|s| s.object.sequence = 0x2_0000_03ff),
            bad(FidFault::SequenceLow)
        );
        assert_eq!(with(|s| s.object.sequence = u64::MAX - 1), Ok(()));
        assert_eq!(
            with(|s| s.object.sequence = u64::MAX),
            bad(FidFault::SequenceHigh)
        );
        assert_eq!(with(|s| s.object.id = 0), bad(FidFault::Id));
        assert_eq!(with(|s| s.object.version = 1), bad(FidFault::Version));
        assert_eq!(with(|s| s.ost = 65_535), Ok(()));
        assert_eq!(with(|s| s.ost = 65_536), Err(Fault::Ost));
        assert_eq!(with(|s| s.generation = u32::MAX), Ok(()));
    }
}
