//! Striping layouts in bytes.

use crate::fid;

/// The magic of version 1.
pub const MAGIC_ONE: u32 = 0x0BD1_0BD0;
/// The magic of version 3.
pub const MAGIC_THREE: u32 = 0x0BD3_0BD0;
/// The pattern in which every slot names an object.
pub const PLAIN: u32 = 1;
/// The pattern in which slots may be holes.
pub const HOLES: u32 = 0x4000_0001;

/// Where the magic stands.
pub const MAGIC_AT: usize = 0;
/// Where the pattern stands.
pub const PATTERN_AT: usize = MAGIC_AT + 4;
/// Where the own id stands.
pub const OWN_ID_AT: usize = PATTERN_AT + 4;
/// Where the own sequence stands.
pub const OWN_SEQUENCE_AT: usize = OWN_ID_AT + 8;
/// Where the stripe size stands.
pub const STRIPE_SIZE_AT: usize = OWN_SEQUENCE_AT + 8;
/// Of what a stripe size is a multiple.
pub const STRIPE_UNIT: u32 = 65_536;
/// Where the stripe count stands.
pub const COUNT_AT: usize = STRIPE_SIZE_AT + 4;
/// Where the generation stands.
pub const GENERATION_AT: usize = COUNT_AT + 2;
/// The bytes before the slots, version 1.
pub const HEADER_ONE: usize = GENERATION_AT + 2;
/// The bytes of a pool name.
pub const POOL_BYTES: usize = 16;
/// The bytes before the slots, version 3.
pub const HEADER_THREE: usize = HEADER_ONE + POOL_BYTES;

/// Where the generation of a slot stands, after its object's FID.
pub const SLOT_GENERATION_AT: usize = fid::BYTES;
/// Where the OST index of a slot stands.
pub const SLOT_OST_AT: usize = SLOT_GENERATION_AT + 4;
/// The bytes of a slot.
pub const SLOT_BYTES: usize = SLOT_OST_AT + 4;

/// The most slots.
pub const MOST_SLOTS: usize = 2_000;
/// The greatest OST index.
pub const LAST_OST: u32 = 65_535;
/// The bytes of the longest layout.
pub const MOST_BYTES: usize = HEADER_THREE + SLOT_BYTES * MOST_SLOTS;
