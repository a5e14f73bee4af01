//! Layouts on numbers and bytes.

use super::hand_out;
use crate::answer::{BAD_LAYOUT, DONE, NO_POSITION, NO_ROOM};
use crate::fid::Fid;
use crate::layout::{Fault, HOLE_PATTERN, Layout, PLAIN_PATTERN, Stripe, Version, check_slot};

/// The numbers of a slot.
const SLOT_NUMBERS: usize = 5;

/// Reads the header of a layout into 8 numbers.
pub fn layout_read(layout: &[u8], fields: &mut [u64]) -> u32 {
    let Ok(layout) = Layout::parse(layout) else {
        return BAD_LAYOUT;
    };
    let version = match layout.version {
        Version::One => 1,
        Version::Three(_) => 3,
    };
    let numbers = [
        version,
        layout.pattern().into(),
        layout.own_id,
        layout.own_sequence,
        layout.stripe_size.into(),
        layout.slots.len() as u64,
        layout.generation.into(),
        layout.version.header_bytes() as u64,
    ];
    hand_out(&numbers, fields)
}

/// Reads one slot of a layout into 5 numbers.
pub fn layout_slot(layout: &[u8], index: u64, out: &mut [u64]) -> u32 {
    let Ok(layout) = Layout::parse(layout) else {
        return BAD_LAYOUT;
    };
    match slot_at(&layout, index) {
        Some(at) => hand_out(&numbers_of_slot(layout.slots[at]), out),
        None => NO_POSITION,
    }
}

/// Writes the layout that numbers and a pool describe into `destination`, and its length to `out`.
pub fn layout_write(
    fields: &[u64],
    pool: &[u8],
    slots: &[u64],
    destination: &mut [u8],
    out: &mut [u64],
) -> u32 {
    let Ok(layout) = layout_of_numbers(fields, pool, slots) else {
        return BAD_LAYOUT;
    };
    let bytes = layout.encode();
    let (Some(room), Some(written)) = (destination.get_mut(..bytes.len()), out.first_mut()) else {
        return NO_ROOM;
    };
    room.copy_from_slice(&bytes);
    *written = bytes.len() as u64;
    DONE
}

/// Puts another slot in the place of one of a layout's and raises its generation; an equal slot
/// changes nothing.
pub fn slot_rewrite(layout: &mut [u8], index: u64, slot: &[u64]) -> u32 {
    let (Ok(mut changed), Ok(slot)) = (Layout::parse(layout), slot_of_numbers(slot)) else {
        return BAD_LAYOUT;
    };
    if check_slot(slot, changed.holes_allowed).is_err() {
        return BAD_LAYOUT;
    }
    let Some(at) = slot_at(&changed, index) else {
        return NO_POSITION;
    };
    if changed.slots[at] != slot {
        changed.slots[at] = slot;
        changed.raise_generation();
        layout.copy_from_slice(&changed.encode());
    }
    DONE
}

/// The layout that seven numbers, a pool and five numbers a slot describe, or the rule that they break.
pub fn layout_of_numbers(fields: &[u64], pool: &[u8], slots: &[u64]) -> Result<Layout, Fault> {
    let &[
        version,
        pattern,
        own_id,
        own_sequence,
        stripe_size,
        count,
        generation,
    ] = fields
    else {
        return Err(Fault::Amount);
    };
    let layout = Layout {
        version: version_of(version, pool)?,
        holes_allowed: allows_holes(pattern)?,
        own_id,
        own_sequence,
        stripe_size: fit(stripe_size)?,
        generation: fit(generation)?,
        slots: slots
            .chunks(SLOT_NUMBERS)
            .map(slot_of_numbers)
            .collect::<Result<_, _>>()?,
    };
    if layout.slots.len() as u64 != count {
        return Err(Fault::Amount);
    }
    layout.check()?;
    Ok(layout)
}

/// The slot that five numbers describe; whether a layout may have it is not yet asked.
pub fn slot_of_numbers(numbers: &[u64]) -> Result<Option<Stripe>, Fault> {
    match *numbers {
        [0, 0, 0, 0, 0] => Ok(None),
        [1, sequence, id, generation, ost] => Ok(Some(Stripe {
            object: Fid::new(sequence, fit(id)?),
            generation: fit(generation)?,
            ost: fit(ost)?,
        })),
        [_, _, _, _, _] => Err(Fault::Mark),
        _ => Err(Fault::Amount),
    }
}

/// The five numbers of a slot.
pub fn numbers_of_slot(slot: Option<Stripe>) -> [u64; SLOT_NUMBERS] {
    match slot {
        None => [0; SLOT_NUMBERS],
        Some(stripe) => [
            1,
            stripe.object.sequence,
            stripe.object.id.into(),
            stripe.generation.into(),
            stripe.ost.into(),
        ],
    }
}

fn version_of(number: u64, pool: &[u8]) -> Result<Version, Fault> {
    match number {
        1 if pool.is_empty() => Ok(Version::One),
        3 => pool
            .try_into()
            .map(Version::Three)
            .map_err(|_| Fault::Amount),
        1 => Err(Fault::Amount),
        _ => Err(Fault::Version),
    }
}

fn allows_holes(pattern: u64) -> Result<bool, Fault> {
    if pattern == u64::from(PLAIN_PATTERN) {
        Ok(false)
    } else if pattern == u64::from(HOLE_PATTERN) {
        Ok(true)
    } else {
        Err(Fault::Pattern)
    }
}

/// The number in a narrower field.
fn fit<Field: TryFrom<u64>>(number: u64) -> Result<Field, Fault> {
    number.try_into().map_err(|_| Fault::Width)
}

/// Where slot `index` stands, if the layout has it.
fn slot_at(layout: &Layout, index: u64) -> Option<usize> {
    let at = usize::try_from(index).ok()?;
    (at < layout.slots.len()).then_some(at)
}
