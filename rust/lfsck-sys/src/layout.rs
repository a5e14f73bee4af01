//! Striping layouts. A stripe size that is 0 or no multiple of 65,536 is 13 in all four functions,
//! also where a layout has no slots.

unsafe extern "C" {
    fn lfsck_layout_read(
        layout: *const u8,
        layout_bytes: usize,
        fields: *mut u64,
        fields_count: usize,
    ) -> u32;

    fn lfsck_layout_slot(
        layout: *const u8,
        layout_bytes: usize,
        index: u64,
        out: *mut u64,
        out_count: usize,
    ) -> u32;

    fn lfsck_layout_write(
        fields: *const u64,
        fields_count: usize,
        pool: *const u8,
        pool_bytes: usize,
        slots: *const u64,
        slots_count: usize,
        destination: *mut u8,
        destination_bytes: usize,
        out: *mut u64,
        out_count: usize,
    ) -> u32;

    fn lfsck_slot_rewrite(
        layout: *mut u8,
        layout_bytes: usize,
        index: u64,
        slot: *const u64,
        slot_count: usize,
    ) -> u32;
}

/// Reads the header of a layout into 8 numbers: version, pattern, own id, own sequence, stripe
/// size, stripe count, generation, and where the slots start. Answers 0, 13 or 17; 13 also where
/// the stripe size is none, before 17.
pub fn layout_read(layout: &[u8], fields: &mut [u64]) -> u32 {
    // SAFETY: both slices are live for the call, each with its own count; only `fields`, lent
    // by `&mut`, is written.
    unsafe {
        lfsck_layout_read(
            layout.as_ptr(),
            layout.len(),
            fields.as_mut_ptr(),
            fields.len(),
        )
    }
}

/// Reads one slot of a layout into 5 numbers: 0 for a hole or 1, sequence, id, generation, OST
/// index. Answers 0, 13, 16 or 17; 13 also where the stripe size is none, before 16.
pub fn layout_slot(layout: &[u8], index: u64, out: &mut [u64]) -> u32 {
    // SAFETY: both slices are live for the call, each with its own count; only `out`, lent by
    // `&mut`, is written. The index is a number that the library compares with the count.
    unsafe {
        lfsck_layout_slot(
            layout.as_ptr(),
            layout.len(),
            index,
            out.as_mut_ptr(),
            out.len(),
        )
    }
}

/// Writes a layout to `destination` and its length to `out`. The fields are 7 numbers: version,
/// pattern, own id, own sequence, stripe size, stripe count, generation; the slots are 5 numbers
/// each. Answers 0, 13 or 17; 13 also where the stripe size is none, before 17.
pub fn layout_write(
    fields: &[u64],
    pool: &[u8],
    slots: &[u64],
    destination: &mut [u8],
    out: &mut [u64],
) -> u32 {
    // SAFETY: all slices are live for the call, each with its own count; only `destination` and
    // `out`, lent by `&mut` and so apart from each other and from the rest, are written.
    unsafe {
        lfsck_layout_write(
            fields.as_ptr(),
            fields.len(),
            pool.as_ptr(),
            pool.len(),
            slots.as_ptr(),
            slots.len(),
            destination.as_mut_ptr(),
            destination.len(),
            out.as_mut_ptr(),
            out.len(),
        )
    }
}

/// Puts the slot of 5 numbers in the place of slot `index` of the layout and raises the layout's
/// generation, unless the slot is that one already. Answers 0, 13 or 16; 13 also where the stripe
/// size is none, before 16.
pub fn slot_rewrite(layout: &mut [u8], index: u64, slot: &[u64]) -> u32 {
    // SAFETY: both slices are live for the call, each with its own count; only `layout`, lent
    // by `&mut`, is written. The index is a number that the library compares with the count.
    unsafe {
        lfsck_slot_rewrite(
            layout.as_mut_ptr(),
            layout.len(),
            index,
            slot.as_ptr(),
            slot.len(),
        )
    }
}
