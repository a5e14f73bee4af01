//! Intake from attribute dumps.

unsafe extern "C" {
    fn lfsck_intake_feed(
        state: *mut u8,
        state_bytes: usize,
        piece: *const u8,
        piece_bytes: usize,
        owners: *const u8,
        owners_bytes: usize,
        parents: *mut u8,
        parents_bytes: usize,
        objects: *mut u8,
        objects_bytes: usize,
        out: *mut u64,
        out_count: usize,
    ) -> u32;

    fn lfsck_intake_end(
        state: *const u8,
        state_bytes: usize,
        out: *mut u64,
        out_count: usize,
    ) -> u32;
}

/// Reads the next piece of a dump, at most 65,536 bytes, and fills a row for each entry that it
/// closes. The state is 48,256 bytes, all zero to begin; `owners` is the whole owners file. With
/// 33 to 37 the line is written to `out`, 1 number. Answers 0, 11, 16, 17 or 33 to 37.
pub fn intake_feed(
    state: &mut [u8],
    piece: &[u8],
    owners: &[u8],
    parents: &mut [u8],
    objects: &mut [u8],
    out: &mut [u64],
) -> u32 {
    // SAFETY: all slices are live for the call, each with its own count; `piece` and `owners` are
    // not written, and the others are lent by `&mut` and so apart from each other and from these.
    // What the state holds is bytes that the library examines.
    unsafe {
        lfsck_intake_feed(
            state.as_mut_ptr(),
            state.len(),
            piece.as_ptr(),
            piece.len(),
            owners.as_ptr(),
            owners.len(),
            parents.as_mut_ptr(),
            parents.len(),
            objects.as_mut_ptr(),
            objects.len(),
            out.as_mut_ptr(),
            out.len(),
        )
    }
}

/// Whether a dump that ends after what was fed is whole. The state stays as it is. With 33 to 37
/// the line is written to `out`, 1 number. Answers 0, 16, 17 or 33 to 37.
pub fn intake_end(state: &[u8], out: &mut [u64]) -> u32 {
    // SAFETY: both slices are live for the call, each with its own count; only `out`, lent by
    // `&mut`, is written. What the state holds is bytes that the library examines.
    unsafe { lfsck_intake_end(state.as_ptr(), state.len(), out.as_mut_ptr(), out.len()) }
}
