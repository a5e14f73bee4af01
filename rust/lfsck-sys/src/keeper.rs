//! The keeper of an object, and how many slots were compared to find it.

unsafe extern "C" {
    fn lfsck_keeper(
        parents: *const u8,
        parents_bytes: usize,
        objects: *const u8,
        objects_bytes: usize,
        sequence: u64,
        id: u64,
        out: *mut u64,
        out_count: usize,
    ) -> u32;
}

/// Hands out the keeper of an object, 4 numbers: 1 where a slot names the object, its parent row
/// and its slot, or 0, 0 and 0 where none does; then the slots compared. Answers 0, 11, 13 to 15
/// or 17; 14 also where the FID that is asked for is not good or its id above 32 bits.
pub fn keeper(parents: &[u8], objects: &[u8], sequence: u64, id: u64, out: &mut [u64]) -> u32 {
    // SAFETY: the slices are live for the call, each with its own count; only `out`, lent by
    // `&mut`, is written. The FID is numbers that the library checks.
    unsafe {
        lfsck_keeper(
            parents.as_ptr(),
            parents.len(),
            objects.as_ptr(),
            objects.len(),
            sequence,
            id,
            out.as_mut_ptr(),
            out.len(),
        )
    }
}
