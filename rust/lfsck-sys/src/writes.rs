//! The writes of a step.

unsafe extern "C" {
    fn lfsck_step_writes(
        parents: *const u8,
        parents_bytes: usize,
        objects: *const u8,
        objects_bytes: usize,
        reserve: *const u8,
        reserve_bytes: usize,
        policy: u64,
        stage: u64,
        row: u64,
        part: u64,
        out: *mut u64,
        out_count: usize,
    ) -> u32;
}

/// Hands out the rows that the step at a position writes, in the order in which they are to be
/// stored, 7 numbers: how many they are, at most 3, then table (0 parents, 1 objects) and row of
/// each, zeros where there are fewer. The position is stage, row and part. Answers 0, 11 to 17,
/// where 16 is also the end, or 21 to 23.
pub fn step_writes(
    parents: &[u8],
    objects: &[u8],
    reserve: &[u8],
    policy: u64,
    position: [u64; 3],
    out: &mut [u64],
) -> u32 {
    let [stage, row, part] = position;
    // SAFETY: the slices are live for the call, each with its own count; only `out`, lent by
    // `&mut`, is written. Policy and position are numbers that the library checks.
    unsafe {
        lfsck_step_writes(
            parents.as_ptr(),
            parents.len(),
            objects.as_ptr(),
            objects.len(),
            reserve.as_ptr(),
            reserve.len(),
            policy,
            stage,
            row,
            part,
            out.as_mut_ptr(),
            out.len(),
        )
    }
}
