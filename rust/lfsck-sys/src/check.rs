//! The check of tables, policy and position; the start and the number of steps.

unsafe extern "C" {
    fn lfsck_check(
        parents: *const u8,
        parents_bytes: usize,
        objects: *const u8,
        objects_bytes: usize,
        reserve: *const u8,
        reserve_bytes: usize,
        policy: u64,
        stage: u64,
        row: u64,
        part: u64,
    ) -> u32;

    fn lfsck_start(
        parents: *const u8,
        parents_bytes: usize,
        objects: *const u8,
        objects_bytes: usize,
        position: *mut u64,
        position_count: usize,
    ) -> u32;

    fn lfsck_steps(
        parents: *const u8,
        parents_bytes: usize,
        objects: *const u8,
        objects_bytes: usize,
        out: *mut u64,
        out_count: usize,
    ) -> u32;
}

/// Whether a run may be made with this input: 0, or the lowest of 11 to 16 that applies. The
/// position is stage, row and part. A used row whose layout has a stripe size that is 0 or no
/// multiple of 65,536 is 13, here and in every other call that checks tables.
pub fn check(
    parents: &[u8],
    objects: &[u8],
    reserve: &[u8],
    policy: u64,
    position: [u64; 3],
) -> u32 {
    let [stage, row, part] = position;
    // SAFETY: the slices are live for the call, each with its own count, and none is written.
    // Policy and position are numbers that the library checks.
    unsafe {
        lfsck_check(
            parents.as_ptr(),
            parents.len(),
            objects.as_ptr(),
            objects.len(),
            reserve.as_ptr(),
            reserve.len(),
            policy,
            stage,
            row,
            part,
        )
    }
}

/// Hands out the position where a run begins, 3 numbers. Answers 0, 11, 13 to 15 or 17.
pub fn start(parents: &[u8], objects: &[u8], position: &mut [u64]) -> u32 {
    // SAFETY: the slices are live for the call, each with its own count; only `position`, lent
    // by `&mut`, is written.
    unsafe {
        lfsck_start(
            parents.as_ptr(),
            parents.len(),
            objects.as_ptr(),
            objects.len(),
            position.as_mut_ptr(),
            position.len(),
        )
    }
}

/// Hands out how many steps an uncut run takes, 1 number. Answers 0, 11, 13 to 15 or 17.
pub fn steps(parents: &[u8], objects: &[u8], out: &mut [u64]) -> u32 {
    // SAFETY: the slices are live for the call, each with its own count; only `out`, lent by
    // `&mut`, is written.
    unsafe {
        lfsck_steps(
            parents.as_ptr(),
            parents.len(),
            objects.as_ptr(),
            objects.len(),
            out.as_mut_ptr(),
            out.len(),
        )
    }
}
