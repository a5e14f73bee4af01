//! The run.

unsafe extern "C" {
    fn lfsck_run(
        parents: *mut u8,
        parents_bytes: usize,
        objects: *mut u8,
        objects_bytes: usize,
        reserve: *const u8,
        reserve_bytes: usize,
        policy: u64,
        most: u64,
        position: *mut u64,
        position_count: usize,
        report: *mut u64,
        report_count: usize,
    ) -> u32;
}

/// Checks the input, then makes at most `most` steps from a position on. The tables and the
/// position, 3 numbers, are changed in place; the report, 10 numbers, is the steps done and the
/// repairs of SELF, MULTIPLE, DANGLING, BLANK, UNMATCHED, OWNER, EMPTY, ORPHAN and WRONG-OST.
/// A step that changes the slots of a file that was there raises its layout's generation.
/// Answers 0, 1, 11 to 17 or 21 to 23.
pub fn run(
    parents: &mut [u8],
    objects: &mut [u8],
    reserve: &[u8],
    policy: u64,
    most: u64,
    position: &mut [u64],
    report: &mut [u64],
) -> u32 {
    // SAFETY: the slices are live for the call, each with its own count; `reserve` is not
    // written, and the others are lent by `&mut` and so apart from each other and from it.
    // Policy and steps are numbers that the library checks.
    unsafe {
        lfsck_run(
            parents.as_mut_ptr(),
            parents.len(),
            objects.as_mut_ptr(),
            objects.len(),
            reserve.as_ptr(),
            reserve.len(),
            policy,
            most,
            position.as_mut_ptr(),
            position.len(),
            report.as_mut_ptr(),
            report.len(),
        )
    }
}
