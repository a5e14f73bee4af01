//! The class at a position, and the classes from one on.

unsafe extern "C" {
    fn lfsck_class(
        parents: *const u8,
        parents_bytes: usize,
        objects: *const u8,
        objects_bytes: usize,
        stage: u64,
        row: u64,
        part: u64,
        out: *mut u64,
        out_count: usize,
    ) -> u32;

    fn lfsck_classes(
        parents: *const u8,
        parents_bytes: usize,
        objects: *const u8,
        objects_bytes: usize,
        position: *mut u64,
        position_count: usize,
        out: *mut u64,
        out_count: usize,
        done: *mut u64,
        done_count: usize,
    ) -> u32;
}

/// Hands out the class at a position, 4 numbers: the class and, where an object claims another
/// slot than its keeper, the claimed sequence, id and index. Answers 0, 11 or 13 to 17.
pub fn class(parents: &[u8], objects: &[u8], position: [u64; 3], out: &mut [u64]) -> u32 {
    let [stage, row, part] = position;
    // SAFETY: the slices are live for the call, each with its own count; only `out`, lent by
    // `&mut`, is written. The position is numbers that the library checks.
    unsafe {
        lfsck_class(
            parents.as_ptr(),
            parents.len(),
            objects.as_ptr(),
            objects.len(),
            stage,
            row,
            part,
            out.as_mut_ptr(),
            out.len(),
        )
    }
}

/// Hands out the classes from a position on, in the order of a run's steps: 4 numbers each, as
/// [`class`] does, as many as `out` has whole places for. The position, 3 numbers, is changed in
/// place, to the first that was not told or the end; `done`, 1 number, is how many were told.
/// Answers 0, 11 or 13 to 17.
pub fn classes(
    parents: &[u8],
    objects: &[u8],
    position: &mut [u64],
    out: &mut [u64],
    done: &mut [u64],
) -> u32 {
    // SAFETY: the slices are live for the call, each with its own count; only `position`, `out`
    // and `done` are written, which are lent by `&mut` and so apart from each other and from the
    // tables.
    unsafe {
        lfsck_classes(
            parents.as_ptr(),
            parents.len(),
            objects.as_ptr(),
            objects.len(),
            position.as_mut_ptr(),
            position.len(),
            out.as_mut_ptr(),
            out.len(),
            done.as_mut_ptr(),
            done.len(),
        )
    }
}
