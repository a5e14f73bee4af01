//! The namespace check.

unsafe extern "C" {
    fn lfsck_names_judge(
        entries: *const u8,
        entries_bytes: usize,
        children: *const u8,
        children_bytes: usize,
        index: *mut u8,
        index_bytes: usize,
        room: *mut u8,
        room_bytes: usize,
        marks: *mut u64,
        marks_count: usize,
    ) -> u32;

    fn lfsck_names_find(
        entries: *const u8,
        entries_bytes: usize,
        children: *const u8,
        children_bytes: usize,
        out: *mut u64,
        out_count: usize,
    ) -> u32;

    fn lfsck_names_mend(
        entries: *mut u8,
        entries_bytes: usize,
        children: *mut u8,
        children_bytes: usize,
        index: *mut u8,
        index_bytes: usize,
        room: *mut u8,
        room_bytes: usize,
        marks: *const u64,
        marks_count: usize,
        report: *mut u64,
        report_count: usize,
    ) -> u32;

    fn lfsck_names_pass(
        entries: *mut u8,
        entries_bytes: usize,
        children: *mut u8,
        children_bytes: usize,
        index: *mut u8,
        index_bytes: usize,
        room: *mut u8,
        room_bytes: usize,
        marks: *mut u64,
        marks_count: usize,
        report: *mut u64,
        report_count: usize,
    ) -> u32;
}

/// Marks the child rows, one number each: 0 hidden, 1 visible, 2 without self FID. `index` and
/// `room` are working room, 16 bytes each for each row of either table. Answers 11, 16, 31, 17 or
/// 39, the first that applies, or 0.
pub fn names_judge(
    entries: &[u8],
    children: &[u8],
    index: &mut [u8],
    room: &mut [u8],
    marks: &mut [u64],
) -> u32 {
    // SAFETY: all slices are live for the call, each with its own count; only `index`, `room` and
    // `marks`, lent by `&mut` and so apart from each other and from the tables, are written. The
    // rows that entries name are numbers that the library compares with the child rows.
    unsafe {
        lfsck_names_judge(
            entries.as_ptr(),
            entries.len(),
            children.as_ptr(),
            children.len(),
            index.as_mut_ptr(),
            index.len(),
            room.as_mut_ptr(),
            room.len(),
            marks.as_mut_ptr(),
            marks.len(),
        )
    }
}

/// Hands out the findings of each entry, 2 numbers: of its FID 0 consistent, 1 no FID-in-dirent, 2
/// differs, 3 no self FID, 4 neither; of its record 0 consistent, 1 missing. Answers 11, 16, 31 or
/// 17, the first that applies, or 0.
pub fn names_find(entries: &[u8], children: &[u8], out: &mut [u64]) -> u32 {
    // SAFETY: all slices are live for the call, each with its own count; only `out`, lent by
    // `&mut`, is written. The rows that entries name are numbers that the library compares with
    // the child rows.
    unsafe {
        lfsck_names_find(
            entries.as_ptr(),
            entries.len(),
            children.as_ptr(),
            children.len(),
            out.as_mut_ptr(),
            out.len(),
        )
    }
}

/// Mends both tables in place under marks, exactly one for each child row. The report, 5 numbers,
/// is the self FIDs taken, the FID-in-dirents written, the records appended and removed, and the
/// entry it stopped in front of, else the number of entries. Working room is as in
/// [`names_judge`]. Answers 11, 16, 31, 17 or 38, the first that applies, or 0.
pub fn names_mend(
    entries: &mut [u8],
    children: &mut [u8],
    index: &mut [u8],
    room: &mut [u8],
    marks: &[u64],
    report: &mut [u64],
) -> u32 {
    // SAFETY: all slices are live for the call, each with its own count; `marks` is not written,
    // and the others are lent by `&mut` and so apart from each other and from it. Rows and marks
    // are numbers that the library checks.
    unsafe {
        lfsck_names_mend(
            entries.as_mut_ptr(),
            entries.len(),
            children.as_mut_ptr(),
            children.len(),
            index.as_mut_ptr(),
            index.len(),
            room.as_mut_ptr(),
            room.len(),
            marks.as_ptr(),
            marks.len(),
            report.as_mut_ptr(),
            report.len(),
        )
    }
}

/// Judges as [`names_judge`] does, then mends under the marks as [`names_mend`] does. Answers 11,
/// 16, 31, 17, 39 or 38, the first that applies, or 0.
pub fn names_pass(
    entries: &mut [u8],
    children: &mut [u8],
    index: &mut [u8],
    room: &mut [u8],
    marks: &mut [u64],
    report: &mut [u64],
) -> u32 {
    // SAFETY: all slices are live for the call, each with its own count, and are lent by `&mut`
    // and so apart from each other. The rows that entries name are numbers that the library
    // compares with the child rows.
    unsafe {
        lfsck_names_pass(
            entries.as_mut_ptr(),
            entries.len(),
            children.as_mut_ptr(),
            children.len(),
            index.as_mut_ptr(),
            index.len(),
            room.as_mut_ptr(),
            room.len(),
            marks.as_mut_ptr(),
            marks.len(),
            report.as_mut_ptr(),
            report.len(),
        )
    }
}
