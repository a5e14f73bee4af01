//! LinkEAs.

unsafe extern "C" {
    fn lfsck_link_read(
        link: *const u8,
        link_bytes: usize,
        fields: *mut u64,
        fields_count: usize,
    ) -> u32;

    fn lfsck_link_record(
        link: *const u8,
        link_bytes: usize,
        place: u64,
        out: *mut u64,
        out_count: usize,
    ) -> u32;

    fn lfsck_link_write(
        fields: *const u64,
        fields_count: usize,
        records: *const u64,
        records_count: usize,
        names: *const u8,
        names_bytes: usize,
        destination: *mut u8,
        destination_bytes: usize,
        out: *mut u64,
        out_count: usize,
    ) -> u32;
}

/// Reads the header of a linkEA into 4 numbers: record count, total length, overflow time,
/// padding. Answers 0, 17 or 31.
pub fn link_read(link: &[u8], fields: &mut [u64]) -> u32 {
    // SAFETY: both slices are live for the call, each with its own count; only `fields`, lent
    // by `&mut`, is written.
    unsafe { lfsck_link_read(link.as_ptr(), link.len(), fields.as_mut_ptr(), fields.len()) }
}

/// Reads the record at a place of a linkEA into 6 numbers: the parent's sequence, id and version,
/// where the name starts, its length, and the next place. Answers 0, 16, 17 or 31.
pub fn link_record(link: &[u8], place: u64, out: &mut [u64]) -> u32 {
    // SAFETY: both slices are live for the call, each with its own count; only `out`, lent by
    // `&mut`, is written. The place is a number that the library compares with the records'.
    unsafe {
        lfsck_link_record(
            link.as_ptr(),
            link.len(),
            place,
            out.as_mut_ptr(),
            out.len(),
        )
    }
}

/// Writes a linkEA to `destination` and its length to `out`. The fields are 4 numbers as they are
/// read, the records the first 5 numbers each, their names parts of `names`. Answers 0, 17 or 31.
pub fn link_write(
    fields: &[u64],
    records: &[u64],
    names: &[u8],
    destination: &mut [u8],
    out: &mut [u64],
) -> u32 {
    // SAFETY: all slices are live for the call, each with its own count; only `destination` and
    // `out`, lent by `&mut` and so apart from each other and from the rest, are written. Where the
    // names lie is numbers that the library compares with the count of `names`.
    unsafe {
        lfsck_link_write(
            fields.as_ptr(),
            fields.len(),
            records.as_ptr(),
            records.len(),
            names.as_ptr(),
            names.len(),
            destination.as_mut_ptr(),
            destination.len(),
            out.as_mut_ptr(),
            out.len(),
        )
    }
}
