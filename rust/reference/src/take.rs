//! Little-endian numbers from the front of some bytes.

/// The first `N` bytes, which `rest` then no longer has; `None` where there are fewer.
pub fn bytes<const N: usize>(rest: &mut &[u8]) -> Option<[u8; N]> {
    let (first, after) = rest.split_first_chunk::<N>()?;
    *rest = after;
    Some(*first)
}

/// A number of 16 bits.
pub fn number16(rest: &mut &[u8]) -> Option<u16> {
    bytes(rest).map(u16::from_le_bytes)
}

/// A number of 32 bits.
pub fn number32(rest: &mut &[u8]) -> Option<u32> {
    bytes(rest).map(u32::from_le_bytes)
}

/// A number of 64 bits.
pub fn number64(rest: &mut &[u8]) -> Option<u64> {
    bytes(rest).map(u64::from_le_bytes)
}
