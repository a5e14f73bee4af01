//! The owners file: a line of `uid gid index` for each entry.

/// What a line says.
#[derive(Clone, Copy, Debug, PartialEq, Eq)]
pub struct OwnersLine {
    /// The user.
    pub uid: u32,
    /// The group.
    pub gid: u32,
    /// The index of an object's OST; of a file it is unused.
    pub index: u32,
}

/// The line that begins after so many bytes, and how many are taken with it; none where there is
/// no line, or a bad one.
pub fn next(owners: &[u8], taken: usize) -> Option<(OwnersLine, usize)> {
    let rest = owners.get(taken..)?;
    let line = rest.split_inclusive(|&byte| byte == b'\n').next()?;
    let text = line.strip_suffix(b"\n").unwrap_or(line);
    let words: Vec<&[u8]> = text.split(|&byte| byte == b' ').collect();
    let [uid, gid, index] = words[..] else {
        return None;
    };
    let said = OwnersLine {
        uid: number(uid)?,
        gid: number(gid)?,
        index: number(index)?,
    };
    Some((said, taken + line.len()))
}

/// A number below 2^32 in decimal digits, with any zeros before it.
fn number(digits: &[u8]) -> Option<u32> {
    if digits.is_empty() || !digits.iter().all(u8::is_ascii_digit) {
        return None;
    }
    let text: String = digits.iter().map(|&digit| char::from(digit)).collect();
    match text.trim_start_matches('0') {
        "" => Some(0),
        significant => significant.parse().ok(),
    }
}
