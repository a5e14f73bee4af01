//! Lines of attributes.

/// The attributes that are taken.
#[derive(Clone, Copy, Debug, PartialEq, Eq, PartialOrd, Ord)]
pub enum Kind {
    /// The layout of a file.
    Lov,
    /// What an object says about its file.
    Fid,
    /// The self FID.
    Lma,
}

impl Kind {
    fn of_name(name: &[u8]) -> Option<Kind> {
        match name {
            b"lov" => Some(Kind::Lov),
            b"fid" => Some(Kind::Fid),
            b"lma" => Some(Kind::Lma),
            _ => None,
        }
    }

    fn may_have(self, bytes: usize) -> bool {
        match self {
            Kind::Lov => true,
            Kind::Fid => bytes == 16 || bytes == 32,
            Kind::Lma => bytes == 24,
        }
    }
}

/// The attribute of a line without its `trusted.`, with its value where that is good; none where
/// it is one that is skipped.
pub fn taken(line: &[u8]) -> Option<(Kind, Option<Vec<u8>>)> {
    let equals = line.iter().position(|&byte| byte == b'=');
    let (name, value) = line.split_at(equals.unwrap_or(line.len()));
    let kind = Kind::of_name(name)?;
    let value = value.strip_prefix(b"=0x").and_then(bytes_of);
    Some((kind, value.filter(|value| kind.may_have(value.len()))))
}

/// The bytes that pairs of digits stand for.
fn bytes_of(digits: &[u8]) -> Option<Vec<u8>> {
    let (pairs, rest) = digits.as_chunks::<2>();
    let byte = |[high, low]: &[u8; 2]| Some(16 * digit(*high)? + digit(*low)?);
    rest.is_empty().then(|| pairs.iter().map(byte).collect())?
}

fn digit(letter: u8) -> Option<u8> {
    let value = char::from(letter).to_digit(16)?;
    u8::try_from(value).ok()
}
