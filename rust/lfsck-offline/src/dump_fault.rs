//! Why a line of a dump is refused, in words. The library says that it is, and with which number.

use numbers::intake::ROOM;

use crate::dump::{Entry, FIRST, Kind, MOST_LINE, TRUSTED};
use crate::line_fault::shown;
use crate::quoted::quoted;

/// What is known of a line that was refused.
pub struct Refused<'line> {
    /// The library's number.
    pub number: u32,
    /// The line; the beginning of a very long one.
    pub text: &'line [u8],
    /// The entry that is open before it.
    pub entry: Option<&'line Entry>,
    /// The owners line of that entry: its number, and the line if there is one.
    pub owner: (usize, Option<&'line [u8]>),
}

impl Refused<'_> {
    /// The reason.
    pub fn reason(&self) -> String {
        match (self.number, self.entry) {
            (34, _) => {
                let kind = self.kind().map_or("an attribute", |(kind, _)| kind.name());
                format!("{kind} a second time in this entry")
            }
            (35, _) => "no trusted.lma, so the self FID is missing".to_string(),
            (36, Some(entry)) if entry.kinds.contains(&Kind::Lov) => {
                "trusted.lov and trusted.fid, which make it a file and an object".to_string()
            }
            (36, _) => "neither trusted.lov nor trusted.fid".to_string(),
            (37, Some(entry)) if entry.layout > ROOM => {
                format!("a layout of more than {ROOM} bytes, which is the room of a row")
            }
            (37, Some(entry)) if entry.kinds.contains(&Kind::Lov) => {
                format!("more than {} files", numbers::parent::MOST)
            }
            (37, _) => format!("more than {} objects", numbers::object::MOST),
            (_, None) => self.outside().to_string(),
            (_, Some(entry)) => self.inside(entry),
        }
    }

    /// A bad line where no entry is open.
    fn outside(&self) -> &'static str {
        match self.text {
            b"" => "an empty line, and no entry is open",
            _ => "no entry is open, and this line begins none ('# file:')",
        }
    }

    /// A bad line of an entry.
    fn inside(&self, entry: &Entry) -> String {
        if self.text.is_empty() {
            return self.owners();
        }
        if self.text.starts_with(FIRST) {
            let line = entry.origin.line;
            return format!("the entry of line {line} has no empty line at its end");
        }
        if self.text.len() >= MOST_LINE {
            return "a bad line, too long to be told why".to_string();
        }
        match self.kind() {
            Some((kind, value)) => bad_value(kind, value),
            None => {
                "no attribute that begins with 'trusted.' (getfattr -m '^trusted\\.' prints no \
                     others)"
                    .to_string()
            }
        }
    }

    fn kind(&self) -> Option<(Kind, &[u8])> {
        self.text.strip_prefix(TRUSTED).and_then(Kind::split)
    }

    fn owners(&self) -> String {
        match self.owner {
            (line, None) => format!("the owners file has no line {line} for this entry"),
            (line, Some(text)) => {
                let text = shown(text);
                format!("line {line} of the owners file is no 'uid gid index': {text}")
            }
        }
    }
}

/// What is wrong with a value, its `=` before it.
fn bad_value(kind: Kind, value: &[u8]) -> String {
    let name = kind.name();
    let Some(digits) = value.strip_prefix(b"=0x") else {
        return format!("{name} without '=0x' and hexadecimal digits");
    };
    let bad = digits.iter().position(|digit| !digit.is_ascii_hexdigit());
    if let Some(at) = bad {
        let letter = quoted(&digits[at..=at]);
        return format!("{letter} is no hexadecimal digit, after {at} digits of {name}");
    }
    if !digits.len().is_multiple_of(2) {
        return format!("{name} has {} digits, an odd number", digits.len());
    }
    let wanted = match kind {
        Kind::Fid => "16 or 32",
        _ => "24",
    };
    let bytes = match digits.len() / 2 {
        1 => "1 byte".to_string(),
        count => format!("{count} bytes"),
    };
    format!("{name} has {bytes}, not {wanted}")
}
