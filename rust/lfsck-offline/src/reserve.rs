//! The FIDs of a reserve, as a list that people write.

use numbers::reserve::MOST;

use crate::fid::Fid;
use crate::line_fault::LineFault;
use crate::outcome::Failure;
use crate::source::Source;

/// The most bytes of a list: many times as long as one of the most FIDs.
const MOST_BYTES: usize = 16 << 20;

/// The entries of a reserve, and the line of each, counted from 1.
#[derive(Clone, Debug, Default, PartialEq, Eq)]
pub struct Reserve {
    /// The entries as the table has them.
    pub bytes: Vec<u8>,
    /// Their lines.
    pub lines: Vec<usize>,
}

/// A line of a list that is refused.
#[derive(Debug, PartialEq, Eq)]
struct Refused<'text> {
    line: usize,
    text: &'text [u8],
    reason: String,
}

impl Reserve {
    /// The FIDs of a file, one in a line; empty lines and comments are skipped. Whether they are
    /// good is left to the check.
    pub fn read(source: &Source) -> Result<Reserve, Failure> {
        let text = source.read_all(MOST_BYTES)?;
        let parsed = Reserve::parse(&text);
        parsed.map_err(|refused| {
            Failure::of_line(LineFault {
                file: source.to_string(),
                line: refused.line as u64,
                number: None,
                reason: refused.reason,
                text: refused.text.to_vec(),
                entry: None,
            })
        })
    }

    /// The FIDs of a text, or the first line that is none or one too many.
    fn parse(text: &[u8]) -> Result<Reserve, Refused<'_>> {
        let mut reserve = Reserve::default();
        for (at, line) in text.split(|&byte| byte == b'\n').enumerate() {
            let word = line.trim_ascii();
            if word.is_empty() || word.starts_with(b"#") {
                continue;
            }
            let refused = |reason: String| Refused {
                line: at + 1,
                text: line,
                reason,
            };
            let fid = str::from_utf8(word).ok().and_then(Fid::parse);
            let fid = fid.ok_or_else(|| refused("this is no FID".to_string()))?;
            if reserve.lines.len() == MOST {
                return Err(refused(format!("more than {MOST} FIDs")));
            }
            reserve.bytes.extend(fid.to_bytes());
            reserve.lines.push(at + 1);
        }
        Ok(reserve)
    }
}

#[cfg(test)]
mod tests {
    use super::*;

    #[test]
    fn fids_are_read_line_by_line() {
        let text = b"# new objects\n[0x240000400:0x80:0x0]\n\n 0x240000400:0x81:0 \r\n";
        let reserve = Reserve::parse(text).expect("FIDs");
        let fids = [0x80, 0x81].map(|id| Fid::new(0x2_4000_0400, id).to_bytes());
        assert_eq!(reserve.bytes, fids.concat());
        assert_eq!(reserve.lines, [2, 4]);
        assert_eq!(Reserve::parse(b""), Ok(Reserve::default()));
        let refused = Refused {
            line: 2,
            text: b"abc",
            reason: "this is no FID".to_string(),
        };
        assert_eq!(Reserve::parse(b"0x240000400:1\nabc\n"), Err(refused));
    }

    #[test]
    fn one_fid_too_many_is_refused_with_its_line() {
        let text = "# FIDs\n0x240000400:1\n".repeat(MOST);
        let reserve = Reserve::parse(text.as_bytes()).expect("as many as there may be");
        assert_eq!(reserve.bytes.len(), MOST * numbers::reserve::BYTES);
        let text = text + "\n0x240000400:2\n0x240000400:3\n";
        let refused = Refused {
            line: 2 * MOST + 2,
            text: b"0x240000400:2",
            reason: "more than 65536 FIDs".to_string(),
        };
        assert_eq!(Reserve::parse(text.as_bytes()), Err(refused));
    }
}
