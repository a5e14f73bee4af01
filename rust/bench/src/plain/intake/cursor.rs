//! Where in a line the reading stands, but for the digits of a value.

use numbers::answer::{ATTRIBUTE_TWICE, BAD_DUMP};
use numbers::fid;

use super::value::Value;
use super::{Kind, LMA, LONG_FID};

const FIRST: &[u8; 7] = b"# file:";
const TRUSTED: &[u8; 8] = b"trusted.";
/// What stands between an attribute's `=` and its digits.
const DIGITS: &[u8; 2] = b"0x";

/// The part of a line in which the next byte stands.
#[derive(Clone, Copy, PartialEq, Eq)]
enum Part {
    /// The beginning of a line outside entries.
    Outside,
    /// The rest of an entry's first line.
    File,
    /// The beginning of a line within an entry.
    Inside,
    /// The name of an attribute.
    Name,
    /// Between `=` and the digits.
    Prefix,
    /// The digits of a value.
    Digits,
    /// The rest of a line that is skipped.
    Skipped,
    /// The rest of a line that is bad.
    Bad,
}

/// What a good line said.
#[derive(Clone, Copy, PartialEq, Eq)]
pub enum Said {
    /// Something about an entry.
    More,
    /// The entry is closed.
    Closed,
}

/// The state within a line and an entry, but for values.
#[derive(Clone, Copy)]
pub struct Cursor {
    part: Part,
    /// The bytes of this part that matched, or the letters of a name, at most four.
    matched: usize,
    /// The last letters of an attribute's name, packed.
    name: u32,
    kind: Kind,
    /// Whole lines before this one.
    lines: u64,
    /// The first line of the open entry.
    first: Option<u64>,
    lov: Option<usize>,
    fid: Option<usize>,
    lma: Option<usize>,
}

impl Cursor {
    /// At the beginning of a dump.
    pub fn new() -> Cursor {
        Cursor {
            part: Part::Outside,
            matched: 0,
            name: 0,
            kind: Kind::Lov,
            lines: 0,
            first: None,
            lov: None,
            fid: None,
            lma: None,
        }
    }

    /// The number of the line in which the next byte stands.
    pub fn line(&self) -> u64 {
        self.lines + 1
    }

    /// The bytes of one of the three, if the entry has it.
    pub fn bytes_of(&self, kind: Kind) -> Option<usize> {
        match kind {
            Kind::Lov => self.lov,
            Kind::Fid => self.fid,
            Kind::Lma => self.lma,
        }
    }

    /// The entry is done with.
    pub fn forget(&mut self) {
        let lines = self.lines;
        *self = Cursor::new();
        self.lines = lines;
    }

    /// The line that a dump names which ends here: that of the open entry, or one without newline.
    pub fn unclosed(&self) -> Option<u64> {
        let begun = self.part != Part::Outside || self.matched > 0;
        self.first.or(begun.then_some(self.line()))
    }

    /// Whether nothing more of the line is looked at.
    #[inline(always)]
    pub fn passes(&self) -> bool {
        matches!(self.part, Part::File | Part::Skipped | Part::Bad)
    }

    /// Takes a byte of a line that is no digit of a value; gives the value whose digits begin.
    pub fn take(&mut self, byte: u8) -> Option<Value> {
        match self.part {
            Part::File | Part::Skipped | Part::Bad => (),
            Part::Digits => self.part = Part::Bad,
            Part::Name => self.take_name(byte),
            Part::Outside => self.take_letter(byte, FIRST, Part::File),
            Part::Inside => self.take_letter(byte, TRUSTED, Part::Name),
            Part::Prefix => {
                self.take_letter(byte, DIGITS, Part::Digits);
                return (self.part == Part::Digits).then(|| Value::of(self.kind));
            }
        }
        None
    }

    fn begin(&mut self, part: Part) {
        self.part = part;
        self.matched = 0;
    }

    /// A byte of a part that must be these letters, and the part behind it.
    fn take_letter(&mut self, byte: u8, letters: &[u8], next: Part) {
        if letters.get(self.matched) != Some(&byte) {
            self.begin(Part::Bad);
        } else if self.matched + 1 == letters.len() {
            self.begin(next);
            self.name = 0;
        } else {
            self.matched += 1;
        }
    }

    fn take_name(&mut self, byte: u8) {
        if byte != b'=' {
            self.name = self.name << 8 | u32::from(byte);
            self.matched = (self.matched + 1).min(4);
            return;
        }
        match self.named() {
            Some(kind) => {
                self.kind = kind;
                self.begin(Part::Prefix);
            }
            None => self.part = Part::Skipped,
        }
    }

    /// Which of the three the name is.
    fn named(&self) -> Option<Kind> {
        match (self.matched, &self.name.to_be_bytes()) {
            (3, b"\0lov") => Some(Kind::Lov),
            (3, b"\0fid") => Some(Kind::Fid),
            (3, b"\0lma") => Some(Kind::Lma),
            _ => None,
        }
    }

    /// Takes the newline, with the value that was read; then a line of an entry begins.
    pub fn end_line(&mut self, value: Value) -> Result<Said, u32> {
        let said = match self.part {
            Part::File => {
                self.first = Some(self.line());
                Said::More
            }
            Part::Inside if self.matched == 0 => Said::Closed,
            Part::Name if self.named().is_none() => Said::More,
            Part::Skipped => Said::More,
            Part::Digits if !value.low => {
                self.add(value.count)?;
                Said::More
            }
            _ => return Err(BAD_DUMP),
        };
        self.lines += 1;
        self.begin(Part::Inside);
        Ok(said)
    }

    /// Adds the attribute whose value was read.
    fn add(&mut self, bytes: usize) -> Result<(), u32> {
        let (good, place) = match self.kind {
            Kind::Lov => (true, &mut self.lov),
            Kind::Fid => (bytes == fid::BYTES || bytes == LONG_FID, &mut self.fid),
            Kind::Lma => (bytes == LMA, &mut self.lma),
        };
        if !good {
            return Err(BAD_DUMP);
        }
        match place.replace(bytes) {
            None => Ok(()),
            Some(_) => Err(ATTRIBUTE_TWICE),
        }
    }
}
