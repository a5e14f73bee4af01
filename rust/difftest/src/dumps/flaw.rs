//! What can be wrong with a dump.

use super::entry::{Entry, Kind, Line};
use super::{Draft, Trait, owners, value};
use crate::Random;
use numbers::intake::ROOM;

/// A flaw of an entry.
#[derive(Clone, Copy, Debug, PartialEq, Eq, PartialOrd, Ord)]
pub enum Flaw {
    /// A line stands before the first one.
    LineOutside,
    /// The first line isn't one.
    NoFirst,
    /// A line that isn't an attribute.
    OtherLine,
    /// A value without `=0x`.
    NoPrefix,
    /// An odd number of digits.
    OddDigits,
    /// A letter that is no digit.
    BadDigit,
    /// A `trusted.fid` or `trusted.lma` of another length.
    Length,
    /// A carriage return behind a value, or on the closing line.
    CarriageReturn,
    /// A bad owners line.
    OwnersBad,
    /// The owners file ends before this entry's line.
    OwnersMissing,
    /// The dump ends before the closing line.
    Unclosed,
    /// The dump ends with a line that has no newline.
    Unfinished,
    /// One of the three again, and bad.
    TwiceBad,
    /// One of the three again.
    Twice,
    /// No self FID.
    NoSelf,
    /// Neither layout nor claim.
    Neither,
    /// Layout and claim.
    Both,
    /// A layout that is longer than the room.
    LongLov,
    /// No unused row.
    NoRow,
}

impl Flaw {
    /// All of them.
    pub const ALL: [Flaw; 19] = [
        Flaw::LineOutside,
        Flaw::NoFirst,
        Flaw::OtherLine,
        Flaw::NoPrefix,
        Flaw::OddDigits,
        Flaw::BadDigit,
        Flaw::Length,
        Flaw::CarriageReturn,
        Flaw::OwnersBad,
        Flaw::OwnersMissing,
        Flaw::Unclosed,
        Flaw::Unfinished,
        Flaw::TwiceBad,
        Flaw::Twice,
        Flaw::NoSelf,
        Flaw::Neither,
        Flaw::Both,
        Flaw::LongLov,
        Flaw::NoRow,
    ];

    /// Any of them; one with a long line rarely.
    pub fn any(random: &mut Random) -> Flaw {
        let flaw = random.pick(&Flaw::ALL);
        if flaw == Flaw::LongLov && !random.one_in(8) {
            return Flaw::any(random);
        }
        flaw
    }

    /// The number that it has alone.
    pub fn number(self) -> u32 {
        match self {
            Flaw::Twice => 34,
            Flaw::NoSelf => 35,
            Flaw::Neither | Flaw::Both => 36,
            Flaw::LongLov | Flaw::NoRow => 37,
            _ => 33,
        }
    }

    /// Puts it in an entry of a draft.
    pub(super) fn put(self, draft: &mut Draft, at: usize, random: &mut Random) {
        match self {
            Flaw::OwnersBad => {
                if let Some(line) = draft.owners.get_mut(at) {
                    *line = owners::bad(line, random);
                }
            }
            Flaw::OwnersMissing => draft.owners.truncate(at),
            Flaw::Unclosed => {
                draft.entries.truncate(at + 1);
                draft.entries[at].closing = None;
            }
            Flaw::Unfinished => draft.tail = unfinished(random),
            Flaw::NoRow => draft.rowless = Some(at),
            _ => self.put_in_lines(draft, at, random),
        }
    }

    fn put_in_lines(self, draft: &mut Draft, at: usize, random: &mut Random) {
        let entry = &mut draft.entries[at];
        match self {
            Flaw::LineOutside => entry.before.push(outside(random)),
            Flaw::NoFirst => entry.first = no_first(random),
            Flaw::OtherLine => {
                let text = other_line(random);
                entry.insert(Line { kind: None, text }, random);
            }
            Flaw::CarriageReturn if random.one_in(3) => entry.closing = Some(b"\r".to_vec()),
            Flaw::NoSelf => entry.keep([Kind::Lov, Kind::Fid]),
            Flaw::Neither => entry.keep([Kind::Lma; 2]),
            Flaw::Both | Flaw::LongLov | Flaw::Twice | Flaw::TwiceBad => {
                self.add_line(entry, &mut draft.traits, random);
            }
            _ => {
                if let Some(line) = entry.pick_taken(random) {
                    self.spoil(line, random);
                }
            }
        }
    }

    /// Adds a line of one of the three.
    fn add_line(self, entry: &mut Entry, traits: &mut Vec<Trait>, random: &mut Random) {
        match self {
            Flaw::Both => {
                let kind = if entry.is_file() {
                    Kind::Fid
                } else {
                    Kind::Lov
                };
                let line = kind.line(traits, random);
                entry.insert(line, random);
            }
            Flaw::LongLov => {
                let bytes = random.pick(&[ROOM + 1, ROOM + 2, ROOM + 100]);
                let text = value::line("lov", &random.bytes(bytes), traits, random);
                // What was a file or an object becomes a file; what was both stays both.
                let kept = if entry.is_both() {
                    Kind::Fid
                } else {
                    Kind::Lma
                };
                entry.keep([Kind::Lma, kept]);
                let kind = Some(Kind::Lov);
                entry.insert(Line { kind, text }, random);
            }
            _ => {
                let kind = entry.pick_taken(random).and_then(|line| line.kind);
                if let Some(mut line) = kind.map(|kind| kind.line(traits, random)) {
                    if self == Flaw::TwiceBad {
                        let flaw = random.pick(&[Flaw::NoPrefix, Flaw::OddDigits, Flaw::BadDigit]);
                        flaw.spoil(&mut line, random);
                    }
                    entry.attributes.push(line);
                }
            }
        }
    }

    /// Makes a line of one of the three bad.
    fn spoil(self, line: &mut Line, random: &mut Random) {
        let text = &mut line.text;
        // `trusted.`, three letters and `=0x`.
        const DIGITS: usize = 14;
        match self {
            Flaw::NoPrefix => {
                let other =
                    random.pick(&["", "=", "=0", "=0X", "=x", "==0x", "=\"", "=0s", "= 0x"]);
                let rest = text.split_off(DIGITS.min(text.len()));
                text.truncate(11);
                text.extend(other.bytes());
                // Behind the name alone digits would make it another name.
                if random.one_in(2) && !other.is_empty() {
                    text.extend(rest);
                }
            }
            Flaw::OddDigits if text.len() > DIGITS && random.one_in(2) => {
                text.pop();
            }
            Flaw::OddDigits => text.push(random.pick(b"0aF")),
            Flaw::BadDigit if text.len() > DIGITS => {
                let at = DIGITS + random.below(text.len() - DIGITS);
                text[at] = random.pick(b"gGxX/:@`\0\r \xff");
            }
            Flaw::BadDigit => text.extend(b"0g"),
            Flaw::Length => {
                let bytes = random.pick(&[0, 1, 8, 15, 17, 23, 25, 31, 33, 48, 300]);
                let name = random.pick(&["fid", "lma"]);
                let digits = "5a".repeat(bytes);
                *text = format!("trusted.{name}=0x{digits}").into_bytes();
            }
            _ => text.push(b'\r'),
        }
    }
}

/// A line where no entry is open.
fn outside(random: &mut Random) -> Vec<u8> {
    random
        .pick(&[
            &b""[..],
            b"\r",
            b"# owner: x",
            b"trusted.lov=0x",
            b"user.x=0x00",
            b" ",
            b"#",
        ])
        .to_vec()
}

/// A line in the place of the first.
fn no_first(random: &mut Random) -> Vec<u8> {
    random
        .pick(&[
            &b"# file"[..],
            b"#file: a",
            b"# File: a",
            b" # file: a",
            b"file: a",
            b"# fil:",
        ])
        .to_vec()
}

/// A line of an entry that is no attribute.
fn other_line(random: &mut Random) -> Vec<u8> {
    random
        .pick(&[
            &b"user.trusted.x=0x00"[..],
            b"user.",
            b"security.selinux=0x00",
            b"# owner: x",
            b"# file: a",
            b"trusted",
            b"Trusted.lov=0x",
            b" trusted.lov=0x",
            b"\r",
            b" ",
            b"\0",
        ])
        .to_vec()
}

/// What stands behind the last newline.
fn unfinished(random: &mut Random) -> Vec<u8> {
    random
        .pick(&[
            &b"#"[..],
            b"# file: a",
            b"t",
            b"trusted.lov=0x",
            b"\r",
            b"x",
            b"\0",
        ])
        .to_vec()
}
