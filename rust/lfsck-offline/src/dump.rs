//! Where the lines of dumps stand, and which of them became which row: for people, beside the
//! library's reading.

use std::borrow::Cow;

use crate::tables::Table;

/// What an entry's first line begins with.
pub const FIRST: &[u8] = b"# file:";
/// What its other lines begin with.
pub const TRUSTED: &[u8] = b"trusted.";
/// So much of a line is kept: more than the digits of the longest attribute that Linux has.
pub const MOST_LINE: usize = 1 << 18;
/// So much of an entry's first line is kept.
const MOST_FIRST: usize = 1024;

/// The attributes that are taken.
#[derive(Clone, Copy, Debug, PartialEq, Eq)]
pub enum Kind {
    /// The layout of a file.
    Lov,
    /// The claim of an object.
    Fid,
    /// The self FID.
    Lma,
}

/// Where an entry begins.
#[derive(Clone, Debug, PartialEq, Eq)]
pub struct Origin {
    /// The dump, counted from 0.
    pub dump: usize,
    /// Its first line in that dump, counted from 1.
    pub line: u64,
    /// That line, or the beginning of a long one.
    pub text: Vec<u8>,
}

impl Origin {
    /// The name as the dump has it.
    pub fn name(&self) -> &[u8] {
        let name = self.text.strip_prefix(FIRST).unwrap_or(&self.text);
        name.strip_prefix(b" ").unwrap_or(name)
    }
}

/// An entry that is open.
#[derive(Clone, Debug)]
pub struct Entry {
    /// Where it begins.
    pub origin: Origin,
    /// The attributes that were taken.
    pub kinds: Vec<Kind>,
    /// The bytes of its layout, as far as the line is kept.
    pub layout: usize,
}

/// The dumps as far as they were read.
#[derive(Default)]
pub struct Dumps {
    /// The dump that is read, counted from 0.
    dump: usize,
    /// The lines of the dumps before it.
    before: u64,
    /// The lines that have ended, of all dumps.
    lines: u64,
    /// The beginning of a line that has not.
    rest: Vec<u8>,
    /// The entry that is open.
    pub entry: Option<Entry>,
    /// The entries that were closed.
    pub closed: usize,
    files: Vec<Origin>,
    objects: Vec<Origin>,
}

/// The first bytes of a line, at most so many; a character that would be cut is left out.
pub fn beginning(line: &[u8], most: usize) -> &[u8] {
    let Some(first) = line.get(..most).filter(|first| first.len() < line.len()) else {
        return line;
    };
    match str::from_utf8(first) {
        Err(error) if error.error_len().is_none() => &first[..error.valid_up_to()],
        _ => first,
    }
}

impl Kind {
    /// The attribute of a line without its `trusted.`, and what stands from its `=` on.
    pub fn split(line: &[u8]) -> Option<(Kind, &[u8])> {
        let end = line.iter().position(|&byte| byte == b'=');
        let (name, value) = line.split_at(end.unwrap_or(line.len()));
        let kind = match name {
            b"lov" => Kind::Lov,
            b"fid" => Kind::Fid,
            b"lma" => Kind::Lma,
            _ => return None,
        };
        Some((kind, value))
    }

    /// Its name.
    pub fn name(self) -> &'static str {
        match self {
            Kind::Lov => "trusted.lov",
            Kind::Fid => "trusted.fid",
            Kind::Lma => "trusted.lma",
        }
    }
}

impl Dumps {
    /// Takes note of a piece in which every line is good.
    pub fn take(&mut self, piece: &[u8]) {
        for line in piece.split_inclusive(|&byte| byte == b'\n') {
            match line.strip_suffix(b"\n") {
                Some(line) => self.end_line(line),
                None => self.keep(line),
            }
        }
    }

    /// Takes note of a piece up to a line that ends in it, counted over all dumps; gives that line.
    pub fn take_to<'piece>(&mut self, line: u64, piece: &'piece [u8]) -> Cow<'piece, [u8]> {
        for text in piece.split_inclusive(|&byte| byte == b'\n') {
            let text = text.strip_suffix(b"\n").unwrap_or(text);
            if self.lines + 1 == line {
                return self.whole(text);
            }
            self.end_line(text);
        }
        Cow::Borrowed(b"")
    }

    /// The next dump begins; the one before it was whole.
    pub fn next(&mut self) {
        self.dump += 1;
        self.before = self.lines;
    }

    /// A line of the dump that is read, from one counted over all.
    pub fn line_here(&self, line: u64) -> u64 {
        line.saturating_sub(self.before)
    }

    /// The beginning of a line that has not ended.
    pub fn rest(&self) -> &[u8] {
        &self.rest
    }

    /// Where the entry of a row began.
    pub fn origin(&self, table: Table, row: usize) -> Option<&Origin> {
        match table {
            Table::Parents => self.files.get(row),
            Table::Objects => self.objects.get(row),
            _ => None,
        }
    }

    fn keep(&mut self, part: &[u8]) {
        let room = MOST_LINE - self.rest.len();
        self.rest.extend(&part[..part.len().min(room)]);
    }

    /// A line with its beginning from earlier pieces.
    fn whole<'piece>(&mut self, part: &'piece [u8]) -> Cow<'piece, [u8]> {
        if self.rest.is_empty() {
            return Cow::Borrowed(part);
        }
        self.keep(part);
        Cow::Owned(std::mem::take(&mut self.rest))
    }

    fn end_line(&mut self, part: &[u8]) {
        let line = self.whole(part);
        self.lines += 1;
        match &mut self.entry {
            None => self.entry = Some(self.begin(&line)),
            Some(_) if line.is_empty() => self.close(),
            Some(entry) => entry.add(&line),
        }
    }

    fn begin(&self, line: &[u8]) -> Entry {
        Entry {
            origin: Origin {
                dump: self.dump,
                line: self.lines - self.before,
                text: beginning(line, MOST_FIRST).to_vec(),
            },
            kinds: Vec::new(),
            layout: 0,
        }
    }

    fn close(&mut self) {
        self.closed += 1;
        if let Some(entry) = self.entry.take() {
            match entry.kinds.contains(&Kind::Lov) {
                true => self.files.push(entry.origin),
                false => self.objects.push(entry.origin),
            }
        }
    }
}

impl Entry {
    fn add(&mut self, line: &[u8]) {
        let named = line.strip_prefix(TRUSTED);
        if let Some((kind, value)) = named.and_then(Kind::split) {
            self.kinds.push(kind);
            if kind == Kind::Lov {
                // `=0x`, then two digits a byte.
                self.layout = value.len().saturating_sub(3) / 2;
            }
        }
    }
}

#[cfg(test)]
mod tests {
    use super::*;

    const TEXT: &[u8] = b"# file: a\ntrusted.lov=0x0011\n\n# file: b c\ntrusted.fid=0x\ntrust";

    /// The dumps after a text in pieces of so many bytes.
    fn taken(size: usize) -> Dumps {
        let mut dumps = Dumps::default();
        TEXT.chunks(size).for_each(|piece| dumps.take(piece));
        dumps
    }

    #[test]
    fn lines_and_entries_are_known_however_the_text_is_cut() {
        for size in 1..TEXT.len() {
            let dumps = taken(size);
            assert_eq!((dumps.lines, dumps.rest()), (5, &b"trust"[..]));
            let origin = |line, text: &[u8]| Origin {
                dump: 0,
                line,
                text: text.to_vec(),
            };
            let first = dumps.origin(Table::Parents, 0);
            assert_eq!(first, Some(&origin(1, b"# file: a")));
            assert_eq!(dumps.origin(Table::Objects, 0), None);
            let entry = dumps.entry.expect("an open entry");
            assert_eq!(entry.origin, origin(4, b"# file: b c"));
            assert_eq!(entry.origin.name(), b"b c");
            assert_eq!(entry.kinds, [Kind::Fid]);
        }
    }

    #[test]
    fn a_line_is_found_in_the_last_piece() {
        for cut in 0..TEXT.len() {
            let mut dumps = Dumps::default();
            let (first, second) = TEXT.split_at(cut);
            dumps.take(first);
            let next = dumps.lines + 1;
            if next <= 5 {
                let expected = TEXT.split(|&byte| byte == b'\n').nth(next as usize - 1);
                assert_eq!(Some(&*dumps.take_to(next, second)), expected, "{cut}");
            }
        }
    }

    #[test]
    fn no_character_is_cut() {
        let line = "ab\u{e9}\u{20ac}\u{1f600}c".as_bytes();
        let kept = [0, 1, 2, 2, 4, 4, 4, 7, 7, 7, 7, 11, 12, 12];
        for (most, length) in kept.into_iter().enumerate() {
            assert_eq!(beginning(line, most), &line[..length], "{most}");
        }
        // What is no text anyway is cut where it is asked, and a whole line stays as it is.
        assert_eq!(beginning(b"\xff\xc3\xa9", 2), b"\xff\xc3");
        assert_eq!(beginning(b"a\xc3", 2), b"a\xc3");
    }

    #[test]
    fn lines_are_counted_in_each_dump() {
        let mut dumps = Dumps::default();
        dumps.take(b"# file: a\ntrusted.fid=0x\n\n");
        dumps.next();
        dumps.take(b"# file: b\n");
        assert_eq!(dumps.line_here(4), 1);
        let entry = dumps.entry.expect("an open entry");
        assert_eq!((entry.origin.dump, entry.origin.line), (1, 1));
    }

    #[test]
    fn very_long_lines_are_kept_in_part() {
        let mut dumps = Dumps::default();
        dumps.take(b"# file: ");
        for _ in 0..100 {
            dumps.take(&[b'n'; 10_000]);
        }
        assert_eq!(dumps.rest().len(), MOST_LINE);
        dumps.take(b"\n");
        let entry = dumps.entry.expect("an open entry");
        assert_eq!(entry.origin.text.len(), MOST_FIRST);
        assert!(entry.origin.name().iter().all(|&byte| byte == b'n'));
    }
}
