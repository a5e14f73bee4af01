//! Entries, line by line.

use super::{Trait, value};
use crate::Random;

/// The lines of an entry, without their newlines.
#[derive(Clone, Debug)]
pub struct Entry {
    /// Lines before the first, which belong to no entry.
    pub before: Vec<Vec<u8>>,
    /// The first line.
    pub first: Vec<u8>,
    /// The attributes.
    pub attributes: Vec<Line>,
    /// The closing line, if there is one.
    pub closing: Option<Vec<u8>>,
}

/// A line between the first and the closing one.
#[derive(Clone, Debug)]
pub struct Line {
    /// Which of the three it is.
    pub kind: Option<Kind>,
    /// Its bytes.
    pub text: Vec<u8>,
}

/// The attributes that are taken.
#[derive(Clone, Copy, Debug, PartialEq, Eq)]
pub enum Kind {
    /// `trusted.lov`.
    Lov,
    /// `trusted.fid`.
    Fid,
    /// `trusted.lma`.
    Lma,
}

impl Kind {
    /// A line of this attribute, with a good value.
    pub fn line(self, traits: &mut Vec<Trait>, random: &mut Random) -> Line {
        let (name, value) = match self {
            Kind::Lov => ("lov", value::layout(traits, random)),
            Kind::Fid => ("fid", value::claim(traits, random)),
            Kind::Lma => ("lma", value::lma(random)),
        };
        Line {
            kind: Some(self),
            text: value::line(name, &value, traits, random),
        }
    }
}

impl Entry {
    /// A good entry.
    pub fn random(traits: &mut Vec<Trait>, random: &mut Random) -> Entry {
        let kind = random.pick(&[Kind::Lov, Kind::Fid]);
        let mut attributes = vec![Kind::Lma.line(traits, random), kind.line(traits, random)];
        let skipped = random.pick(&[0, 0, 1, 2]);
        attributes.extend((0..skipped).map(|_| skipped_line(random)));
        traits.push(match skipped {
            0 => Trait::OnlyTaken,
            _ => Trait::Skipped,
        });
        random.shuffle(&mut attributes);
        Entry {
            before: Vec::new(),
            first: first_line(traits, random),
            attributes,
            closing: Some(Vec::new()),
        }
    }

    fn has(&self, kind: Kind) -> bool {
        self.attributes.iter().any(|line| line.kind == Some(kind))
    }

    /// Whether it has a layout.
    pub fn is_file(&self) -> bool {
        self.has(Kind::Lov)
    }

    /// Whether it has a layout and a claim.
    pub fn is_both(&self) -> bool {
        self.has(Kind::Lov) && self.has(Kind::Fid)
    }

    /// Takes the attributes away that are of no kept kind.
    pub fn keep(&mut self, kept: [Kind; 2]) {
        let is_kept = |line: &Line| line.kind.is_none_or(|kind| kept.contains(&kind));
        self.attributes.retain(is_kept);
    }

    /// All its lines.
    pub fn all_lines(&self) -> impl Iterator<Item = &[u8]> {
        let attributes = self.attributes.iter().map(|line| &line.text);
        let lines = self.before.iter().chain([&self.first]).chain(attributes);
        lines.chain(&self.closing).map(|line| &line[..])
    }

    /// One of the lines that are taken.
    pub fn pick_taken(&mut self, random: &mut Random) -> Option<&mut Line> {
        let mut taken: Vec<&mut Line> = self
            .attributes
            .iter_mut()
            .filter(|line| line.kind.is_some())
            .collect();
        match taken.len() {
            0 => None,
            count => Some(taken.swap_remove(random.below(count))),
        }
    }

    /// Puts a line anywhere among the attributes.
    pub fn insert(&mut self, line: Line, random: &mut Random) {
        let at = random.below(self.attributes.len() + 1);
        self.attributes.insert(at, line);
    }
}

/// A first line, its name of any bytes but a newline now and then.
fn first_line(traits: &mut Vec<Trait>, random: &mut Random) -> Vec<u8> {
    let name = match random.below(6) {
        0 => {
            traits.push(Trait::OddName);
            let count = 1 + random.below(20);
            let mut name = random.bytes(count);
            name.retain(|&byte| byte != b'\n');
            name.push(random.pick(&[0, b'\r', 0x1b, 0xff, b'\\']));
            name
        }
        1 => random
            .pick(&[&b""[..], b" ", b"trusted.lov=0x", b" a\\012b", b"# file:"])
            .to_vec(),
        _ => format!(" mnt/{:x}", random.below(4096)).into_bytes(),
    };
    [b"# file:", &name[..]].concat()
}

/// A line that is skipped, whatever its value.
fn skipped_line(random: &mut Random) -> Line {
    let name = random.pick(&[
        "", "link", "lo", "lovx", "lov.old", "Lov", "LMA", "fid ", "lm", "f", "lma\0", "hsm",
        "fidx",
    ]);
    let value = random.pick(&[
        "",
        "=",
        "=0x",
        "=0x0",
        "=zz",
        "=\"text\"",
        "=0x00\r",
        "==0x",
    ]);
    Line {
        kind: None,
        text: format!("trusted.{name}{value}").into_bytes(),
    }
}
