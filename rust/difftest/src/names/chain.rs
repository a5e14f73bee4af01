//! Long chains of directories.

use super::OUTSIDE;
use crate::Random;
use reference::fid::Fid;
use reference::link::{Link, Record};
use reference::names::{Child, Entry, Namespace, ROOT};

/// Where a chain leads.
#[derive(Clone, Copy, Debug, PartialEq, Eq, PartialOrd, Ord)]
pub enum Top {
    /// To ROOT, which has no row.
    Root,
    /// To ROOT, whose row says nothing.
    RootRow,
    /// To a row with a linkEA.
    Link,
    /// To a FID that no row has.
    Outside,
    /// To a row without linkEA and without `..`.
    NoUp,
    /// To the first row again.
    Circle,
}

impl Top {
    /// All of them.
    pub const ALL: [Top; 6] = [
        Top::Root,
        Top::RootRow,
        Top::Link,
        Top::Outside,
        Top::NoUp,
        Top::Circle,
    ];

    /// Whether what leads there is visible.
    pub fn is_visible(self) -> bool {
        matches!(self, Top::Root | Top::RootRow | Top::Link)
    }

    /// The FID, and the row where there is one more.
    fn row(self) -> (Fid, Option<Child>) {
        let last = fid(u16::MAX.into());
        let bare = |own| Child {
            own: Some(own),
            up: None,
            link: None,
        };
        let linked = Child {
            link: Some(Link {
                time: 3,
                padding: 4,
                records: Vec::new(),
            }),
            ..bare(last)
        };
        match self {
            Top::Root => (ROOT, None),
            Top::RootRow => (ROOT, Some(bare(ROOT))),
            Top::Link => (last, Some(linked)),
            Top::Outside => (OUTSIDE, None),
            Top::NoUp => (last, Some(bare(last))),
            Top::Circle => (fid(0), None),
        }
    }
}

fn fid(number: usize) -> Fid {
    Fid::new(0x2_0000_0400, number as u32 + 1)
}

/// As many directories as the lowest climbs levels, each in the next, in rows of any order; each
/// has an entry in the one above it, and the FID-in-dirents are missing.
pub fn chain(levels: usize, top: Top, random: &mut Random) -> Namespace {
    let (above, last) = top.row();
    let ups = (1..levels).map(fid).chain([above]);
    let directories = ups.enumerate().map(|(number, up)| Child {
        own: Some(fid(number)),
        up: Some(up),
        link: None,
    });
    let mut children: Vec<Child> = directories.chain(last).collect();
    random.shuffle(&mut children);
    let entries = children.iter().enumerate().filter_map(|(row, child)| {
        let parent = child.up?;
        let name = b"d".to_vec();
        Some(Entry {
            record: Record { parent, name },
            child: row,
            fid: None,
        })
    });
    Namespace {
        entries: entries.collect(),
        children,
    }
}
