//! How climbs end.

use reference::fid::Fid;
use reference::names::{Child, Namespace, ROOT};

/// The end of a climb.
#[derive(Clone, Copy, Debug, PartialEq, Eq, PartialOrd, Ord)]
pub enum Climb {
    /// It begins at ROOT.
    IsRoot,
    /// The row has a linkEA.
    OwnLink,
    /// The row has a linkEA without records.
    OwnEmptyLink,
    /// The row has neither linkEA nor `..`.
    NoUp,
    /// ROOT is above, and has no row.
    RootAbove,
    /// ROOT is above, and has a row.
    RootRowAbove,
    /// A row above has a linkEA.
    LinkAbove,
    /// A row above has a linkEA without records.
    EmptyLinkAbove,
    /// No row has the FID above.
    OutsideAbove,
    /// A row above has neither linkEA nor `..`.
    NoUpAbove,
    /// The row is above itself at once.
    UnderItself,
    /// The row is above itself further up.
    InCircle,
    /// It leads to a circle.
    ToCircle,
}

use Climb::*;

impl Climb {
    /// All of them.
    pub const ALL: [Climb; 13] = [
        IsRoot,
        OwnLink,
        OwnEmptyLink,
        NoUp,
        RootAbove,
        RootRowAbove,
        LinkAbove,
        EmptyLinkAbove,
        OutsideAbove,
        NoUpAbove,
        UnderItself,
        InCircle,
        ToCircle,
    ];

    /// The end of the climb from a directory, and how many levels it took, unless that is a circle.
    pub fn of(names: &Namespace, from: Fid) -> (Climb, Option<usize>) {
        let mut at = from;
        for level in 0..=names.children.len() {
            let row = row_of(names, at);
            match end_at(at, row) {
                Ok(end) if level == 0 => return (end.0, Some(level)),
                Ok(end) => return (end.1, Some(level)),
                Err(up) if up == from && level == 0 => return (UnderItself, None),
                Err(up) if up == from => return (InCircle, None),
                Err(up) => at = up,
            }
        }
        (ToCircle, None)
    }
}

/// The first row with a FID.
pub fn row_of(names: &Namespace, fid: Fid) -> Option<&Child> {
    names.children.iter().find(|child| child.own == Some(fid))
}

/// The end at a directory, as the first and as one above; or the directory that `..` names.
fn end_at(at: Fid, row: Option<&Child>) -> Result<(Climb, Climb), Fid> {
    let root_above = row.map_or(RootAbove, |_| RootRowAbove);
    match row {
        _ if at == ROOT => Ok((IsRoot, root_above)),
        // The first has a row.
        None => Ok((OutsideAbove, OutsideAbove)),
        Some(child) => match (&child.link, child.up) {
            (Some(link), _) if link.records.is_empty() => Ok((OwnEmptyLink, EmptyLinkAbove)),
            (Some(_), _) => Ok((OwnLink, LinkAbove)),
            (None, None) => Ok((NoUp, NoUpAbove)),
            (None, Some(up)) => Err(up),
        },
    }
}
