//! Which directories are visible.

use std::collections::HashMap;

use super::rows::{Child, Namespace};
use crate::fid::Fid;

/// The directory that is visible by itself, whether it has a row or not.
pub const ROOT: Fid = Fid::new(0x2_0000_0007, 1);
/// The most levels of a climb.
pub const MOST_LEVELS: usize = 4096;

/// What a child row is as a directory.
#[derive(Clone, Copy, Debug, PartialEq, Eq, PartialOrd, Ord)]
pub enum Mark {
    /// Hidden.
    Hidden,
    /// Visible.
    Visible,
    /// None, without a self FID.
    NoFid,
}

impl Mark {
    /// All of them, in the order of their numbers.
    pub const ALL: [Mark; 3] = [Mark::Hidden, Mark::Visible, Mark::NoFid];

    /// The mark of a number.
    pub fn of_number(number: u64) -> Option<Mark> {
        Mark::ALL.into_iter().find(|mark| mark.number() == number)
    }

    /// Its number.
    pub fn number(self) -> u64 {
        self as u64
    }
}

/// What a climb meets at a row.
#[derive(Clone, Copy, Debug)]
enum Look {
    /// The row tells the mark.
    Tells(Mark),
    /// Its `..` leads to ROOT or out of the table, and this is the mark there.
    Leads(Mark),
    /// Its `..` leads to that row.
    Up(usize),
}

/// The marks of all child rows; none where a climb is too long, as every circle is.
pub fn judge(names: &Namespace) -> Option<Vec<Mark>> {
    let first = first_rows(&names.children);
    let looks = names.children.iter().map(|child| look_at(child, &first));
    let looks: Vec<Look> = looks.collect();
    let marks = names.children.iter().map(|child| match child.own {
        None => Some(Mark::NoFid),
        Some(own) => climb(first[&own], &looks),
    });
    marks.collect()
}

/// The first row with each self FID.
fn first_rows(children: &[Child]) -> HashMap<Fid, usize> {
    let mut first = HashMap::new();
    for (row, child) in children.iter().enumerate() {
        if let Some(own) = child.own {
            first.entry(own).or_insert(row);
        }
    }
    first
}

fn look_at(child: &Child, first: &HashMap<Fid, usize>) -> Look {
    if child.own == Some(ROOT) || child.link.is_some() {
        return Look::Tells(Mark::Visible);
    }
    match child.up {
        None => Look::Tells(Mark::Hidden),
        Some(ROOT) => Look::Leads(Mark::Visible),
        Some(up) => match first.get(&up) {
            None => Look::Leads(Mark::Hidden),
            Some(row) => Look::Up(*row),
        },
    }
}

/// Follows `..` from a row to what tells. After as many levels as there may be, the row that was
/// reached must tell by itself.
fn climb(from: usize, looks: &[Look]) -> Option<Mark> {
    let mut at = from;
    for _ in 0..MOST_LEVELS {
        match looks[at] {
            Look::Tells(mark) | Look::Leads(mark) => return Some(mark),
            Look::Up(row) => at = row,
        }
    }
    match looks[at] {
        Look::Tells(mark) => Some(mark),
        Look::Leads(_) | Look::Up(_) => None,
    }
}
