//! Every fault of the tables of names, row by row, with the field and the reason.
//!
//! The library says whether the tables pass, by the first number that applies. This list is for
//! the person who has to mend them; the tests hold it to the library's number.

use std::collections::HashMap;

use numbers::answer::{BAD_LINK, LONG_CLIMB, NO_POSITION};
use numbers::names::MOST_LEVELS;
use numbers::{child, entry};

use crate::faults::{Fault, length_fault};
use crate::fid::{MdtFid, number16, number32};
use crate::link_fault;
use crate::name_rows::{Child, ROOT, fid_words};
use crate::names::Names;
use crate::tables::{Table, Together};

/// Everything that is wrong with the tables, table by table and row by row. Climbs are looked at
/// where nothing else is wrong.
pub fn name_faults(names: &Names) -> Vec<Fault> {
    let lengths = Table::NAMES.into_iter();
    let mut list: Vec<Fault> = lengths
        .filter_map(|table| length_fault(table, names.of(table)))
        .collect();
    let children = names.count(Table::Children);
    for (row, bytes) in names.rows(Table::Entries).enumerate() {
        list.extend(child_fault(row, bytes, children));
        list.extend(name_fault(row, bytes));
    }
    let links = names.rows(Table::Children).enumerate();
    list.extend(links.filter_map(|(row, bytes)| link_fault(row, bytes)));
    if list.is_empty() {
        list = climb_faults(names);
    }
    list
}

fn fault(number: u32, table: Table, row: usize, field: String, reason: String) -> Fault {
    Fault {
        number,
        table,
        row: Some(row),
        other: None,
        field,
        reason,
    }
}

/// The child is a row of the other table.
fn child_fault(row: usize, bytes: &[u8], children: usize) -> Option<Fault> {
    let child = number32(bytes, entry::CHILD_AT) as usize;
    let reason = match children {
        1 => "there is 1 child row".to_string(),
        _ => format!("there are {children} child rows"),
    };
    let field = format!("child's row {child}");
    (child >= children).then(|| fault(NO_POSITION, Table::Entries, row, field, reason))
}

/// The name has 1 to 255 bytes, and no slash and no zero among them.
fn name_fault(row: usize, bytes: &[u8]) -> Option<Fault> {
    let length = usize::from(number16(bytes, entry::LENGTH_AT));
    let name = bytes[entry::NAME_AT..].get(..length);
    let bad = |byte: &u8| *byte == b'/' || *byte == 0;
    let reason = match name {
        None => format!("{length} bytes, the room is {}", entry::ROOM),
        Some([]) => "it has no bytes".to_string(),
        Some(name) => {
            let at = name.iter().position(bad)?;
            let what = if name[at] == 0 { "zero byte" } else { "slash" };
            format!("a {what} at {at}")
        }
    };
    let field = "name".to_string();
    Some(fault(BAD_LINK, Table::Entries, row, field, reason))
}

/// The linkEA is none, or one that fits its room.
fn link_fault(row: usize, bytes: &[u8]) -> Option<Fault> {
    let length = usize::from(number16(bytes, child::LENGTH_AT));
    let reason = match bytes[child::LINK_AT..].get(..length) {
        None => format!("{length} bytes, the room is {}", child::ROOM),
        Some([]) => return None,
        Some(link) => link_fault::fault(link)?.to_string(),
    };
    let field = "linkEA".to_string();
    Some(fault(BAD_LINK, Table::Children, row, field, reason))
}

/// What a climb meets at a row.
#[derive(Clone, Copy)]
enum Look {
    /// The row tells by itself.
    Tells,
    /// Its `..` leads to ROOT or out of the table.
    Leads,
    /// Its `..` leads to that row.
    Up(usize),
}

/// How a climb from a row ends.
#[derive(Clone, Copy, PartialEq, Eq)]
enum Climb {
    /// After so many levels.
    After(usize),
    /// Never.
    Circle,
}

/// The rows from which a climb is too long or goes in a circle.
fn climb_faults(names: &Names) -> Vec<Fault> {
    let children: Vec<Child> = names
        .rows(Table::Children)
        .filter_map(Child::read)
        .collect();
    let first = first_rows(&children);
    let looks: Vec<Look> = children
        .iter()
        .map(|child| look_at(child, &first))
        .collect();
    let climbs = climbs(&looks);
    let rows = children.iter().enumerate();
    let faults = rows.filter_map(|(row, child)| {
        let own = child.own?;
        let reason = match climbs[first[&own]] {
            Climb::After(levels) if levels <= MOST_LEVELS => return None,
            Climb::After(levels) => {
                format!("{levels} levels to climb, and at most {MOST_LEVELS} are followed")
            }
            Climb::Circle => "the climb goes in a circle".to_string(),
        };
        let field = format!("'..' {} of {own}", fid_words(child.up));
        Some(fault(LONG_CLIMB, Table::Children, row, field, reason))
    });
    faults.collect()
}

/// The first row with each self FID.
fn first_rows(children: &[Child]) -> HashMap<MdtFid, usize> {
    let mut first = HashMap::new();
    for (row, child) in children.iter().enumerate() {
        if let Some(own) = child.own {
            first.entry(own).or_insert(row);
        }
    }
    first
}

fn look_at(child: &Child, first: &HashMap<MdtFid, usize>) -> Look {
    if child.own == Some(ROOT) || child.link.is_some() {
        return Look::Tells;
    }
    match child.up {
        None => Look::Tells,
        Some(ROOT) => Look::Leads,
        Some(up) => first.get(&up).map_or(Look::Leads, |row| Look::Up(*row)),
    }
}

/// How a climb from each row ends. Each row is walked over once: a walk ends where the end is known.
fn climbs(looks: &[Look]) -> Vec<Climb> {
    let mut known = vec![None; looks.len()];
    for row in 0..looks.len() {
        let (path, end) = walk(row, looks, &mut known);
        settle(&path, end, &mut known);
    }
    known.into_iter().flatten().collect()
}

/// The rows from this one up to one whose end is known, and that end. A row that is met again is in
/// a circle, as all of them are taken to be until their end is known.
fn walk(row: usize, looks: &[Look], known: &mut [Option<Climb>]) -> (Vec<usize>, Climb) {
    let mut path = Vec::new();
    let mut at = row;
    loop {
        if let Some(end) = known[at] {
            return (path, end);
        }
        match looks[at] {
            Look::Tells => known[at] = Some(Climb::After(0)),
            Look::Leads => known[at] = Some(Climb::After(1)),
            Look::Up(up) => {
                known[at] = Some(Climb::Circle);
                path.push(at);
                at = up;
            }
        }
    }
}

/// Writes down how the climbs from a path end, from its upper end down.
fn settle(path: &[usize], end: Climb, known: &mut [Option<Climb>]) {
    let mut end = end;
    for row in path.iter().rev() {
        if let Climb::After(levels) = end {
            end = Climb::After(levels + 1);
        }
        known[*row] = Some(end);
    }
}

#[cfg(test)]
mod tests {
    use super::*;
    use difftest::names::{Top, chain, random_names, to_bytes};
    use difftest::{Coverage, Random};
    use numbers::answer::{BAD_TABLE, OK};

    /// Puts a byte that matters in a place that a field has, or changes a length.
    fn damage(table: &mut Vec<u8>, size: usize, fields: usize, random: &mut Random) {
        if random.one_in(12) {
            let length = random.below(table.len() + 2);
            table.resize(length, 0);
        }
        if table.len() >= size {
            let row = random.below(table.len() / size);
            let at = row * size + random.below(fields);
            table[at] = random.pick(&[0, 1, 2, 16, 47, 255]);
        }
    }

    fn random_case(random: &mut Random) -> Names {
        let (entries, children) = to_bytes(&random_names(random), random);
        let mut names = Names { entries, children };
        for _ in 0..random.below(3) {
            match random.below(2) {
                0 => damage(&mut names.entries, entry::BYTES, 48, random),
                _ => damage(&mut names.children, child::BYTES, 80, random),
            }
        }
        names
    }

    /// The first number that applies to a list.
    fn first_number(list: &[Fault]) -> u32 {
        list.iter().map(|fault| fault.number).min().unwrap_or(OK)
    }

    #[test]
    fn the_list_agrees_with_the_library() {
        let mut random = Random::for_test("name faults");
        let numbers = [OK, BAD_TABLE, NO_POSITION, BAD_LINK, LONG_CLIMB];
        let mut met = Coverage::of("numbers", numbers);
        for _ in 0..60_000 {
            let names = random_case(&mut random);
            let list = name_faults(&names);
            assert_eq!(first_number(&list), names.check(), "{list:?}");
            met.met(first_number(&list));
        }
        met.require(100);
    }
    /// What is told of a chain: the library's number, and how many rows of which reason.
    fn told(levels: usize, top: Top) -> (u32, usize, usize) {
        let mut random = Random::for_test("chains");
        let (entries, children) = to_bytes(&chain(levels, top, &mut random), &mut random);
        let names = Names { entries, children };
        let list = name_faults(&names);
        let of = |words: &str| {
            let such = list.iter().filter(|fault| fault.reason.contains(words));
            such.count()
        };
        (names.check(), of("levels to climb"), of("in a circle"))
    }

    #[test]
    fn a_climb_that_is_too_long_is_no_circle() {
        for top in Top::ALL {
            let most = told(MOST_LEVELS, top);
            let more = told(MOST_LEVELS + 1, top);
            let expected = match top {
                Top::Circle => [MOST_LEVELS, MOST_LEVELS + 1].map(|rows| (LONG_CLIMB, 0, rows)),
                _ => [(OK, 0, 0), (LONG_CLIMB, 1, 0)],
            };
            assert_eq!([most, more], expected, "{top:?}");
        }
    }
}
