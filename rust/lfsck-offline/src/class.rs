//! The classes: their names, and what they mean.

use numbers::call;

use crate::fid::{Fid, MdtFid};
use crate::rows::Claim;

/// What is found at a position.
#[derive(Clone, Copy, Debug, PartialEq, Eq)]
pub enum Class {
    /// A header or a slot with nothing to mend.
    Clean,
    /// A header whose own id or sequence is not the file's.
    SelfId,
    /// A zero slot.
    Hole,
    /// A slot that is not the keeper of its object.
    Multiple,
    /// A keeper whose object is absent.
    Dangling,
    /// A keeper whose object claims nothing.
    Blank,
    /// A keeper whose object claims another slot: this one.
    Unmatched(Claim),
    /// A keeper whose object claims it, on the OST that it names, and has another owner.
    Owner,
    /// An object that no slot names, without claim.
    Spare,
    /// A fresh object that no slot names.
    Empty,
    /// An object that no slot names; its claimed place can be had.
    Orphan,
    /// An object that no slot names; its claimed place cannot be had.
    Conflict,
    /// An object that a slot names.
    Kept,
    /// An unused row.
    Unused,
    /// A keeper whose object claims it and is on another OST than it names.
    WrongOst,
}

/// The names of the classes, each at its number.
pub const NAMES: [&str; call::CLASSES] = [
    "CLEAN",
    "SELF",
    "HOLE",
    "MULTIPLE",
    "DANGLING",
    "BLANK",
    "UNMATCHED",
    "OWNER",
    "SPARE",
    "EMPTY",
    "ORPHAN",
    "CONFLICT",
    "KEPT",
    "UNUSED",
    "WRONG-OST",
];

/// What each class means, at its number.
pub const MEANINGS: [&str; call::CLASSES] = [
    "nothing to mend",
    "the layout's own FID is not the file's",
    "a slot without object",
    "another slot keeps the object",
    "the object is absent",
    "the object claims nothing",
    "the object claims another slot",
    "the object has another owner",
    "no slot names it and it claims nothing",
    "made empty by a repair, and no slot names it",
    "no slot names it, and its claimed place can be had",
    "no slot names it, and its claimed place cannot be had",
    "a slot names it",
    "the row is not used",
    "the object is on another OST than the slot names",
];

impl Class {
    /// The class that the library hands out as four numbers.
    pub fn of_numbers([number, sequence, id, index]: [u64; call::CLASS]) -> Option<Class> {
        Some(match number {
            0 => Class::Clean,
            1 => Class::SelfId,
            2 => Class::Hole,
            3 => Class::Multiple,
            4 => Class::Dangling,
            5 => Class::Blank,
            6 => Class::Unmatched(Claim {
                file: MdtFid(Fid::new(sequence, u32::try_from(id).ok()?)),
                index: u32::try_from(index).ok()?,
            }),
            7 => Class::Owner,
            8 => Class::Spare,
            9 => Class::Empty,
            10 => Class::Orphan,
            11 => Class::Conflict,
            12 => Class::Kept,
            13 => Class::Unused,
            14 => Class::WrongOst,
            _ => return None,
        })
    }

    /// The class's number.
    pub fn number(self) -> usize {
        match self {
            Class::Clean => 0,
            Class::SelfId => 1,
            Class::Hole => 2,
            Class::Multiple => 3,
            Class::Dangling => 4,
            Class::Blank => 5,
            Class::Unmatched(_) => 6,
            Class::Owner => 7,
            Class::Spare => 8,
            Class::Empty => 9,
            Class::Orphan => 10,
            Class::Conflict => 11,
            Class::Kept => 12,
            Class::Unused => 13,
            Class::WrongOst => 14,
        }
    }

    /// The class's name.
    pub fn name(self) -> &'static str {
        NAMES[self.number()]
    }

    /// What the class means.
    pub fn meaning(self) -> &'static str {
        MEANINGS[self.number()]
    }

    /// Whether a person at the desk wants to hear of it.
    pub fn is_finding(self) -> bool {
        !matches!(
            self,
            Class::Clean | Class::Hole | Class::Kept | Class::Unused
        )
    }
}

#[cfg(test)]
mod tests {
    use super::*;

    #[test]
    fn every_number_has_its_class() {
        for number in 0..call::CLASSES as u64 {
            let class = Class::of_numbers([number, 0, 0, 0]).expect("a class");
            assert_eq!(class.number() as u64, number);
        }
        assert_eq!(Class::of_numbers([call::CLASSES as u64, 0, 0, 0]), None);
    }
}
