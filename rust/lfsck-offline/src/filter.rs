//! Which positions a list is about.

use crate::class::Class;
use crate::fid::{MdtFid, OstFid};
use crate::position::Position;
use crate::rows::Owner;
use crate::site::Site;

/// Each kind that is given narrows the list; of one kind any may match.
#[derive(Clone, Debug, Default, PartialEq, Eq)]
pub struct Filter {
    /// The numbers of classes; without any, the classes that are findings.
    pub classes: Vec<usize>,
    /// Files; of an object, the one that it claims.
    pub files: Vec<MdtFid>,
    /// Objects; of a slot, the one that it names.
    pub objects: Vec<OstFid>,
    /// OSTs; of a slot, the one that it says its object is on.
    pub osts: Vec<u64>,
    /// Owners: a file's for its header and slots, an object's for the object.
    pub owners: Vec<OwnerPattern>,
}

/// A user, and a group or any.
#[derive(Clone, Copy, Debug, PartialEq, Eq)]
pub struct OwnerPattern {
    /// The user.
    pub uid: u32,
    /// The group; none means any.
    pub gid: Option<u32>,
}

/// What a position is about.
#[derive(Default)]
struct Subject {
    file: Option<MdtFid>,
    object: Option<OstFid>,
    ost: Option<u64>,
    owner: Option<Owner>,
}

impl Subject {
    fn at(site: &Site, position: Position) -> Subject {
        let of_file = |row: usize| {
            let file = site.file(row);
            Subject {
                file: file.map(|file| file.fid),
                owner: file.map(|file| file.owner),
                ..Subject::default()
            }
        };
        match position {
            Position::Header(row) => of_file(row),
            Position::Slot(place) => {
                let stripe = site.stripe(place);
                Subject {
                    object: stripe.map(|stripe| stripe.object),
                    ost: stripe.map(|stripe| stripe.ost),
                    ..of_file(place.row)
                }
            }
            Position::Object(row) => {
                let object = site.objects[row];
                Subject {
                    file: object.and_then(|object| Some(object.claim?.file)),
                    object: object.map(|object| object.fid),
                    ost: object.map(|object| object.ost.into()),
                    owner: object.map(|object| object.owner),
                }
            }
            Position::End => Subject::default(),
        }
    }
}

impl OwnerPattern {
    fn fits(self, owner: Owner) -> bool {
        self.uid == owner.uid && self.gid.is_none_or(|gid| gid == owner.gid)
    }
}

/// Whether one of the wanted is there, or none is wanted in particular.
fn fits<Item: PartialEq>(wanted: &[Item], there: Option<Item>) -> bool {
    wanted.is_empty() || there.is_some_and(|there| wanted.contains(&there))
}

impl Filter {
    /// Whether files, objects, OSTs or owners are named.
    pub fn is_of_places(&self) -> bool {
        let (files, objects) = (self.files.is_empty(), self.objects.is_empty());
        !(files && objects && self.osts.is_empty() && self.owners.is_empty())
    }

    /// Whether a position is of a wanted file, object, OST and owner.
    pub fn admits(&self, site: &Site, position: Position) -> bool {
        let subject = Subject::at(site, position);
        let owned = |owner: Owner| self.owners.iter().any(|pattern| pattern.fits(owner));
        fits(&self.files, subject.file)
            && fits(&self.objects, subject.object)
            && fits(&self.osts, subject.ost)
            && (self.owners.is_empty() || subject.owner.is_some_and(owned))
    }

    /// Whether a class is listed.
    pub fn lists(&self, class: Class) -> bool {
        match self.classes.is_empty() {
            true => class.is_finding(),
            false => self.classes.contains(&class.number()),
        }
    }
}
