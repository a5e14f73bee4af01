//! Something that differs between the tables before and after a run.

use crate::fid::{MdtFid, OstFid};
use crate::json::Json;
use crate::rows::{Claim, File, Object, OwnFid, Owner, Stripe, slots_words};
use crate::tables::Table;
use crate::values;

/// A change of one row: where it is, what it concerns, and what stood and stands there.
#[derive(Clone, Debug, PartialEq, Eq)]
pub struct Change {
    /// The table of the row.
    pub table: Table,
    /// The row.
    pub row: usize,
    /// The file that it concerns; of an object, the one that it claims.
    pub file: Option<MdtFid>,
    /// The slot that it concerns; of an object, the one that it claims.
    pub slot: Option<u32>,
    /// The object that it concerns.
    pub object: Option<OstFid>,
    /// What differs.
    pub what: What,
    /// Whether an undo made it, and no run.
    pub undone: bool,
}

/// What differs, with the old and the new value.
#[derive(Clone, Debug, PartialEq, Eq)]
pub enum What {
    /// A file is there that was not, its named slots told apart.
    FileMade(File),
    /// A file is no longer there.
    FileRemoved(File),
    /// The FID that a layout says it belongs to.
    Own(Values<OwnFid>),
    /// The generation of a layout.
    Generation(Values<u64>),
    /// The number of slots of a layout.
    SlotCount(Values<usize>),
    /// What a slot names; nothing in a hole, and where there is no such slot.
    Slot(Values<Option<Stripe>>),
    /// An object is there that was not.
    ObjectMade(Object),
    /// An object is no longer there.
    ObjectDestroyed(Object),
    /// The claim of an object.
    Claim(Values<Option<Claim>>),
    /// The owner of an object.
    Owner(Values<Owner>),
}

/// What stood somewhere and what stands there now.
#[derive(Clone, Copy, Debug, PartialEq, Eq)]
pub struct Values<Of> {
    /// What stood there.
    pub old: Of,
    /// What stands there now.
    pub new: Of,
}

impl What {
    /// A fixed word for machines.
    pub fn kind(&self) -> &'static str {
        match self {
            What::FileMade(_) => "file_made",
            What::FileRemoved(_) => "file_removed",
            What::Own(_) => "own_fid",
            What::Generation(_) => "generation",
            What::SlotCount(_) => "slot_count",
            What::Slot(_) => "slot",
            What::ObjectMade(_) => "object_made",
            What::ObjectDestroyed(_) => "object_destroyed",
            What::Claim(_) => "claim",
            What::Owner(_) => "owner",
        }
    }

    /// For people, of a run or of an undo.
    fn words(&self, undone: bool) -> String {
        match self {
            What::FileMade(file) => {
                let slots = slots_words(file.slots.len());
                let generation = file.header.generation;
                format!(
                    "file made, owner {}, {slots}, generation {generation}",
                    file.owner
                )
            }
            What::FileRemoved(_) => "file removed".to_string(),
            What::Own(own) => format!("own FID written into the layout, it was {}", own.old),
            What::Generation(generation) => generation_words(*generation, undone),
            What::SlotCount(Values { old, new }) => {
                let done = if new > old { "grown" } else { "cut" };
                format!("layout {done} from {old} to {}", slots_words(*new))
            }
            What::Slot(slot) => slot_words(slot.old, slot.new, undone),
            What::ObjectMade(object) => {
                format!("{} made on OST {}", object_words(object), object.ost)
            }
            What::ObjectDestroyed(object) => format!("{} destroyed", object_words(object)),
            What::Claim(claim) => claim_words(claim.old, claim.new),
            What::Owner(Values { old, new }) => format!("owner {new} written, it was {old}"),
        }
    }

    /// The old and the new value for machines.
    fn values(&self) -> (Json, Json) {
        match self {
            What::FileMade(file) => (Json::Null, Json::Object(values::file(file))),
            What::FileRemoved(file) => (Json::Object(values::file(file)), Json::Null),
            What::Own(own) => own.to_json(|own| Json::Object(values::own(own))),
            What::Generation(generation) => generation.to_json(Json::Number),
            What::SlotCount(count) => count.to_json(|count| Json::Number(count as u64)),
            What::Slot(slot) => slot.to_json(values::slot),
            What::ObjectMade(object) => (Json::Null, Json::Object(values::object(object))),
            What::ObjectDestroyed(object) => (Json::Object(values::object(object)), Json::Null),
            What::Claim(claim) => claim.to_json(values::claim),
            What::Owner(owner) => owner.to_json(|owner| Json::Object(values::owner(owner))),
        }
    }
}

impl<Of: Copy> Values<Of> {
    /// Both for machines.
    pub fn to_json(self, json: impl Fn(Of) -> Json) -> (Json, Json) {
        (json(self.old), json(self.new))
    }
}

impl<Of: PartialEq> Values<Of> {
    /// Whether something else stands there.
    pub fn differ(&self) -> bool {
        self.old != self.new
    }
}

fn object_words(object: &Object) -> &'static str {
    if object.fresh {
        "empty object"
    } else {
        "object"
    }
}

/// A run raises a generation, and an undo puts it back.
fn generation_words(Values { old, new }: Values<u64>, undone: bool) -> String {
    match undone {
        false => format!("generation raised from {old} to {new}"),
        true => format!("generation put back to {new}, it was {old}"),
    }
}

fn slot_words(old: Option<Stripe>, new: Option<Stripe>, undone: bool) -> String {
    match (old, new) {
        (None, _) => "slot names this object now, where there was none".to_string(),
        (Some(_), None) => "slot names no object now, it named this one".to_string(),
        (Some(old), Some(new)) if (old.object, old.generation) == (new.object, new.generation) => {
            // A run writes the index that the object has.
            let there = if undone { "" } else { ", where the object is," };
            let (old, new) = (old.ost, new.ost);
            format!("OST {new}{there} written into the slot, it was {old}")
        }
        (Some(old), Some(new)) if old.object == new.object => format!(
            "slot has generation {} and OST {} now, it had {} and {}",
            new.generation, new.ost, old.generation, old.ost
        ),
        (Some(old), Some(_)) => {
            format!("slot names this object now, instead of {}", old.object)
        }
    }
}

fn claim_words(old: Option<Claim>, new: Option<Claim>) -> String {
    let done = match new {
        Some(_) => "written",
        None => "taken away",
    };
    match old {
        Some(claim) => format!("claim {done}, it was {claim}"),
        None => format!("claim {done}, it had none"),
    }
}

impl Change {
    /// For people.
    pub fn words(&self) -> String {
        self.what.words(self.undone)
    }

    /// For machines.
    pub fn json(&self) -> Json {
        let (old, new) = self.what.values();
        Json::Object(vec![
            ("kind", Json::text(self.what.kind())),
            ("table", Json::text(self.table.file())),
            ("row", Json::Number(self.row as u64)),
            ("file", Json::maybe(self.file)),
            ("slot", Json::maybe_number(self.slot)),
            ("object", Json::maybe(self.object)),
            ("old", old),
            ("new", new),
            ("what", Json::text(self.words())),
        ])
    }
}
