//! The classes of many positions: the one way to the library's verdicts.

use crate::answers::{refusal, require_sound};
use crate::bar::{Bar, Work};
use crate::class::Class;
use crate::outcome::Failure;
use crate::pace::{self, Plan};
use crate::position::Position;
use crate::site::Site;
use crate::tables::Tables;
use crate::verdict::{BY_CALL, Verdicts};

/// Classes alone ask for no repairs.
const NO_POLICY: u64 = 0;

/// The classes at positions that are not the end, in their order; a failure where the tables do
/// not pass the check. Each call for classes checks files and objects, so they need no check of
/// their own.
pub fn classes_at(
    tables: &Tables,
    site: &Site,
    positions: &[Position],
    bar: &Bar,
) -> Result<Vec<Class>, Failure> {
    if positions.is_empty() || !tables.is_reserve_sound() {
        require_sound(tables, bar)?;
    }
    bar.turn_to(Work::Unmeasured("classing"));
    let verdicts = Verdicts::new(tables, site);
    let told = match positions.len() {
        0..=BY_CALL => Ok(()),
        _ => tell_all(&verdicts, tables, site, bar),
    };
    let classes = told.and_then(|()| positions.iter().map(|at| verdicts.at(*at)).collect());
    classes.map_err(|number| refusal(number, tables))
}

/// Asks for all classes, in one call or in slices of it.
fn tell_all(verdicts: &Verdicts, tables: &Tables, site: &Site, bar: &Bar) -> Result<(), u32> {
    let count = verdicts.count() as u64;
    match pace::plan(site, tables, NO_POLICY, count) {
        Plan::Whole => verdicts.tell_all(verdicts.count(), |_| ()),
        Plan::Slices(first) => {
            bar.turn_to(Work::Counted("positions", count));
            verdicts.tell_all(first as usize, |done| bar.show(done))
        }
    }
}
