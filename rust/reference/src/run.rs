//! A run: steps from a position on, up to a greatest number.

use crate::answer::{DONE, STEPS_USED};
use crate::class::Class;
use crate::fid::Fid;
use crate::position::Position;
use crate::site::Site;
use crate::step::{Policy, step};

/// The classes whose repairs are counted.
pub const COUNTED: usize = 9;

/// How a run ended and what it did.
#[derive(Clone, Copy, Debug, PartialEq, Eq)]
pub struct Outcome {
    /// 0 at the end, 1 with no steps left, or one of 21 to 23.
    pub answer: u32,
    /// Where the run stands.
    pub position: Position,
    /// The steps done.
    pub steps: u64,
    /// The repairs of SELF, MULTIPLE, DANGLING, BLANK, UNMATCHED, OWNER, EMPTY, ORPHAN and
    /// WRONG-OST.
    pub repairs: [u64; COUNTED],
}

/// Makes at most so many steps.
pub fn run(
    site: &mut Site,
    policy: Policy,
    reserve: &[Fid],
    position: Position,
    most: u64,
) -> Outcome {
    let mut outcome = Outcome {
        answer: DONE,
        position,
        steps: 0,
        repairs: [0; COUNTED],
    };
    while outcome.position != Position::End {
        if outcome.steps == most {
            outcome.answer = STEPS_USED;
            break;
        }
        match step(site, outcome.position, policy, reserve) {
            Ok(repaired) => outcome.count(repaired),
            Err(stop) => {
                outcome.answer = stop;
                break;
            }
        }
        outcome.position = outcome.position.next(site.tables());
    }
    outcome
}

impl Outcome {
    fn count(&mut self, repaired: Option<Class>) {
        self.steps += 1;
        match repaired {
            Some(Class::SelfId) => self.repairs[0] += 1,
            Some(Class::Multiple) => self.repairs[1] += 1,
            Some(Class::Dangling) => self.repairs[2] += 1,
            Some(Class::Blank) => self.repairs[3] += 1,
            Some(Class::Unmatched(_)) => self.repairs[4] += 1,
            Some(Class::Owner) => self.repairs[5] += 1,
            Some(Class::Empty) => self.repairs[6] += 1,
            Some(Class::Orphan) => self.repairs[7] += 1,
            Some(Class::WrongOst) => self.repairs[8] += 1,
            _ => (),
        }
    }
}
