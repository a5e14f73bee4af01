//! Stripe sizes in the lent bytes: no call changes that of a file, and a made file has its own.

use crate::side::State;
use difftest::Coverage;
use difftest::stripes::{GOOD, MADE, kind_of, sizes};
use numbers::call::END;
use reference::interface;

/// Counts of what the calls of a side have met.
pub struct Stripes {
    /// The stripe sizes of files after a call, as before it.
    kept: Coverage<&'static str>,
    /// Files that a call made, and the tables with them.
    made: Coverage<&'static str>,
}

impl Stripes {
    pub fn nothing() -> Stripes {
        let kept = GOOD.into_iter().chain(["none, refused"]);
        Stripes {
            kept: Coverage::of("stripe sizes that calls kept", kept),
            made: Coverage::of(
                "made by calls",
                ["files with 1,048,576", "tables that pass the check"],
            ),
        }
    }

    pub fn require(&self) {
        self.kept.require(1000);
        self.made.require(1000);
    }

    /// Holds the tables after a call to those before it.
    pub fn hold(&mut self, before: &State, after: &State) {
        let mut is_made = false;
        for (was, is) in sizes(&before.parents).zip(sizes(&after.parents)) {
            match (was, is) {
                (Some(was), is) => {
                    assert_eq!(is, Some(was), "the stripe size of a file");
                    self.kept.met(kept(was));
                }
                (None, Some(size)) => {
                    assert_eq!(size, MADE, "the stripe size of a made file");
                    self.made.met("files with 1,048,576");
                    is_made = true;
                }
                (None, None) => (),
            }
        }
        if is_made {
            check(after);
            self.made.met("tables that pass the check");
        }
    }
}

/// The kind of a stripe size that was kept.
fn kept(size: u32) -> &'static str {
    let kind = kind_of(size);
    if GOOD.contains(&kind) {
        kind
    } else {
        "none, refused"
    }
}

/// Both sides take the tables.
fn check(State { parents, objects }: &State) {
    for check in [lfsck_sys::check, interface::check] {
        assert_eq!(
            check(parents, objects, &[], 0, END),
            0,
            "tables after a call"
        );
    }
}
