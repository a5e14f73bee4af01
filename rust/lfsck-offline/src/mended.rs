//! What a mending of names did, in numbers.

use numbers::answer::{LINK_FULL, OK};
use numbers::call::MENDED;

use crate::answers::meaning;
use crate::json::Json;
use crate::reader::Value;

/// The sweeps, in the order of the counts: a name for machines, and words for people.
const SWEEPS: [(&str, &str); MENDED - 1] = [
    ("self_fids_taken", "self FIDs taken"),
    ("fids_written", "FID-in-dirents written"),
    ("records_appended", "records appended"),
    ("records_removed", "records removed"),
];

/// The name of the entry that it stopped in front of.
const STOPPED: &str = "stopped_at";

/// The answer of a mending, and what each sweep did.
#[derive(Clone, Copy, Debug, PartialEq, Eq)]
pub struct Mended {
    /// The library's number: finished, or a record that outgrows its room.
    pub answer: u32,
    /// What each sweep changed.
    pub counts: [u64; MENDED - 1],
    /// The entry that it stopped in front of.
    pub stopped: Option<u64>,
}

impl Mended {
    /// What the library reports of a mending that it made.
    pub fn new(answer: u32, report: [u64; MENDED]) -> Mended {
        let [counts @ .., entry] = report;
        Mended {
            answer,
            counts,
            stopped: (answer == LINK_FULL).then_some(entry),
        }
    }

    /// The counts, for people.
    pub fn words(&self) -> String {
        let counts = SWEEPS.iter().zip(self.counts);
        let made = counts.filter(|(_, count)| *count > 0);
        let made: Vec<String> = made
            .map(|((_, words), count)| format!("{words} {count}"))
            .collect();
        match made.len() {
            0 => "nothing".to_string(),
            _ => made.join(", "),
        }
    }

    /// How it ended, for people.
    pub fn end_words(&self) -> String {
        match self.stopped {
            None => "all four sweeps are finished".to_string(),
            Some(entry) => format!(
                "{}; it stopped in front of entry {entry}",
                meaning(self.answer)
            ),
        }
    }

    /// Answer and counts, for machines.
    pub fn members(&self) -> Vec<(&'static str, Json)> {
        let counts = SWEEPS.iter().zip(self.counts);
        let answer = ("answer", Json::Number(self.answer.into()));
        let counts = counts.map(|((name, _), count)| (*name, Json::Number(count)));
        let mut members: Vec<(&'static str, Json)> = [answer].into_iter().chain(counts).collect();
        members.push((STOPPED, Json::maybe_number(self.stopped)));
        members
    }

    /// What those members say.
    pub fn of_value(value: &Value) -> Option<Mended> {
        let counts: Option<Vec<u64>> = SWEEPS.iter().map(|(name, _)| value.number(name)).collect();
        let mended = Mended {
            answer: value.number("answer")?.try_into().ok()?,
            counts: counts?.try_into().ok()?,
            stopped: match value.get(STOPPED)? {
                Value::Null => None,
                _ => Some(value.number(STOPPED)?),
            },
        };
        let expected = match mended.stopped {
            None => OK,
            Some(_) => LINK_FULL,
        };
        (mended.answer == expected).then_some(mended)
    }
}
