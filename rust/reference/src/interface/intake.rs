//! Intake on numbers and bytes.

use crate::answer::{BAD_DUMP, BAD_TABLE, DONE, NO_FIT, NO_POSITION, NO_ROOM};
use crate::check;
use crate::intake::{ROOM, Reading};

/// The bytes of a state.
pub const STATE_BYTES: usize = ROOM + 208;
/// The most bytes of a piece.
const MOST_PIECE: usize = 65_536;

/// A dump that is handed over piece by piece. It is known beforehand as a whole; what a state
/// keeps is nothing but how much of it was handed over, and the fault that was met.
#[derive(Clone, Debug)]
pub struct Feeding {
    reading: Reading,
    fed: usize,
    /// The good lines that end within what was fed.
    lines: usize,
    /// The number and the line that stopped the reading.
    stopped: Option<(u32, u64)>,
}

impl Feeding {
    /// A dump of which nothing was handed over yet.
    pub fn of(dump: &[u8], owners: &[u8]) -> Feeding {
        Feeding {
            reading: Reading::of(dump, owners),
            fed: 0,
            lines: 0,
            stopped: None,
        }
    }

    /// How many bytes of the dump were handed over.
    pub fn fed(&self) -> usize {
        self.fed
    }

    /// How many bytes of the owners file were taken.
    pub fn taken(&self) -> usize {
        let last = self.lines.checked_sub(1).map(|at| &self.reading.lines[at]);
        last.map_or(0, |line| line.taken)
    }

    /// The number and the line that stopped the reading, if something has.
    pub fn stopped(&self) -> Option<(u32, u64)> {
        self.stopped
    }

    /// The next so many bytes of the dump are the piece. Tables are changed in place, and with 33
    /// to 37 the line is handed out.
    pub fn feed(
        &mut self,
        state_bytes: usize,
        piece_bytes: usize,
        owners_bytes: usize,
        parents: &mut [u8],
        objects: &mut [u8],
        out: &mut [u64],
    ) -> u32 {
        let (_, faults) = check::read_tables(parents, objects);
        if piece_bytes > MOST_PIECE || faults.contains(&BAD_TABLE) {
            return BAD_TABLE;
        }
        if state_bytes != STATE_BYTES || owners_bytes < self.taken() {
            return NO_POSITION;
        }
        if out.is_empty() {
            return NO_ROOM;
        }
        if self.stopped.is_none() {
            self.fed += piece_bytes;
            self.stopped = self.read_on(parents, objects);
        }
        hand_out_line(self.stopped, out)
    }

    /// What the end of the dump says after what was handed over. It changes nothing.
    pub fn end(&self, state_bytes: usize, out: &mut [u64]) -> u32 {
        if state_bytes != STATE_BYTES {
            return NO_POSITION;
        }
        if out.is_empty() {
            return NO_ROOM;
        }
        let unclosed = || self.reading.unclosed(self.fed).map(|line| (BAD_DUMP, line));
        hand_out_line(self.stopped.or_else(unclosed), out)
    }

    /// Fills the rows of the lines that end within what was fed, up to the first fault.
    fn read_on(&mut self, parents: &mut [u8], objects: &mut [u8]) -> Option<(u32, u64)> {
        while let Some(line) = self.reading.lines.get(self.lines) {
            if line.end > self.fed {
                return None;
            }
            let number = self.lines as u64 + 1;
            let row = line.closed.as_ref();
            if row.is_some_and(|row| !row.fill(parents, objects)) {
                return Some((NO_FIT, number));
            }
            self.lines += 1;
        }
        let fault = self.reading.fault.as_ref();
        let fault = fault.filter(|fault| fault.end <= self.fed);
        fault.map(|fault| (fault.answer, fault.line))
    }
}

fn hand_out_line(fault: Option<(u32, u64)>, out: &mut [u64]) -> u32 {
    match fault {
        Some((answer, line)) => {
            out[0] = line;
            answer
        }
        None => DONE,
    }
}
