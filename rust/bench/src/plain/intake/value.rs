//! The value that is read.

use super::{Kind, LMA, LONG_FID, ROOM};

/// Where the values of an entry are kept, one after the other.
const FID_AT: usize = ROOM;
const LMA_AT: usize = FID_AT + LONG_FID;
const ALL: usize = LMA_AT + LMA;

/// The values of an entry.
pub struct Values([u8; ALL]);

/// The digits of a value that were taken.
#[derive(Clone, Copy)]
pub struct Value {
    /// Whether one is read.
    pub open: bool,
    /// Whether the second digit of a byte comes next.
    pub low: bool,
    high: u8,
    /// The bytes that were taken.
    pub count: usize,
    start: usize,
    room: usize,
}

impl Values {
    /// Nothing is kept yet.
    pub fn new() -> Box<Values> {
        Box::new(Values([0; ALL]))
    }

    /// So many bytes of a value, if there is room for them.
    pub fn get(&self, kind: Kind, bytes: usize) -> Option<&[u8]> {
        let (start, room) = place(kind);
        self.0[start..start + room].get(..bytes)
    }
}

fn place(kind: Kind) -> (usize, usize) {
    match kind {
        Kind::Lov => (0, ROOM),
        Kind::Fid => (FID_AT, LONG_FID),
        Kind::Lma => (LMA_AT, LMA),
    }
}

impl Value {
    /// No value is read.
    pub fn none() -> Value {
        Value {
            open: false,
            low: false,
            high: 0,
            count: 0,
            start: 0,
            room: 0,
        }
    }

    /// A value whose digits begin.
    pub fn of(kind: Kind) -> Value {
        let (start, room) = place(kind);
        Value {
            open: true,
            start,
            room,
            ..Value::none()
        }
    }

    /// Takes a digit; bytes that have no room are counted alone.
    #[inline(always)]
    pub fn take(&mut self, digit: u8, values: &mut Values) {
        if self.low {
            if self.count < self.room {
                values.0[self.start + self.count] = 16 * self.high + digit;
            }
            self.count += 1;
        }
        self.high = digit;
        self.low = !self.low;
    }
}

/// The value of each byte that is a digit, and for the others a number that is none.
pub const DIGIT: [u8; 256] = digits();
/// No digit.
pub const NO_DIGIT: u8 = 255;

const fn digits() -> [u8; 256] {
    let mut digits = [NO_DIGIT; 256];
    let mut value = 0;
    while value < 16 {
        digits[b"0123456789abcdef"[value] as usize] = value as u8;
        digits[b"0123456789ABCDEF"[value] as usize] = value as u8;
        value += 1;
    }
    digits
}
