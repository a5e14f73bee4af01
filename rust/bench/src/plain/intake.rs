//! Intake, byte by byte.

mod cursor;
mod owners;
mod value;

use numbers::answer::{BAD_DUMP, BAD_TABLE, NO_FIT, NO_KIND, NO_POSITION, NO_SELF, OK};
use numbers::intake::{MOST_PIECE, ROOM};
use numbers::{fid, object, parent};

use cursor::{Cursor, Said};
use owners::Owner;
use value::{DIGIT, NO_DIGIT, Value, Values};

/// The bytes of the longer `trusted.fid`.
const LONG_FID: usize = 32;
/// The bytes of a `trusted.lma`, and where its self FID stands.
const LMA: usize = LMA_SELF_AT + fid::BYTES;
const LMA_SELF_AT: usize = 8;

/// The attributes that are taken.
#[derive(Clone, Copy, Debug, PartialEq, Eq)]
enum Kind {
    Lov,
    Fid,
    Lma,
}

/// What is kept from piece to piece.
pub struct State {
    cursor: Cursor,
    value: Value,
    values: Box<Values>,
    /// The bytes of the owners file that were taken.
    taken: usize,
    /// The number and the line that stopped the reading.
    stopped: Option<(u32, u64)>,
}

impl State {
    /// Nothing was read yet.
    pub fn new() -> State {
        State {
            cursor: Cursor::new(),
            value: Value::none(),
            values: Values::new(),
            taken: 0,
            stopped: None,
        }
    }
}

impl Default for State {
    fn default() -> State {
        State::new()
    }
}

/// Reads a piece; with 33 to 37 the line is handed out.
pub fn intake_feed(
    state: &mut State,
    piece: &[u8],
    owners: &[u8],
    parents: &mut [u8],
    objects: &mut [u8],
    line: &mut u64,
) -> u32 {
    if piece.len() > MOST_PIECE || !are_tables(parents, objects) {
        return BAD_TABLE;
    }
    if owners.len() < state.taken {
        return NO_POSITION;
    }
    if state.stopped.is_none() {
        state.stopped = read(state, piece, owners, parents, objects).err();
    }
    tell(state.stopped, line)
}

/// What the end says.
pub fn intake_end(state: &State, line: &mut u64) -> u32 {
    let unclosed = || state.cursor.unclosed().map(|line| (BAD_DUMP, line));
    tell(state.stopped.or_else(unclosed), line)
}

fn tell(fault: Option<(u32, u64)>, line: &mut u64) -> u32 {
    match fault {
        None => OK,
        Some((answer, at)) => {
            *line = at;
            answer
        }
    }
}

/// Goes through a piece byte by byte. What the digits of a value and the rest of a line that is not
/// looked at need is in registers.
fn read(
    state: &mut State,
    piece: &[u8],
    owners: &[u8],
    parents: &mut [u8],
    objects: &mut [u8],
) -> Result<(), (u32, u64)> {
    let (mut cursor, mut value) = (state.cursor, state.value);
    let mut passes = cursor.passes();
    let values = &mut *state.values;
    for &byte in piece {
        let digit = DIGIT[usize::from(byte)];
        if value.open && digit != NO_DIGIT {
            value.take(digit, values);
        } else if byte == b'\n' {
            let line = cursor.line();
            let said = cursor.end_line(value).map_err(|answer| (answer, line))?;
            if said == Said::Closed {
                let (owner, taken) = owners::next(owners, state.taken).ok_or((BAD_DUMP, line))?;
                close(&cursor, values, owner, parents, objects).map_err(|answer| (answer, line))?;
                state.taken = taken;
                cursor.forget();
            }
            (value.open, passes) = (false, false);
        } else if !passes {
            value = cursor.take(byte).unwrap_or(Value::none());
            passes = cursor.passes();
        }
    }
    (state.cursor, state.value) = (cursor, value);
    Ok(())
}

/// Fills the row of an entry.
fn close(
    cursor: &Cursor,
    values: &Values,
    owner: Owner,
    parents: &mut [u8],
    objects: &mut [u8],
) -> Result<(), u32> {
    let lma = cursor.bytes_of(Kind::Lma).ok_or(NO_SELF)?;
    let own = &values.get(Kind::Lma, lma).ok_or(NO_SELF)?[LMA_SELF_AT..];
    match (cursor.bytes_of(Kind::Lov), cursor.bytes_of(Kind::Fid)) {
        (Some(bytes), None) => {
            let layout = values.get(Kind::Lov, bytes).ok_or(NO_FIT)?;
            let row = unused(parents, parent::BYTES).ok_or(NO_FIT)?;
            put_self(row, own);
            row[parent::OWNER_AT..][..8].copy_from_slice(&owner.bytes());
            let length = (bytes as u16).to_le_bytes();
            row[parent::LENGTH_AT..][..2].copy_from_slice(&length);
            row[parent::LAYOUT_AT..][..bytes].copy_from_slice(layout);
        }
        (None, Some(_)) => {
            let claim = values.get(Kind::Fid, fid::BYTES).ok_or(NO_FIT)?;
            let row = unused(objects, object::BYTES).ok_or(NO_FIT)?;
            put_self(row, own);
            row[object::OST_AT..][..4].copy_from_slice(&owner.index.to_le_bytes());
            row[object::OWNER_AT..][..8].copy_from_slice(&owner.bytes());
            row[object::CLAIM_AT..][..fid::BYTES].copy_from_slice(claim);
            row[object::FRESH_AT] = 0;
        }
        _ => return Err(NO_KIND),
    }
    Ok(())
}

/// The used mark and the self FID, at the same place in both tables.
fn put_self(row: &mut [u8], own: &[u8]) {
    row[0] = 1;
    row[parent::SELF_AT..][..fid::BYTES].copy_from_slice(own);
}

fn unused(table: &mut [u8], size: usize) -> Option<&mut [u8]> {
    table.chunks_exact_mut(size).find(|row| row[0] == 0)
}

/// Whole rows, not too many, and marks of 0 and 1.
fn are_tables(parents: &[u8], objects: &[u8]) -> bool {
    let whole = parents.len().is_multiple_of(parent::BYTES)
        && parents.len() / parent::BYTES <= parent::MOST
        && objects.len().is_multiple_of(object::BYTES)
        && objects.len() / object::BYTES <= object::MOST;
    whole
        && parents.chunks_exact(parent::BYTES).all(|row| row[0] <= 1)
        && objects
            .chunks_exact(object::BYTES)
            .all(|row| row[0] == 0 || (row[0] == 1 && row[object::FRESH_AT] <= 1))
}
