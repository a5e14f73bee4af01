//! Intake from attribute dumps.

use crate::parent;

/// The bytes of the room for a layout in a parent row.
pub const ROOM: usize = parent::BYTES - parent::LAYOUT_AT;
/// The bytes of a state.
pub const STATE: usize = ROOM + 208;
/// The most bytes of a piece.
pub const MOST_PIECE: usize = 65_536;
