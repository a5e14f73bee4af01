//! Ways of cutting a dump into pieces.

use difftest::Random;

/// A way of cutting.
#[derive(Clone, Copy, Debug, PartialEq, Eq, PartialOrd, Ord)]
pub enum Cut {
    /// In one piece, or in pieces as long as they may be.
    Whole,
    /// In a few pieces, empty ones among them.
    Few,
    /// In a few pieces, with refused calls and calls for the end in between.
    Disturbed,
    /// In pieces of a byte.
    SingleBytes,
    /// In two pieces, at each place.
    EveryPlace,
}

/// The longest piece.
const MOST: usize = 65_536;

impl Cut {
    /// All of them.
    pub const ALL: [Cut; 5] = [
        Cut::Whole,
        Cut::Few,
        Cut::Disturbed,
        Cut::SingleBytes,
        Cut::EveryPlace,
    ];

    /// The lengths of the pieces of so many bytes, none of them too long.
    pub fn pieces(self, bytes: usize, random: &mut Random) -> Vec<usize> {
        match self {
            Cut::SingleBytes => vec![1; bytes],
            Cut::Few | Cut::Disturbed => few(bytes, random),
            Cut::Whole | Cut::EveryPlace => split(bytes),
        }
    }
}

/// Cut at a few places.
fn few(bytes: usize, random: &mut Random) -> Vec<usize> {
    let count = random.below(5);
    let mut places: Vec<usize> = (0..count).map(|_| random.below(bytes + 1)).collect();
    places.extend([0, bytes]);
    places.sort_unstable();
    let pieces = places.windows(2).map(|pair| pair[1] - pair[0]);
    pieces.flat_map(split).collect()
}

/// A length as lengths of pieces, at least one.
fn split(bytes: usize) -> Vec<usize> {
    let mut pieces = vec![MOST; bytes / MOST];
    if pieces.is_empty() || !bytes.is_multiple_of(MOST) {
        pieces.push(bytes % MOST);
    }
    pieces
}
