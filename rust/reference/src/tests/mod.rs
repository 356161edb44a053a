//! The tests, by theme.

mod baselines;
mod forms;
mod parts;
mod refusals;
mod searched;
mod separations;
mod sheets;
mod wiring;
mod worked;

use crate::numbers::Numbers;

/// What lent memory holds before a call: no column that is ever drawn.
pub const MARK: i32 = 0x5A5A_5A5A;

/// J, K and S of the text.
pub const J: ([i32; 4], [i32; 4]) = ([0, 1, 4, 5], [1, 2, 3, 4]);
pub const K: ([i32; 2], [i32; 2]) = ([0, 5], [0, 5]);
pub const S: ([i32; 4], [i32; 4]) = ([0, 1, 2, 3], [1, 2, 3, 4]);

/// The numbers of an answer with a given offset.
pub fn at_offset(separation: usize, offset: i32, pair: usize, side: u8) -> Numbers {
    Numbers {
        separation,
        lowest: offset,
        highest: offset,
        pair,
        side,
        ..Numbers::default()
    }
}

/// The numbers of an answer with a range of offsets.
pub fn with_offsets(separation: usize, lowest: i32, highest: i32, count: usize) -> Numbers {
    Numbers {
        separation,
        lowest,
        highest,
        count,
        ..Numbers::default()
    }
}
