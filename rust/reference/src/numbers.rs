//! The limits, the refusals by number, and the numbers that come back from every call.

/// Most pairs a jumper may have.
pub const MOST_PAIRS: usize = 2_048;
/// Least column of a pad.
pub const FIRST_COLUMN: i32 = -65_535;
/// Greatest column of a pad.
pub const LAST_COLUMN: i32 = 65_535;
/// Greatest separation: one above the most pairs, so that every offset has one at which it fits.
pub const MOST_TRACKS: usize = 2_049;
/// Greatest offset; the least is its negative.
pub const LAST_OFFSET: i32 = 131_070;
/// Most lines on a form; on a sheet line numbers therefore go from 0 to 63.
pub const MOST_LINES: usize = 64;

/// The rows differ in length.
pub const UNEQUAL: u8 = 1;
/// No pairs.
pub const EMPTY: u8 = 2;
/// Over 2,048 pairs.
pub const LONG: u8 = 3;
/// A column is out of range.
pub const COLUMN: u8 = 4;
/// A column isn't above the one before.
pub const ORDER: u8 = 5;
/// Separation over 2,049.
pub const TRACKS: u8 = 6;
/// Offset out of range.
pub const OFFSET: u8 = 7;
/// Wire number not below n.
pub const WIRE: u8 = 8;
/// A lent buffer is too short.
pub const BUFFER: u8 = 9;
/// No legal wiring at (s, d).
pub const NOFIT: u8 = 10;
/// No offset fits at s.
pub const NOOFFSET: u8 = 11;
/// No such line, over 64 lines, or a start plus count over its pool's length.
pub const LINE: u8 = 12;
/// A bad frame.
pub const FRAME: u8 = 13;
/// A good frame in the wrong place.
pub const SEQUENCE: u8 = 14;
/// An earlier good 10 on this sheet had this line number.
pub const TWICE: u8 = 15;
/// The checker's fault.
pub const BADWIRE: u8 = 16;

/// Side RIGHT of a witness: top pad i is too far right for bottom pad i+r. Here r is the number at
/// which the rule of fit is read for the separation (see [`crate::rule::rule_at`]).
pub const RIGHT: u8 = 1;
/// Side LEFT of a witness: top pad i+r is too far left for bottom pad i.
pub const LEFT: u8 = 2;

/// All result numbers of all calls. Whatever an answer doesn't speak of is 0.
#[derive(Clone, Copy, Debug, Default, PartialEq, Eq, Hash)]
pub struct Numbers {
    /// 0, or the number of the refusal.
    pub refusal: u8,
    /// COLUMN and ORDER: the index, or n plus it for the top row. NOOFFSET: the first i that gives
    /// the low end. BADWIRE: the wire.
    pub place: usize,
    /// NOOFFSET: the first i that gives the high end. BADWIRE: the track.
    pub second: usize,
    /// The separation answered; a least or best one is never 1.
    pub separation: usize,
    /// The lowest offset answered.
    pub lowest: i32,
    /// The highest offset answered.
    pub highest: i32,
    /// The witness of NOFIT, or of a least separation above 0 the witness at one track fewer.
    pub pair: usize,
    /// The witness's side: 0 none, 1 RIGHT, 2 LEFT.
    pub side: u8,
    /// The number of differences read by a best call.
    pub count: usize,
}

impl Numbers {
    /// A refusal without a place.
    pub fn refused(refusal: u8) -> Numbers {
        Numbers {
            refusal,
            ..Numbers::default()
        }
    }

    /// A refusal with a place (COLUMN, ORDER) or two (NOOFFSET, BADWIRE).
    pub fn refused_at(refusal: u8, place: usize, second: usize) -> Numbers {
        Numbers {
            refusal,
            place,
            second,
            ..Numbers::default()
        }
    }

    /// NOFIT with its witness.
    pub fn no_fit(pair: usize, side: u8) -> Numbers {
        Numbers {
            refusal: NOFIT,
            pair,
            side,
            ..Numbers::default()
        }
    }
}

/// Inside this crate a refusal travels as `Err`; outside, both kinds of answer are plain numbers.
pub(crate) fn flat(answer: Result<Numbers, Numbers>) -> Numbers {
    match answer {
        Ok(numbers) => numbers,
        Err(numbers) => numbers,
    }
}

/// A range of offsets, both ends included; empty when the lowest is above the highest.
#[derive(Clone, Copy, Debug, PartialEq, Eq, Hash)]
pub struct Range {
    pub lowest: i32,
    pub highest: i32,
}

impl Range {
    /// The range of every accepted offset.
    pub const ALL: Range = Range {
        lowest: -LAST_OFFSET,
        highest: LAST_OFFSET,
    };

    /// Whether no offset lies in it.
    pub fn is_empty(self) -> bool {
        self.lowest > self.highest
    }

    /// The offsets that lie in both.
    pub fn meet(self, other: Range) -> Range {
        Range {
            lowest: self.lowest.max(other.lowest),
            highest: self.highest.min(other.highest),
        }
    }

    /// Whether an offset lies in it.
    pub fn holds(self, offset: i32) -> bool {
        self.lowest <= offset && offset <= self.highest
    }
}
