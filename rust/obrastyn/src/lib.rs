//! Proved planning of flex jumpers: one copper layer, a row of pads at each end, pad k below joined to pad k above.
//!
//! Every function here is a thin, safe wrapper over the static libraries that `tools/build` proves and writes.
//! No call has anything to check first: every input gets an answer, and a refusal has one number and writes nothing.
//!
//! ```
//! // J of document 01
//! let (below, above) = ([0, 1, 4, 5], [1, 2, 3, 4]);
//! let mut ladder = [0; 24];
//! let best = obrastyn::best(&below, &above, &mut ladder);
//! assert_eq!((best.refusal, best.separation, best.lowest, best.highest), (0, 3, -1, 1));
//!
//! let mut route = [0; 4 * 4];
//! assert_eq!(obrastyn::draw_all(&below, &above, 3, 0, &mut route).refusal, 0);
//! assert_eq!(route, [0, 0, 0, 1, 1, 1, 2, 2, 4, 4, 3, 3, 5, 5, 5, 4]);
//! assert_eq!(obrastyn::check(&below, &above, 3, 0, &route).refusal, 0);
//! ```
//!
//! A wire leaves its bottom pad straight up, as beside a stiffener: only its first point stands on track 0, and only its last on track s.
//!
//! ```
//! // on the way from 1 to 2 nobody is in wire 1's way on track 0, and still it may not step aside there: 16, BADWIRE, wire 1, track 0
//! let told = obrastyn::check(&[0, 1], &[1, 2], 3, 0, &[0, 0, 0, 1, 1, 2, 2, 2]);
//! assert_eq!((told.refusal, told.place, told.second), (16, 1, 0));
//! ```

/// The least column that a pad may stand on. Pads may stand left of the datum (column 0), right of it, or on both sides.
///
/// ```
/// use obrastyn::{FIRST_COLUMN, LAST_COLUMN, LOWEST_OFFSET};
/// // from one limit to the other, straight: the top pad is moved as far as an offset goes
/// assert_eq!(obrastyn::fit(&[FIRST_COLUMN], &[LAST_COLUMN], 0, LOWEST_OFFSET).refusal, 0);
/// // one column further is refused: 4, COLUMN
/// assert_eq!(obrastyn::rows(&[FIRST_COLUMN - 1], &[0]).refusal, 4);
/// ```
pub const FIRST_COLUMN: i32 = -65535;

/// The greatest column that a pad may stand on.
pub const LAST_COLUMN: i32 = 65535;

/// The least offset that is accepted. A wire reaches as far as its pads with the offset: from column -196,605 to 196,605.
pub const LOWEST_OFFSET: i32 = -131070;

/// The greatest offset that is accepted.
pub const HIGHEST_OFFSET: i32 = 131070;

/// The greatest separation that is accepted; beyond it is TRACKS. No rows need more: [`least`] answers at most one more than there are pairs.
pub const MOST_TRACKS: usize = 2049;

/// All the result numbers of an answer (01, "What comes back"). What an answer doesn't speak of is 0.
#[repr(C)]
#[derive(Clone, Copy, Debug, Default, PartialEq, Eq)]
pub struct Numbers {
    /// 0, or the number of the refusal, 1 to 16.
    pub refusal: u8,
    /// The place of COLUMN and ORDER; the first pair that sets the lowest offset of NOOFFSET; the wire of BADWIRE.
    pub place: usize,
    /// The first pair that sets the highest offset of NOOFFSET; the track of BADWIRE.
    pub second: usize,
    pub separation: usize,
    pub lowest: i32,
    pub highest: i32,
    /// The witness at a separation s, the least pair that prevents a wiring, and its side: 1 (RIGHT), top pad `pair` is too far right for bottom pad
    /// `pair + s - 1`; 2 (LEFT), top pad `pair + s - 1` is too far left for bottom pad `pair`; at s = 0 both are pads `pair`. [`least`] shows it for one track
    /// fewer.
    pub pair: usize,
    pub side: u8,
    /// How many differences were read.
    pub count: usize,
}

/// Where the stretch at fault lies: row 0 is the bottom row, 1 the top row; no pads where there is no misfit.
#[repr(C)]
#[derive(Clone, Copy, Debug, Default, PartialEq, Eq)]
pub struct Place {
    pub row: u8,
    pub start: usize,
    pub pads: usize,
}

/// The mark for "least" as a line's separation; it is no separation that is accepted.
pub const LEAST: u32 = 65535;

/// The mark for "best" as a line's offset; it is no offset that is accepted.
pub const BEST: i32 = i32::MIN;

/// What a line orders: where its pads start in each pool, how many pairs they are, and its wish.
#[repr(C)]
#[derive(Clone, Copy, Debug, Default, PartialEq, Eq)]
pub struct Order {
    pub bottom: usize,
    pub top: usize,
    pub pairs: usize,
    /// A separation, or [`LEAST`].
    pub separation: u32,
    /// An offset, or [`BEST`].
    pub offset: i32,
}

/// One line of an order form: its order, and its answer.
#[repr(C)]
#[derive(Clone, Copy, Debug, Default, PartialEq, Eq)]
pub struct Line {
    pub order: Order,
    pub answer: Numbers,
}

mod raw {
    use super::{Line, Numbers, Place};

    // A slice of Rattle's is two arguments: a pointer and a count of elements. include/obrastyn.h says the same for C.
    extern "C" {
        pub fn obrastyn_rows(a: *const i32, an: usize, b: *const i32, bn: usize) -> Numbers;
        pub fn obrastyn_fit(a: *const i32, an: usize, b: *const i32, bn: usize, s: usize, d: i32) -> Numbers;
        pub fn obrastyn_least(a: *const i32, an: usize, b: *const i32, bn: usize, d: i32) -> Numbers;
        pub fn obrastyn_range(a: *const i32, an: usize, b: *const i32, bn: usize, s: usize) -> Numbers;
        pub fn obrastyn_stretch(a: *const i32, an: usize, b: *const i32, bn: usize, s: usize, d: i32) -> Place;
        pub fn obrastyn_best(a: *const i32, an: usize, b: *const i32, bn: usize, ladder: *mut usize, room: usize) -> Numbers;
        pub fn obrastyn_draw_wire(a: *const i32, an: usize, b: *const i32, bn: usize, s: usize, d: i32, wire: usize, out: *mut i32, room: usize) -> Numbers;
        pub fn obrastyn_draw_all(a: *const i32, an: usize, b: *const i32, bn: usize, s: usize, d: i32, out: *mut i32, room: usize) -> Numbers;
        pub fn obrastyn_check(a: *const i32, an: usize, b: *const i32, bn: usize, s: usize, d: i32, table: *const i32, room: usize) -> Numbers;
        pub fn obrastyn_still_fits(a: *const i32, an: usize, b: *const i32, bn: usize, stays: *const u8, sn: usize, s: usize, d: i32) -> Numbers;
        pub fn obrastyn_part_route(
            a: *const i32, an: usize, b: *const i32, bn: usize, stays: *const u8, sn: usize, s: usize, d: i32,
            table: *const i32, places: usize, out: *mut i32, room: usize,
        ) -> Numbers;
        pub fn obrastyn_answer(line: Line, a: *const i32, an: usize, b: *const i32, bn: usize) -> Line;
        // The two calls over a table of records, from the archive of crate `form_c`.
        pub fn answer_line(table: *mut Line, lines: usize, k: usize, a: *const i32, an: usize, b: *const i32, bn: usize) -> u8;
        pub fn answer_all(table: *mut Line, lines: usize, a: *const i32, an: usize, b: *const i32, bn: usize) -> u8;
    }
}

/// The row check: refusals 1 to 5. COLUMN and ORDER carry a place, the number of pairs more for the top row.
pub fn rows(a: &[i32], b: &[i32]) -> Numbers {
    unsafe { raw::obrastyn_rows(a.as_ptr(), a.len(), b.as_ptr(), b.len()) }
}

/// Whether a legal wiring exists at separation `s` and offset `d`: refusals 1 to 7, then NOFIT with its witness.
pub fn fit(a: &[i32], b: &[i32], s: usize, d: i32) -> Numbers {
    unsafe { raw::obrastyn_fit(a.as_ptr(), a.len(), b.as_ptr(), b.len(), s, d) }
}

/// The least separation at offset `d`, and above 0 the witness at one track fewer: refusals 1 to 5, then 7. It is 0 or from 2 up to one more than there
/// are pairs: what fits at 1 fits at 0.
pub fn least(a: &[i32], b: &[i32], d: i32) -> Numbers {
    unsafe { raw::obrastyn_least(a.as_ptr(), a.len(), b.as_ptr(), b.len(), d) }
}

/// The offsets at which a legal wiring exists at separation `s`. Where `s` is above the number of pairs, all do, and the range is that of the
/// accepted ones. Refusals 1 to 6, then NOOFFSET.
pub fn range(a: &[i32], b: &[i32], s: usize) -> Numbers {
    unsafe { raw::obrastyn_range(a.as_ptr(), a.len(), b.as_ptr(), b.len(), s) }
}

/// The stretch at fault, as that part of the caller's own row: for a misfit the `s` pads from i on (one at separation 0) of the row in which they
/// span fewer columns, the bottom row if equal; in every other case an empty part at the bottom row's start.
pub fn stretch<'r>(a: &'r [i32], b: &'r [i32], s: usize, d: i32) -> &'r [i32] {
    let place = unsafe { raw::obrastyn_stretch(a.as_ptr(), a.len(), b.as_ptr(), b.len(), s, d) };
    &(if place.row == 0 { a } else { b })[place.start..place.start + place.pads]
}

/// The best separation, its offsets and the count of differences read: refusals 1 to 5, then BUFFER. The ladder (size and
/// best number of each level, from all pairs down to one; at most 24 numbers) is written in front of `ladder`. Its numbers are the halving's own: 0 for a
/// best separation of 0, else one less than it.
pub fn best(a: &[i32], b: &[i32], ladder: &mut [usize]) -> Numbers {
    unsafe { raw::obrastyn_best(a.as_ptr(), a.len(), b.as_ptr(), b.len(), ladder.as_mut_ptr(), ladder.len()) }
}

/// Wire `wire` drawn into the first `s + 1` places of `out`, the columns on which it enters tracks 0 to `s`: refusals 1 to 7, WIRE, BUFFER, NOFIT.
pub fn draw_wire(a: &[i32], b: &[i32], s: usize, d: i32, wire: usize, out: &mut [i32]) -> Numbers {
    unsafe { raw::obrastyn_draw_wire(a.as_ptr(), a.len(), b.as_ptr(), b.len(), s, d, wire, out.as_mut_ptr(), out.len()) }
}

/// All wires drawn, wire after wire, into the first n(s + 1) places of `out`: refusals 1 to 7, BUFFER, NOFIT.
pub fn draw_all(a: &[i32], b: &[i32], s: usize, d: i32, out: &mut [i32]) -> Numbers {
    unsafe { raw::obrastyn_draw_all(a.as_ptr(), a.len(), b.as_ptr(), b.len(), s, d, out.as_mut_ptr(), out.len()) }
}

/// A table of columns from anyone, checked: refusals 1 to 7, BUFFER, then BADWIRE with the wire and track of its first fault:
/// a wrong start, a wrong end, a step aside on track 0, or a run that meets the next wire's.
pub fn check(a: &[i32], b: &[i32], s: usize, d: i32, table: &[i32]) -> Numbers {
    unsafe { raw::obrastyn_check(a.as_ptr(), a.len(), b.as_ptr(), b.len(), s, d, table.as_ptr(), table.len()) }
}

/// Whether the kept record of a jumper, separation `s` at offset `d`, still serves the part in which only some pairs stay and the other pads are left
/// bare. `stays` has a byte for each pair: 0 for one that is dropped, anything else for one that stays. No refusal exactly when what remains has a legal
/// wiring there; where the whole jumper has one, it does.
///
/// UNEQUAL if `stays` isn't as long as the rows, EMPTY if no pair stays; 3 to 7 are of the whole rows, with places counted there. Then NOFIT, its witness
/// counted among the pairs that stay.
///
/// ```
/// // J needs 3 tracks at offset 0, and with pair 1 bare these still do
/// let (below, above) = ([0, 1, 4, 5], [1, 2, 3, 4]);
/// let stays = [1, 0, 1, 1];
/// assert_eq!(obrastyn::still_fits(&below, &above, &stays, 3, 0).refusal, 0);
/// // 2 don't: NOFIT. Pads 1 and 2 of the part prevent it, which are J's 2 and 3; side LEFT
/// let told = obrastyn::still_fits(&below, &above, &stays, 2, 0);
/// assert_eq!((told.refusal, told.pair, told.side), (10, 1, 2));
/// // at offset 1 two tracks do for the part, but not for J
/// assert_eq!(obrastyn::still_fits(&below, &above, &stays, 2, 1).refusal, 0);
/// assert_eq!(obrastyn::fit(&below, &above, 2, 1).refusal, 10);
/// ```
pub fn still_fits(a: &[i32], b: &[i32], stays: &[u8], s: usize, d: i32) -> Numbers {
    unsafe { raw::obrastyn_still_fits(a.as_ptr(), a.len(), b.as_ptr(), b.len(), stays.as_ptr(), stays.len(), s, d) }
}

/// The route of such a part out of the old route's table: the wires that stay, one after the other, into the first (pairs that stay)(s + 1) places of
/// `out`. It is a legal route of the part, though not always the one that [`draw_all`] would draw for it. Refusals 1 to 7 as for [`still_fits`]; BUFFER if
/// `table` has fewer than n(s + 1) places or `out` too few for the part; BADWIRE as [`check`] says of the old table, with the wire's number there.
///
/// ```
/// let (below, above) = ([0, 1, 4, 5], [1, 2, 3, 4]);
/// let old = [0, 0, 0, 1, 1, 1, 2, 2, 4, 4, 3, 3, 5, 5, 5, 4];
/// let mut route = [0; 3 * 4];
/// assert_eq!(obrastyn::part_route(&below, &above, &[1, 0, 1, 1], 3, 0, &old, &mut route).refusal, 0);
/// assert_eq!(route, [0, 0, 0, 1, 4, 4, 3, 3, 5, 5, 5, 4]);
/// assert_eq!(obrastyn::check(&[0, 4, 5], &[1, 3, 4], 3, 0, &route).refusal, 0);
/// ```
pub fn part_route(a: &[i32], b: &[i32], stays: &[u8], s: usize, d: i32, table: &[i32], out: &mut [i32]) -> Numbers {
    let (places, room) = (table.len(), out.len());
    unsafe {
        raw::obrastyn_part_route(
            a.as_ptr(), a.len(), b.as_ptr(), b.len(), stays.as_ptr(), stays.len(), s, d,
            table.as_ptr(), places, out.as_mut_ptr(), room,
        )
    }
}

/// One record answered by value: the record with its answer, its order as it was.
pub fn answer(line: Line, bottoms: &[i32], tops: &[i32]) -> Line {
    unsafe { raw::obrastyn_answer(line, bottoms.as_ptr(), bottoms.len(), tops.as_ptr(), tops.len()) }
}

/// Answers line `k` of a form: its record takes its answer, a refusal included, and nothing else changes. Returns 0, or LINE
/// (12) where `k` is no line or the table has over 64, and then writes nothing.
pub fn answer_line(table: &mut [Line], k: usize, bottoms: &[i32], tops: &[i32]) -> u8 {
    unsafe { raw::answer_line(table.as_mut_ptr(), table.len(), k, bottoms.as_ptr(), bottoms.len(), tops.as_ptr(), tops.len()) }
}

/// Answers every line of a form. Returns 0, or LINE (12) where the table has over 64, and then writes nothing.
pub fn answer_all(table: &mut [Line], bottoms: &[i32], tops: &[i32]) -> u8 {
    unsafe { raw::answer_all(table.as_mut_ptr(), table.len(), bottoms.as_ptr(), bottoms.len(), tops.as_ptr(), tops.len()) }
}
