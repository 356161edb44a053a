//! The rules of fit: witness, least separation, offset range, the stretch at fault.
//!
//! 01 states the rule for wires that may run along track 0. Request 106 forbids them that, and a
//! jumper fits at a separation above 0 where it fitted at one track fewer before. So the rule stays
//! as 01 states it, for a number r in the place of 01's s, and what changes is which number it is
//! read at: [`rule_at`] says that, [`tracks_for`] says it the other way, and nothing else in the
//! reference does (the baseline draws its straight step by hand).
//! Here r is always such a number and s a separation.

use crate::numbers::*;
use crate::rows::{check_offset, check_rows, check_separation};

/// The number at which the rule is read for a separation: 0 for 0, and one fewer above it, since
/// the lowest of its tracks is of no use to a wire that has to turn.
#[inline]
pub fn rule_at(s: usize) -> usize {
    if s == 0 {
        0
    } else {
        s - 1
    }
}

/// The least separation for which the rule is read at this number: 0 for 0 (1 would do too), and
/// one more above it.
#[inline]
pub fn tracks_for(r: usize) -> usize {
    if r == 0 {
        0
    } else {
        r + 1
    }
}

/// x (or y): each column less its index. For an accepted row it never falls.
pub fn reduced(row: &[i32]) -> Vec<i32> {
    (0..row.len()).map(|i| row[i] - i as i32).collect()
}

/// How pair i breaks the rule at (r, d): 0 not at all, RIGHT, or LEFT. Needs i + r < n.
pub fn broken(x: &[i32], y: &[i32], i: usize, r: usize, d: i32) -> u8 {
    let right = d > x[i + r] - y[i];
    let left = d < x[i] - y[i + r];
    assert!(!(right && left), "both can't hold at one i");
    if right {
        RIGHT
    } else if left {
        LEFT
    } else {
        0
    }
}

/// The least i with 0 <= i < n - r that breaks the rule at (r, d), and its side. None when nothing
/// does; for r >= n there is nothing to meet.
pub fn witness(x: &[i32], y: &[i32], r: usize, d: i32) -> Option<(usize, u8)> {
    let n = x.len();
    for i in 0..n.saturating_sub(r) {
        let side = broken(x, y, i, r, d);
        if side != 0 {
            return Some((i, side));
        }
    }
    None
}

/// Every lower bound x_i - y_(i+r), by i. Empty for r >= n.
pub fn low_bounds(x: &[i32], y: &[i32], r: usize) -> Vec<i32> {
    (0..x.len().saturating_sub(r))
        .map(|i| x[i] - y[i + r])
        .collect()
}

/// Every upper bound x_(i+r) - y_i, by i. Empty for r >= n.
pub fn high_bounds(x: &[i32], y: &[i32], r: usize) -> Vec<i32> {
    (0..x.len().saturating_sub(r))
        .map(|i| x[i + r] - y[i])
        .collect()
}

/// The offsets that meet the rule at r, perhaps none. For r >= n that of the accepted offsets.
pub fn offsets(x: &[i32], y: &[i32], r: usize) -> Range {
    if r >= x.len() {
        return Range::ALL;
    }
    Range {
        lowest: *low_bounds(x, y, r).iter().max().expect("r < n"),
        highest: *high_bounds(x, y, r).iter().min().expect("r < n"),
    }
}

/// Whether (s, d) fits. Checks 1 to 7 and 10. An answer gives the separation, and the offset as
/// lowest and highest.
pub fn fit(a: &[i32], b: &[i32], s: usize, d: i32) -> Numbers {
    flat(try_fit(a, b, s, d))
}

fn try_fit(a: &[i32], b: &[i32], s: usize, d: i32) -> Result<Numbers, Numbers> {
    check_rows(a, b)?;
    check_separation(s)?;
    check_offset(d)?;
    check_fit(a, b, s, d)?;
    Ok(Numbers {
        separation: s,
        lowest: d,
        highest: d,
        ..Numbers::default()
    })
}

/// Check 10, for inputs that passed 1 to 7.
pub(crate) fn check_fit(a: &[i32], b: &[i32], s: usize, d: i32) -> Result<(), Numbers> {
    match witness(&reduced(a), &reduced(b), rule_at(s), d) {
        None => Ok(()),
        Some((pair, side)) => Err(Numbers::no_fit(pair, side)),
    }
}

/// The least separation at d, found by trying 0, 1, 2 .. Checks 1 to 5 and 7. Above 0 the answer
/// shows the witness at one track fewer, the last that was tried in vain.
pub fn least(a: &[i32], b: &[i32], d: i32) -> Numbers {
    flat(try_least(a, b, d))
}

fn try_least(a: &[i32], b: &[i32], d: i32) -> Result<Numbers, Numbers> {
    check_rows(a, b)?;
    check_offset(d)?;
    let (x, y) = (reduced(a), reduced(b));
    let mut s = 0;
    let (mut pair, mut side) = (0, 0);
    while let Some(misfit) = witness(&x, &y, rule_at(s), d) {
        (pair, side) = misfit;
        s += 1;
    }
    assert!(s <= a.len() + 1 && s != 1);
    Ok(Numbers {
        separation: s,
        lowest: d,
        highest: d,
        pair,
        side,
        ..Numbers::default()
    })
}

/// The offset range at s. Checks 1 to 6 and 11; NOOFFSET gives the first i for each end.
pub fn range(a: &[i32], b: &[i32], s: usize) -> Numbers {
    flat(try_range(a, b, s))
}

fn try_range(a: &[i32], b: &[i32], s: usize) -> Result<Numbers, Numbers> {
    check_rows(a, b)?;
    check_separation(s)?;
    let (x, y, r) = (reduced(a), reduced(b), rule_at(s));
    let found = offsets(&x, &y, r);
    if found.is_empty() {
        let first = |bounds: Vec<i32>, end: i32| {
            bounds
                .iter()
                .position(|&bound| bound == end)
                .expect("an end is one of its bounds")
        };
        return Err(Numbers::refused_at(
            NOOFFSET,
            first(low_bounds(&x, &y, r), found.lowest),
            first(high_bounds(&x, &y, r), found.highest),
        ));
    }
    Ok(Numbers {
        separation: s,
        lowest: found.lowest,
        highest: found.highest,
        ..Numbers::default()
    })
}

/// A part of one of the two rows: which, where it starts and how many pads it has.
#[derive(Clone, Copy, Debug, Default, PartialEq, Eq)]
pub struct Stretch {
    pub top: bool,
    pub start: usize,
    pub length: usize,
}

/// The stretch at fault. For a misfit (the fit call gives NOFIT) the pads from one of the witness,
/// i, to the other, i+r, of the row in which they span fewer columns, the bottom row if equal: s
/// pads, or one at s = 0. Otherwise, refusals 1 to 7 included, an empty part at the bottom row's
/// start.
pub fn stretch(a: &[i32], b: &[i32], s: usize, d: i32) -> Stretch {
    let answer = fit(a, b, s, d);
    if answer.refusal != NOFIT {
        return Stretch::default();
    }
    let first = answer.pair;
    let last = first + rule_at(s);
    let bottom_span = a[last] - a[first];
    let top_span = b[last] - b[first];
    Stretch {
        top: top_span < bottom_span,
        start: first,
        length: last - first + 1,
    }
}

/// The stretch at fault as that part of the caller's own row.
pub fn stretch_part<'r>(a: &'r [i32], b: &'r [i32], s: usize, d: i32) -> &'r [i32] {
    let Stretch { top, start, length } = stretch(a, b, s, d);
    let row = if top { b } else { a };
    &row[start..start + length]
}
