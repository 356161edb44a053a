//! Parts of a jumper (request 113): some pads are left bare, and the old record is to serve the rest.
//!
//! The caller lends the whole rows and, a byte a pair, which pairs stay: 0 is dropped, anything else
//! kept. The pairs kept stay in their order and are numbered anew from 0.

use crate::numbers::*;
use crate::rows::{check_offset, check_rows, check_separation};
use crate::rule::fit;
use crate::wires::try_check;

/// The entries that stay, in their order: the pads of a row, or the wires of a wiring.
pub fn kept<T: Copy>(entries: &[T], stays: &[u8]) -> Vec<T> {
    assert_eq!(entries.len(), stays.len());
    (0..entries.len())
        .filter(|&i| stays[i] != 0)
        .map(|i| entries[i])
        .collect()
}

/// Checks 1 to 7 of a part. 1 and 2 speak of which pairs stay too, and as refusals go by number they
/// both come before any that speaks of pads. All from 3 on is of the whole rows: a fault at a pad
/// left bare is a fault.
fn check_part(a: &[i32], b: &[i32], stays: &[u8], s: usize, d: i32) -> Result<(), Numbers> {
    if a.len() != b.len() || a.len() != stays.len() {
        return Err(Numbers::refused(UNEQUAL));
    }
    if kept(a, stays).is_empty() {
        return Err(Numbers::refused(EMPTY));
    }
    check_rows(a, b)?;
    check_separation(s)?;
    check_offset(d)
}

/// Whether the part has a legal wiring at (s, d). Checks 1 to 7 and 10. Numbers are those of the fit
/// call for the rows left, so NOFIT names its pair by number among these.
pub fn still_fits(a: &[i32], b: &[i32], stays: &[u8], s: usize, d: i32) -> Numbers {
    match check_part(a, b, stays, s, d) {
        Err(refusal) => refusal,
        // A part of accepted rows is accepted, so this can only be NOFIT or an answer.
        Ok(()) => fit(&kept(a, stays), &kept(b, stays), s, d),
    }
}

/// Writes the old table without the dropped wires, wire after wire, into the first (pairs kept)(s + 1)
/// places of `out`. Checks 1 to 7, 9 and 16, never NOFIT. The old table has to be legal for the whole
/// rows, and BADWIRE's wire and track are those of the old jumper. On success all numbers are 0;
/// places beyond are untouched.
pub fn part_route(
    a: &[i32],
    b: &[i32],
    stays: &[u8],
    s: usize,
    d: i32,
    table: &[i32],
    out: &mut [i32],
) -> Numbers {
    let mut write = || {
        check_part(a, b, stays, s, d)?;
        if out.len() < kept(a, stays).len() * (s + 1) {
            return Err(Numbers::refused(BUFFER));
        }
        // The checker says BUFFER of the table before it looks into it.
        try_check(a, b, s, d, table)?;
        let wires: Vec<&[i32]> = table[..a.len() * (s + 1)].chunks(s + 1).collect();
        let part = kept(&wires, stays).concat();
        out[..part.len()].copy_from_slice(&part);
        Ok(Numbers::default())
    };
    flat(write())
}
