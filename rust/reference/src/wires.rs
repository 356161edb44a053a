//! Drawing, the checker, and legality as defined over grid points.

use std::collections::HashSet;

use crate::numbers::*;
use crate::rows::{check_offset, check_rows, check_separation};
use crate::rule::{check_fit, rule_at};

/// A grid point: column, track.
pub type Point = (i32, i32);

/// The s + 1 columns e_0 .. e_s of wire i, by the text: from s = 1 on the straight step that request
/// 106 puts below, and above it 01's columns as they were. Needs accepted rows and i < n. When
/// (s, d) doesn't fit it still follows the text, but is then no wire.
pub fn columns_of_wire(a: &[i32], b: &[i32], s: usize, d: i32, i: usize) -> Vec<i32> {
    let mut e = Vec::new();
    if s >= 1 {
        e.push(a[i]);
    }
    e.extend(columns_of_01(a, b, rule_at(s), d, i));
    e
}

/// The r + 1 columns that 01 gives wire i on r tracks, where it may run along the lowest.
fn columns_of_01(a: &[i32], b: &[i32], r: usize, d: i32, i: usize) -> Vec<i32> {
    let n = a.len();
    let c = b[i] + d;
    let mut e = vec![a[i]];
    for t in 0..r {
        let next = if c >= a[i] {
            if i + t + 1 < n {
                c.min(a[i + t + 1] - t as i32 - 1)
            } else {
                c
            }
        } else if i > t {
            c.max(a[i - t - 1] + t as i32 + 1)
        } else {
            c
        };
        e.push(next);
    }
    e
}

/// Draws wire number `wire` into the first s + 1 places of the buffer. Checks 1 to 10. On success
/// all numbers are 0; places beyond are untouched.
pub fn draw_wire(
    a: &[i32],
    b: &[i32],
    s: usize,
    d: i32,
    wire: usize,
    buffer: &mut [i32],
) -> Numbers {
    flat(try_draw_wire(a, b, s, d, wire, buffer))
}

fn try_draw_wire(
    a: &[i32],
    b: &[i32],
    s: usize,
    d: i32,
    wire: usize,
    buffer: &mut [i32],
) -> Result<Numbers, Numbers> {
    check_rows(a, b)?;
    check_separation(s)?;
    check_offset(d)?;
    if wire >= a.len() {
        return Err(Numbers::refused(WIRE));
    }
    if buffer.len() < s + 1 {
        return Err(Numbers::refused(BUFFER));
    }
    check_fit(a, b, s, d)?;
    buffer[..s + 1].copy_from_slice(&columns_of_wire(a, b, s, d, wire));
    Ok(Numbers::default())
}

/// Draws all wires, wire after wire, into the first n(s + 1) places of the buffer. Checks 1 to 7,
/// 9 and 10. On success all numbers are 0; places beyond are untouched.
pub fn draw_all(a: &[i32], b: &[i32], s: usize, d: i32, buffer: &mut [i32]) -> Numbers {
    flat(try_draw_all(a, b, s, d, buffer))
}

fn try_draw_all(
    a: &[i32],
    b: &[i32],
    s: usize,
    d: i32,
    buffer: &mut [i32],
) -> Result<Numbers, Numbers> {
    check_rows(a, b)?;
    check_separation(s)?;
    check_offset(d)?;
    let n = a.len();
    if buffer.len() < n * (s + 1) {
        return Err(Numbers::refused(BUFFER));
    }
    check_fit(a, b, s, d)?;
    for i in 0..n {
        let e = columns_of_wire(a, b, s, d, i);
        buffer[i * (s + 1)..(i + 1) * (s + 1)].copy_from_slice(&e);
    }
    Ok(Numbers::default())
}

/// The checker: reads the table's first n(s + 1) places and reports the first fault by track, then
/// wire. Checks 1 to 7, 9 and 16, never NOFIT. On acceptance all numbers are 0.
pub fn check(a: &[i32], b: &[i32], s: usize, d: i32, table: &[i32]) -> Numbers {
    flat(try_check(a, b, s, d, table))
}

pub(crate) fn try_check(
    a: &[i32],
    b: &[i32],
    s: usize,
    d: i32,
    table: &[i32],
) -> Result<Numbers, Numbers> {
    check_rows(a, b)?;
    check_separation(s)?;
    check_offset(d)?;
    let n = a.len();
    if table.len() < n * (s + 1) {
        return Err(Numbers::refused(BUFFER));
    }
    let e = |wire: usize, track: usize| table[wire * (s + 1) + track];
    let highest = |wire: usize, track: usize| e(wire, track).max(e(wire, track + 1));
    let lowest = |wire: usize, track: usize| e(wire, track).min(e(wire, track + 1));
    for track in 0..=s {
        for wire in 0..n {
            let wrong_start = track == 0 && e(wire, track) != a[wire];
            let wrong_end = track == s && e(wire, track) != b[wire] + d;
            let steps_aside = track == 0 && track < s && e(wire, track) != e(wire, track + 1);
            let meets_next =
                track < s && wire + 1 < n && highest(wire, track) >= lowest(wire + 1, track);
            if wrong_start || wrong_end || steps_aside || meets_next {
                return Err(Numbers::refused_at(BADWIRE, wire, track));
            }
        }
    }
    Ok(Numbers::default())
}

/// Walks the wire with columns e_0 .. e_s: every grid point, in order. On each track below s from
/// where it enters the track to where it enters the next, then up; at last its one point on track s.
pub fn points_of_wire(e: &[i32]) -> Vec<Point> {
    let s = e.len() - 1;
    let mut points = Vec::new();
    for t in 0..s {
        let (mut column, stop) = (e[t], e[t + 1]);
        points.push((column, t as i32));
        while column != stop {
            column += if stop > column { 1 } else { -1 };
            points.push((column, t as i32));
        }
    }
    points.push((e[s], s as i32));
    points
}

/// Legality as the text defines it, request 106 included, over any lists of grid points.
pub fn legal_wires(a: &[i32], b: &[i32], s: usize, d: i32, wires: &[Vec<Point>]) -> bool {
    let n = a.len();
    let s = s as i32;
    if wires.len() != n {
        return false;
    }
    for (i, wire) in wires.iter().enumerate() {
        // It starts at its bottom pad and ends at its top pad.
        if wire.first() != Some(&(a[i], 0)) || wire.last() != Some(&(b[i] + d, s)) {
            return false;
        }
        // Each step moves one unit along a column or a track.
        for step in wire.windows(2) {
            let across = (step[1].0 as i64 - step[0].0 as i64).abs();
            let along = (step[1].1 as i64 - step[0].1 as i64).abs();
            if across + along != 1 {
                return false;
            }
        }
        // It stays on tracks 0 to s, only its first point is on track 0 and only its last on s.
        for (place, &(_, track)) in wire.iter().enumerate() {
            let first = place == 0;
            let last = place + 1 == wire.len();
            if track < 0 || track > s || (track == 0) != first || (track == s) != last {
                return false;
            }
        }
    }
    // No grid point is in two of them.
    let sets: Vec<HashSet<Point>> = wires
        .iter()
        .map(|wire| wire.iter().copied().collect())
        .collect();
    let mut taken: HashSet<Point> = HashSet::new();
    for set in &sets {
        for &point in set {
            if !taken.insert(point) {
                return false;
            }
        }
    }
    true
}

/// Legality of a table's first n(s + 1) places, every wire walked point by point. Slow when a
/// column is far off.
pub fn legal_table(a: &[i32], b: &[i32], s: usize, d: i32, table: &[i32]) -> bool {
    let wires: Vec<Vec<Point>> = table[..a.len() * (s + 1)]
        .chunks(s + 1)
        .map(points_of_wire)
        .collect();
    legal_wires(a, b, s, d, &wires)
}
