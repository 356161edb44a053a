//! The same calls as an ordinary good Rust programmer would write them for speed, for benchmarks.
//!
//! Safe code, no allocation in the calls themselves, loops written so that the compiler can turn
//! them into vector code: a pass that folds without an early exit, and a second one that looks for
//! the place only when something is wrong. Every call does all the checks the text asks of it and
//! gives the very same numbers as the reference.

use std::io::{self, BufRead, BufReader, BufWriter, Read, Write};

use crate::form::{Record, Wish};
use crate::numbers::*;
use crate::rule::{rule_at, tracks_for};

/// Levels of 2,048 pairs: 2,048, 1,024 .. 1.
const MOST_LEVELS: usize = 12;

// ---------------------------------------------------------------------------------------------
// Checks
// ---------------------------------------------------------------------------------------------

/// Whether the two rows are accepted.
pub fn accept_rows(a: &[i32], b: &[i32]) -> Numbers {
    flat(check_rows(a, b).map(|()| Numbers::default()))
}

fn check_rows(a: &[i32], b: &[i32]) -> Result<(), Numbers> {
    if a.len() != b.len() {
        return Err(Numbers::refused(UNEQUAL));
    }
    if a.is_empty() {
        return Err(Numbers::refused(EMPTY));
    }
    if a.len() > MOST_PAIRS {
        return Err(Numbers::refused(LONG));
    }
    check_row(a, 0)?;
    check_row(b, a.len())
}

/// COLUMN and ORDER for one row. A rising row is in range when its two ends are.
fn check_row(row: &[i32], before_it: usize) -> Result<(), Numbers> {
    let (before, after) = (&row[..row.len() - 1], &row[1..]);
    let rising = before
        .iter()
        .zip(after)
        .fold(true, |rising, (low, high)| rising & (low < high));
    if rising && row[0] >= FIRST_COLUMN && row[row.len() - 1] <= LAST_COLUMN {
        return Ok(());
    }
    Err(row_fault(row, before_it))
}

#[cold]
fn row_fault(row: &[i32], before_it: usize) -> Numbers {
    let mut before = FIRST_COLUMN - 1;
    for (i, &column) in row.iter().enumerate() {
        if !(FIRST_COLUMN..=LAST_COLUMN).contains(&column) {
            return Numbers::refused_at(COLUMN, before_it + i, 0);
        }
        if column <= before {
            return Numbers::refused_at(ORDER, before_it + i, 0);
        }
        before = column;
    }
    unreachable!("only called for a row with a fault")
}

fn check_separation(s: usize) -> Result<(), Numbers> {
    if s > MOST_TRACKS {
        return Err(Numbers::refused(TRACKS));
    }
    Ok(())
}

fn check_offset(d: i32) -> Result<(), Numbers> {
    if !(-LAST_OFFSET..=LAST_OFFSET).contains(&d) {
        return Err(Numbers::refused(OFFSET));
    }
    Ok(())
}

/// Check 10 and, where it is passed, the numbers of a fit.
fn check_fit(a: &[i32], b: &[i32], s: usize, d: i32) -> Result<Numbers, Numbers> {
    let r = rule_at(s);
    if r >= a.len() || ends(a, b, r, 1).holds(d) {
        return Ok(Numbers {
            separation: s,
            lowest: d,
            highest: d,
            ..Numbers::default()
        });
    }
    Err(misfit(a, b, r, d))
}

#[cold]
fn misfit(a: &[i32], b: &[i32], r: usize, d: i32) -> Numbers {
    for i in 0..a.len() - r {
        if let Some(side) = broken(a, b, i, r, d) {
            return Numbers::no_fit(i, side);
        }
    }
    unreachable!("only called for a misfit")
}

// ---------------------------------------------------------------------------------------------
// The rule. As in the reference r is the number it is read at, s a separation.
// ---------------------------------------------------------------------------------------------

/// How pair i breaks the rule. In columns: x_(i+r) - y_i = a_(i+r) - b_i - r, and
/// x_i - y_(i+r) = a_i - b_(i+r) + r.
#[inline]
fn broken(a: &[i32], b: &[i32], i: usize, r: usize, d: i32) -> Option<u8> {
    if d > a[i + r] - b[i] - r as i32 {
        Some(RIGHT)
    } else if d < a[i] - b[i + r] + r as i32 {
        Some(LEFT)
    } else {
        None
    }
}

/// The two ends of the range at r < n. The rows may be thinned out: `step` is how many pads of the
/// jumper lie between neighbours, so that x_i is entry i less i * step.
#[inline]
fn ends(a: &[i32], b: &[i32], r: usize, step: usize) -> Range {
    let m = a.len() - r;
    let (a_low, a_high) = (&a[..m], &a[r..][..m]);
    let (b_low, b_high) = (&b[..m], &b[r..][..m]);
    let mut lowest = i32::MIN;
    let mut highest = i32::MAX;
    for i in 0..m {
        lowest = lowest.max(a_low[i] - b_high[i]);
        highest = highest.min(a_high[i] - b_low[i]);
    }
    let shift = (r * step) as i32;
    Range {
        lowest: lowest + shift,
        highest: highest - shift,
    }
}

/// Whether (s, d) fits.
pub fn fit(a: &[i32], b: &[i32], s: usize, d: i32) -> Numbers {
    flat(try_fit(a, b, s, d))
}

fn try_fit(a: &[i32], b: &[i32], s: usize, d: i32) -> Result<Numbers, Numbers> {
    check_rows(a, b)?;
    check_separation(s)?;
    check_offset(d)?;
    check_fit(a, b, s, d)
}

/// The least separation at d, in one pass. What meets the rule at r meets it at r + 1, so r only ever
/// rises; the pair that raises it last is the first to break the rule at one track fewer.
pub fn least(a: &[i32], b: &[i32], d: i32) -> Numbers {
    flat(try_least(a, b, d))
}

fn try_least(a: &[i32], b: &[i32], d: i32) -> Result<Numbers, Numbers> {
    check_rows(a, b)?;
    check_offset(d)?;
    let n = a.len();
    let (mut r, mut pair, mut side) = (0, 0, 0);
    let mut i = 0;
    while i + r < n {
        match broken(a, b, i, r, d) {
            Some(how) => {
                (pair, side) = (i, how);
                r += 1;
            }
            None => i += 1,
        }
    }
    Ok(Numbers {
        separation: tracks_for(r),
        lowest: d,
        highest: d,
        pair,
        side,
        ..Numbers::default()
    })
}

/// The offset range at s, in one pass.
pub fn range(a: &[i32], b: &[i32], s: usize) -> Numbers {
    flat(try_range(a, b, s))
}

fn try_range(a: &[i32], b: &[i32], s: usize) -> Result<Numbers, Numbers> {
    check_rows(a, b)?;
    check_separation(s)?;
    let r = rule_at(s);
    let found = if r < a.len() {
        ends(a, b, r, 1)
    } else {
        Range::ALL
    };
    if found.is_empty() {
        return Err(no_offset(a, b, r, found));
    }
    Ok(Numbers {
        separation: s,
        lowest: found.lowest,
        highest: found.highest,
        ..Numbers::default()
    })
}

#[cold]
fn no_offset(a: &[i32], b: &[i32], r: usize, found: Range) -> Numbers {
    let shift = r as i32;
    let low = a
        .iter()
        .zip(&b[r..])
        .position(|(a, b)| a - b + shift == found.lowest);
    let high = a[r..]
        .iter()
        .zip(b)
        .position(|(a, b)| a - b - shift == found.highest);
    Numbers::refused_at(NOOFFSET, low.unwrap_or(0), high.unwrap_or(0))
}

// ---------------------------------------------------------------------------------------------
// Best by halving: numbers at which the rule is read, in the ladder too; a separation at the end.
// ---------------------------------------------------------------------------------------------

/// Best separation, its range, the count, and the ladder.
pub fn best_with_ladder(a: &[i32], b: &[i32], buffer: &mut [usize]) -> Numbers {
    flat(try_best(a, b, buffer, |ladder| halve(a, b, a.len(), 1, ladder)))
}

/// The same with no ladder handed out.
pub fn best(a: &[i32], b: &[i32]) -> Numbers {
    best_with_ladder(a, b, &mut [0; 2 * MOST_LEVELS])
}

/// As `best_with_ladder`, but each level copies its even half out, to arrays of its own.
pub fn best_by_copies(a: &[i32], b: &[i32], buffer: &mut [usize]) -> Numbers {
    flat(try_best(a, b, buffer, |ladder| halve_copies(a, b, 1, ladder)))
}

fn try_best(
    a: &[i32],
    b: &[i32],
    buffer: &mut [usize],
    halved: impl FnOnce(&mut [usize]) -> Halved,
) -> Result<Numbers, Numbers> {
    check_rows(a, b)?;
    // Sizes go n, n/2 rounded up .. 1.
    let levels = a.len().next_power_of_two().ilog2() as usize + 1;
    if buffer.len() < 2 * levels {
        return Err(Numbers::refused(BUFFER));
    }
    let found = halved(buffer);
    let offsets = match found.offsets {
        Some(offsets) => offsets,
        None => ends(a, b, found.best, 1),
    };
    Ok(Numbers {
        separation: tracks_for(found.best),
        lowest: offsets.lowest,
        highest: offsets.highest,
        count: found.count,
        ..Numbers::default()
    })
}

struct Halved {
    /// The least number at which some offset meets the rule.
    best: usize,
    /// None for an answer that wasn't tried.
    offsets: Option<Range>,
    count: usize,
}

/// One level of m entries, read where they stand: entry j is pad `step * j`. Its even half has
/// twice the step and is solved first, then one or two trials decide.
fn halve(a: &[i32], b: &[i32], m: usize, step: usize, ladder: &mut [usize]) -> Halved {
    if m == 1 {
        return one_pair(ladder);
    }
    let below = halve(a, b, m.div_ceil(2), 2 * step, &mut ladder[2..]);
    // Where the step is known the compiler can make vector code.
    decide(m, below, ladder, |r| match step {
        1 => ends(a, b, r, 1),
        2 => ends_apart(a, b, m, r, 2),
        _ => ends_apart(a, b, m, r, step),
    })
}

fn one_pair(ladder: &mut [usize]) -> Halved {
    ladder[..2].copy_from_slice(&[1, 0]);
    Halved {
        best: 0,
        offsets: None,
        count: 0,
    }
}

#[inline]
fn decide(
    m: usize,
    below: Halved,
    ladder: &mut [usize],
    trial: impl Fn(usize) -> Range,
) -> Halved {
    let h = below.best;
    let mut found = Halved {
        best: 2 * h + 1,
        offsets: None,
        count: below.count,
    };
    for r in (2 * h).saturating_sub(1)..=2 * h {
        found.count += 2 * (m - r);
        let offsets = trial(r);
        if !offsets.is_empty() {
            found.best = r;
            found.offsets = Some(offsets);
            break;
        }
    }
    ladder[..2].copy_from_slice(&[m, found.best]);
    found
}

/// The two ends of the range at r among m entries that stand `step` pads apart. Of what was tried
/// in safe Rust (indices, `step_by`, `chunks`) indices are the fastest.
#[inline]
fn ends_apart(a: &[i32], b: &[i32], m: usize, r: usize, step: usize) -> Range {
    let gap = step * r;
    let mut lowest = i32::MIN;
    let mut highest = i32::MAX;
    let mut i = 0;
    for _ in 0..m - r {
        lowest = lowest.max(a[i] - b[i + gap]);
        highest = highest.min(a[i + gap] - b[i]);
        i += step;
    }
    Range {
        lowest: lowest + gap as i32,
        highest: highest - gap as i32,
    }
}

/// One level: the even half is copied out and solved first, then one or two trials decide.
fn halve_copies(a: &[i32], b: &[i32], step: usize, ladder: &mut [usize]) -> Halved {
    let m = a.len();
    if m == 1 {
        return one_pair(ladder);
    }
    let half = m.div_ceil(2);
    let mut even_a = [0i32; MOST_PAIRS / 2];
    let mut even_b = [0i32; MOST_PAIRS / 2];
    copy_even(a, &mut even_a[..half]);
    copy_even(b, &mut even_b[..half]);
    let below = halve_copies(&even_a[..half], &even_b[..half], 2 * step, &mut ladder[2..]);
    decide(m, below, ladder, |r| ends(a, b, r, step))
}

fn copy_even(from: &[i32], to: &mut [i32]) {
    for (to, from) in to.iter_mut().zip(from.iter().step_by(2)) {
        *to = *from;
    }
}

// ---------------------------------------------------------------------------------------------
// Drawing and checking
// ---------------------------------------------------------------------------------------------

/// Draws one wire.
pub fn draw_wire(
    a: &[i32],
    b: &[i32],
    s: usize,
    d: i32,
    wire: usize,
    buffer: &mut [i32],
) -> Numbers {
    flat(try_draw_wire(a, b, s, d, wire, buffer))
}

fn try_draw_wire(
    a: &[i32],
    b: &[i32],
    s: usize,
    d: i32,
    wire: usize,
    buffer: &mut [i32],
) -> Result<Numbers, Numbers> {
    check_rows(a, b)?;
    check_separation(s)?;
    check_offset(d)?;
    if wire >= a.len() {
        return Err(Numbers::refused(WIRE));
    }
    if buffer.len() < s + 1 {
        return Err(Numbers::refused(BUFFER));
    }
    check_fit(a, b, s, d)?;
    draw_columns(a, wire, b[wire] + d, &mut buffer[..s + 1]);
    Ok(Numbers::default())
}

/// Draws all wires, wire after wire.
pub fn draw_all(a: &[i32], b: &[i32], s: usize, d: i32, buffer: &mut [i32]) -> Numbers {
    flat(try_draw_all(a, b, s, d, buffer))
}

fn try_draw_all(
    a: &[i32],
    b: &[i32],
    s: usize,
    d: i32,
    buffer: &mut [i32],
) -> Result<Numbers, Numbers> {
    check_rows(a, b)?;
    check_separation(s)?;
    check_offset(d)?;
    let width = s + 1;
    let Some(table) = buffer.get_mut(..a.len() * width) else {
        return Err(Numbers::refused(BUFFER));
    };
    check_fit(a, b, s, d)?;
    for (i, (wire, &top)) in table.chunks_exact_mut(width).zip(b).enumerate() {
        draw_columns(a, i, top + d, wire);
    }
    Ok(Numbers::default())
}

/// The columns of wire i to column c: straight over track 0, bound by the pads on its way, then c.
fn draw_columns(a: &[i32], i: usize, c: i32, wire: &mut [i32]) {
    wire[0] = a[i];
    let Some((straight, wire)) = wire[1..].split_first_mut() else {
        return;
    };
    *straight = a[i];
    if c >= a[i] {
        let pads = &a[i + 1..];
        let bound = wire.len().min(pads.len());
        let (near, far) = wire.split_at_mut(bound);
        for (t, (column, pad)) in near.iter_mut().zip(pads).enumerate() {
            *column = c.min(pad - t as i32 - 1);
        }
        far.fill(c);
    } else {
        let pads = &a[..i];
        let bound = wire.len().min(pads.len());
        let (near, far) = wire.split_at_mut(bound);
        for (t, (column, pad)) in near.iter_mut().zip(pads.iter().rev()).enumerate() {
            *column = c.max(pad + t as i32 + 1);
        }
        far.fill(c);
    }
}

/// The checker.
///
/// The table lies wire after wire, while the first fault is wanted by track. So it goes wire by wire
/// and, once it knows of a fault, looks only at the tracks below that one.
pub fn check(a: &[i32], b: &[i32], s: usize, d: i32, table: &[i32]) -> Numbers {
    flat(try_check(a, b, s, d, table))
}

fn try_check(a: &[i32], b: &[i32], s: usize, d: i32, table: &[i32]) -> Result<Numbers, Numbers> {
    check_rows(a, b)?;
    check_separation(s)?;
    check_offset(d)?;
    check_table(a, b, s, d, table)
}

/// Checks 9 and 16, for inputs that passed 1 to 7.
fn check_table(a: &[i32], b: &[i32], s: usize, d: i32, table: &[i32]) -> Result<Numbers, Numbers> {
    let width = s + 1;
    let n = a.len();
    let Some(table) = table.get(..n * width) else {
        return Err(Numbers::refused(BUFFER));
    };
    let mut fault = None;
    // Only a fault on a track below this one comes before the one known.
    let mut limit = width;
    for i in 0..n {
        let wire = &table[i * width..(i + 1) * width];
        // It starts at its pad, and a step aside on track 0 is a fault there.
        if wire[0] != a[i] || (s > 0 && wire[1] != a[i]) {
            (fault, limit) = (Some(i), 0);
            break;
        }
        if i + 1 < n {
            let next = &table[(i + 1) * width..(i + 2) * width];
            if let Some(track) = first_meeting(wire, next, limit.min(s)) {
                (fault, limit) = (Some(i), track);
                if track == 0 {
                    break;
                }
            }
        }
        if limit > s && wire[s] != b[i] + d {
            (fault, limit) = (Some(i), s);
            if s == 0 {
                break;
            }
        }
    }
    match fault {
        Some(wire) => Err(Numbers::refused_at(BADWIRE, wire, limit)),
        None => Ok(Numbers::default()),
    }
}

/// The first of the `tracks` lowest tracks on which a wire isn't wholly left of the next.
fn first_meeting(wire: &[i32], next: &[i32], tracks: usize) -> Option<usize> {
    let (wire_from, wire_to) = (&wire[..tracks], &wire[1..][..tracks]);
    let (next_from, next_to) = (&next[..tracks], &next[1..][..tracks]);
    let meets = |t: usize| wire_from[t].max(wire_to[t]) >= next_from[t].min(next_to[t]);
    let any = (0..tracks).fold(false, |any, t| any | meets(t));
    if any {
        (0..tracks).find(|&t| meets(t))
    } else {
        None
    }
}

// ---------------------------------------------------------------------------------------------
// Parts of a jumper
// ---------------------------------------------------------------------------------------------

/// Checks 1 to 7 of a part; how many pairs stay.
fn check_part(a: &[i32], b: &[i32], stays: &[u8], s: usize, d: i32) -> Result<usize, Numbers> {
    if a.len() != b.len() || a.len() != stays.len() {
        return Err(Numbers::refused(UNEQUAL));
    }
    let kept = stays.iter().filter(|&&stay| stay != 0).count();
    if kept == 0 {
        return Err(Numbers::refused(EMPTY));
    }
    check_rows(a, b)?;
    check_separation(s)?;
    check_offset(d)?;
    Ok(kept)
}

/// Whether (s, d) still fits when only some pairs stay.
pub fn still_fits(a: &[i32], b: &[i32], stays: &[u8], s: usize, d: i32) -> Numbers {
    let kept = match check_part(a, b, stays, s, d) {
        Err(refusal) => return refusal,
        Ok(kept) => kept,
    };
    // Every pad is written and only those kept move the place on, so that no branch goes wrong.
    let (mut part_a, mut part_b) = ([0; MOST_PAIRS], [0; MOST_PAIRS]);
    let mut place = 0;
    for ((&a, &b), &stay) in a.iter().zip(b).zip(stays) {
        part_a[place] = a;
        part_b[place] = b;
        place += (stay != 0) as usize;
    }
    flat(check_fit(&part_a[..kept], &part_b[..kept], s, d))
}

/// The route of the part, from the old one.
pub fn part_route(
    a: &[i32],
    b: &[i32],
    stays: &[u8],
    s: usize,
    d: i32,
    table: &[i32],
    out: &mut [i32],
) -> Numbers {
    let mut write = || {
        let kept = check_part(a, b, stays, s, d)?;
        let width = s + 1;
        let Some(out) = out.get_mut(..kept * width) else {
            return Err(Numbers::refused(BUFFER));
        };
        check_table(a, b, s, d, table)?;
        let wires = table.chunks_exact(width).zip(stays);
        let wires_kept = wires.filter(|(_, &stay)| stay != 0);
        for (place, (wire, _)) in out.chunks_exact_mut(width).zip(wires_kept) {
            place.copy_from_slice(wire);
        }
        Ok(Numbers::default())
    };
    flat(write())
}

// ---------------------------------------------------------------------------------------------
// The form
// ---------------------------------------------------------------------------------------------

fn answer_wish(a: &[i32], b: &[i32], wish: Wish) -> Numbers {
    match (wish.separation, wish.offset) {
        (Some(s), Some(d)) => fit(a, b, s, d),
        (Some(s), None) => range(a, b, s),
        (None, Some(d)) => least(a, b, d),
        (None, None) => best(a, b),
    }
}

/// The part of a pool, if it lies within.
fn part(pool: &[i32], start: usize, count: usize) -> Option<&[i32]> {
    pool.get(start..start.checked_add(count)?)
}

fn answer_record(record: &Record, bottoms: &[i32], tops: &[i32]) -> Numbers {
    let a = part(bottoms, record.bottom_start, record.count);
    let b = part(tops, record.top_start, record.count);
    match (a, b) {
        (Some(a), Some(b)) => answer_wish(a, b, record.wish),
        _ => Numbers::refused(LINE),
    }
}

/// Answers line k of a form.
pub fn answer_line(table: &mut [Record], k: usize, bottoms: &[i32], tops: &[i32]) -> Numbers {
    if table.len() > MOST_LINES {
        return Numbers::refused(LINE);
    }
    let Some(record) = table.get_mut(k) else {
        return Numbers::refused(LINE);
    };
    record.answer = answer_record(record, bottoms, tops);
    record.answer
}

/// Answers all lines of a form.
pub fn answer_form(table: &mut [Record], bottoms: &[i32], tops: &[i32]) -> Numbers {
    if table.len() > MOST_LINES {
        return Numbers::refused(LINE);
    }
    for record in table {
        record.answer = answer_record(record, bottoms, tops);
    }
    Numbers::default()
}

// ---------------------------------------------------------------------------------------------
// Sheets
// ---------------------------------------------------------------------------------------------

/// Most bytes of a good input frame: kind, line, k, 16 columns, sum.
const MOST_BYTES: usize = 3 + 16 * 4 + 1;
/// Most characters of its line, the line feed included.
const MOST_CHARACTERS: usize = 2 * MOST_BYTES + 1;
/// Bytes read or written at a time.
const CHUNK: usize = 1 << 16;

/// Answers a sheet as it comes in. Holds one line of the sheet and one open order line, never the
/// sheet; a line too long for any good frame is passed over as it is read.
pub fn answer_stream<R: Read, W: Write>(input: R, output: W) -> io::Result<()> {
    let mut input = BufReader::with_capacity(CHUNK, input);
    let mut machine = Machine::new(BufWriter::with_capacity(CHUNK, output));
    let mut line = Vec::with_capacity(MOST_CHARACTERS);
    loop {
        line.clear();
        let limit = MOST_CHARACTERS as u64;
        let got = input.by_ref().take(limit).read_until(b'\n', &mut line)?;
        if got == 0 {
            break;
        }
        match line.strip_suffix(b"\n") {
            Some(digits) => machine.line(digits)?,
            None => {
                // Too long, or the end of the sheet without a line feed.
                input.skip_until(b'\n')?;
                machine.bad_frame()?;
            }
        }
    }
    machine.end()
}

#[derive(Clone, Copy, PartialEq, Eq)]
enum State {
    Ready,
    Inside,
    Skipping,
}

struct Machine<W: Write> {
    out: W,
    state: State,
    /// One bit for each line number of an earlier good 10, up to 63.
    earlier: u64,
    // The open line.
    line: u8,
    n: usize,
    wish: Wish,
    bottom: Vec<i32>,
    top: Vec<i32>,
}

impl<W: Write> Machine<W> {
    fn new(out: W) -> Machine<W> {
        Machine {
            out,
            state: State::Ready,
            earlier: 0,
            line: 0,
            n: 0,
            wish: Wish::default(),
            bottom: Vec::with_capacity(MOST_PAIRS),
            top: Vec::with_capacity(MOST_PAIRS),
        }
    }

    /// One line of the sheet without its line feed.
    fn line(&mut self, digits: &[u8]) -> io::Result<()> {
        let mut space = [0u8; MOST_BYTES];
        let Some(bytes) = decode(digits, &mut space) else {
            return self.bad_frame();
        };
        match bytes {
            [0x10, rest @ ..] if rest.len() == 10 => self.header(rest),
            [kind @ (0x11 | 0x12), line, k, rest @ ..]
                if (1..=16).contains(k) && rest.len() == 4 * *k as usize + 1 =>
            {
                self.columns(*kind == 0x11, *line, &rest[..rest.len() - 1])
            }
            _ => self.bad_frame(),
        }
    }

    fn bad_frame(&mut self) -> io::Result<()> {
        match self.state {
            State::Ready => self.refuse(0xFF, FRAME),
            State::Inside => self.refuse(self.line, FRAME),
            State::Skipping => Ok(()),
        }
    }

    fn header(&mut self, bytes: &[u8]) -> io::Result<()> {
        if self.state == State::Inside {
            self.refuse(self.line, SEQUENCE)?;
        }
        let line = bytes[0];
        if line as usize >= MOST_LINES {
            return self.refuse(line, LINE);
        }
        let bit = 1u64 << line;
        if self.earlier & bit != 0 {
            return self.refuse(line, TWICE);
        }
        self.earlier |= bit;
        let n = u16::from_be_bytes([bytes[1], bytes[2]]) as usize;
        if n == 0 {
            return self.refuse(line, EMPTY);
        }
        if n > MOST_PAIRS {
            return self.refuse(line, LONG);
        }
        let separation = u16::from_be_bytes([bytes[3], bytes[4]]);
        let offset = i32::from_be_bytes([bytes[5], bytes[6], bytes[7], bytes[8]]);
        self.line = line;
        self.n = n;
        self.wish = Wish {
            separation: (separation != u16::MAX).then_some(separation as usize),
            offset: (offset != i32::MIN).then_some(offset),
        };
        self.bottom.clear();
        self.top.clear();
        self.state = State::Inside;
        Ok(())
    }

    fn columns(&mut self, bottom: bool, line: u8, bytes: &[u8]) -> io::Result<()> {
        match self.state {
            State::Ready => return self.refuse(0xFF, SEQUENCE),
            State::Skipping => return Ok(()),
            State::Inside => {}
        }
        let filling_bottom = self.bottom.len() < self.n;
        let row = if filling_bottom {
            &mut self.bottom
        } else {
            &mut self.top
        };
        let passes = row.len() + bytes.len() / 4 > self.n;
        if line != self.line || bottom != filling_bottom || passes {
            return self.refuse(self.line, SEQUENCE);
        }
        row.extend(
            bytes
                .chunks_exact(4)
                .map(|four| i32::from_be_bytes([four[0], four[1], four[2], four[3]])),
        );
        if self.top.len() == self.n {
            self.state = State::Ready;
            self.answer()?;
        }
        Ok(())
    }

    fn end(mut self) -> io::Result<()> {
        if self.state == State::Inside {
            self.refuse(self.line, SEQUENCE)?;
        }
        self.out.flush()
    }

    fn refuse(&mut self, line: u8, refusal: u8) -> io::Result<()> {
        self.state = State::Skipping;
        write_20(&mut self.out, line, &Numbers::refused(refusal))
    }

    fn answer(&mut self) -> io::Result<()> {
        let (out, line) = (&mut self.out, self.line);
        let (a, b) = (&self.bottom[..], &self.top[..]);
        let numbers = answer_wish(a, b, self.wish);
        write_20(out, line, &numbers)?;
        if numbers.refusal != 0 {
            return Ok(());
        }
        for wire in 0..a.len() {
            let (mut at, c) = (a[wire], b[wire] + numbers.lowest);
            let rightwards = c >= at;
            // Straight over track 0. A wire never turns round, so once at c it goes straight up. The
            // loop counts from 0: from 1 on, the compiler's code took twice as long.
            for below in 0..rule_at(numbers.separation) {
                if at == c {
                    break;
                }
                let track = below + 1;
                let to = if rightwards {
                    match a.get(wire + track) {
                        Some(pad) => c.min(pad - track as i32),
                        None => c,
                    }
                } else {
                    match wire.checked_sub(track) {
                        Some(left) => c.max(a[left] + track as i32),
                        None => c,
                    }
                };
                if to != at {
                    write_21(out, line, wire, track, at, to)?;
                    at = to;
                }
            }
        }
        Ok(())
    }
}

fn write_20<W: Write>(out: &mut W, line: u8, numbers: &Numbers) -> io::Result<()> {
    let mut bytes = [0u8; 17];
    bytes[0] = 0x20;
    bytes[1] = line;
    bytes[2] = numbers.refusal;
    bytes[3..5].copy_from_slice(&(numbers.separation as u16).to_be_bytes());
    bytes[5..9].copy_from_slice(&numbers.lowest.to_be_bytes());
    bytes[9..13].copy_from_slice(&numbers.highest.to_be_bytes());
    bytes[13..15].copy_from_slice(&(numbers.pair as u16).to_be_bytes());
    bytes[15] = numbers.side;
    write_frame(out, &mut bytes)
}

fn write_21<W: Write>(
    out: &mut W,
    line: u8,
    wire: usize,
    track: usize,
    from: i32,
    to: i32,
) -> io::Result<()> {
    let mut bytes = [0u8; 15];
    bytes[0] = 0x21;
    bytes[1] = line;
    bytes[2..4].copy_from_slice(&(wire as u16).to_be_bytes());
    bytes[4..6].copy_from_slice(&(track as u16).to_be_bytes());
    bytes[6..10].copy_from_slice(&from.to_be_bytes());
    bytes[10..14].copy_from_slice(&to.to_be_bytes());
    write_frame(out, &mut bytes)
}

/// Sets the last byte and writes the frame as a line.
fn write_frame<W: Write, const N: usize>(out: &mut W, bytes: &mut [u8; N]) -> io::Result<()> {
    const DIGITS: &[u8; 16] = b"0123456789ABCDEF";
    let sum = bytes[..N - 1]
        .iter()
        .fold(0u8, |sum, byte| sum.wrapping_add(*byte));
    bytes[N - 1] = sum.wrapping_neg();
    let mut line = [0u8; 2 * 17 + 1];
    for (two, byte) in line.chunks_exact_mut(2).zip(bytes.iter()) {
        two[0] = DIGITS[(byte >> 4) as usize];
        two[1] = DIGITS[(byte & 15) as usize];
    }
    line[2 * N] = b'\n';
    out.write_all(&line[..2 * N + 1])
}

/// The value of every character that is a capital hexadecimal digit; 16 for all others.
const VALUES: [u8; 256] = {
    let mut values = [16u8; 256];
    let mut value = 0;
    while value < 16 {
        values[b"0123456789ABCDEF"[value] as usize] = value as u8;
        value += 1;
    }
    values
};

/// The bytes of a line, if it is whole, short enough and its sum is 0.
fn decode<'s>(digits: &[u8], space: &'s mut [u8; MOST_BYTES]) -> Option<&'s [u8]> {
    let length = digits.len() / 2;
    if !digits.len().is_multiple_of(2) || length > MOST_BYTES {
        return None;
    }
    let (mut sum, mut seen) = (0u8, 0u8);
    for (byte, two) in space.iter_mut().zip(digits.chunks_exact(2)) {
        let (high, low) = (VALUES[two[0] as usize], VALUES[two[1] as usize]);
        seen |= high | low;
        *byte = (high << 4) | (low & 15);
        sum = sum.wrapping_add(*byte);
    }
    (seen < 16 && sum == 0).then_some(&space[..length])
}
