//! Sheets: frames in hexadecimal, and the machine that answers them.

use std::collections::HashSet;

use crate::form::{answer_wish, Wish};
use crate::numbers::*;
use crate::wires::draw_all;

/// Kind of a header.
pub const HEADER: u8 = 0x10;
/// Kind of a frame of bottom columns.
pub const BOTTOM: u8 = 0x11;
/// Kind of a frame of top columns.
pub const TOP: u8 = 0x12;
/// Kind of an answer.
pub const ANSWER: u8 = 0x20;
/// Kind of a run of a wire.
pub const RUN: u8 = 0x21;

/// The separation that stands for "least".
pub const LEAST: u16 = 0xFFFF;
/// The offset that stands for "best": 80000000 as two's complement.
pub const BEST: i32 = i32::MIN;
/// The line number of an answer that belongs to no line.
pub const NO_LINE: u8 = 0xFF;

/// The sum of all bytes, carries past 255 dropped.
pub fn sum(bytes: &[u8]) -> u8 {
    bytes.iter().fold(0u8, |sum, &byte| sum.wrapping_add(byte))
}

/// The bytes as capital hexadecimal and a line feed, nothing added.
pub fn hex_line(bytes: &[u8]) -> Vec<u8> {
    let mut line = String::new();
    for byte in bytes {
        line.push_str(&format!("{byte:02X}"));
    }
    line.push('\n');
    line.into_bytes()
}

/// A frame: the bytes, then the byte that makes the sum of all come to 0.
pub fn frame(bytes: &[u8]) -> Vec<u8> {
    let mut whole = bytes.to_vec();
    whole.push(0u8.wrapping_sub(sum(bytes)));
    hex_line(&whole)
}

/// A frame 10. [`LEAST`] and [`BEST`] are the separation and offset that stand for a wish.
pub fn frame_10(line: u8, n: u16, separation: u16, offset: i32) -> Vec<u8> {
    let mut bytes = vec![HEADER, line];
    bytes.extend(n.to_be_bytes());
    bytes.extend(separation.to_be_bytes());
    bytes.extend(offset.to_be_bytes());
    frame(&bytes)
}

/// A frame 11 or 12 with these columns; a good one has 1 to 16.
fn frame_columns(kind: u8, line: u8, columns: &[i32]) -> Vec<u8> {
    let mut bytes = vec![kind, line, columns.len() as u8];
    for column in columns {
        bytes.extend(column.to_be_bytes());
    }
    frame(&bytes)
}

/// A frame 11.
pub fn frame_11(line: u8, columns: &[i32]) -> Vec<u8> {
    frame_columns(BOTTOM, line, columns)
}

/// A frame 12.
pub fn frame_12(line: u8, columns: &[i32]) -> Vec<u8> {
    frame_columns(TOP, line, columns)
}

/// A frame 20. The numbers of a refusal are already 0 but for NOFIT's pair and side; a place has no
/// field here.
pub fn frame_20(line: u8, numbers: &Numbers) -> Vec<u8> {
    let mut bytes = vec![ANSWER, line, numbers.refusal];
    bytes.extend((numbers.separation as u16).to_be_bytes());
    bytes.extend(numbers.lowest.to_be_bytes());
    bytes.extend(numbers.highest.to_be_bytes());
    bytes.extend((numbers.pair as u16).to_be_bytes());
    bytes.push(numbers.side);
    frame(&bytes)
}

/// A frame 21.
pub fn frame_21(line: u8, wire: usize, track: usize, from: i32, to: i32) -> Vec<u8> {
    let mut bytes = vec![RUN, line];
    bytes.extend((wire as u16).to_be_bytes());
    bytes.extend((track as u16).to_be_bytes());
    bytes.extend(from.to_be_bytes());
    bytes.extend(to.to_be_bytes());
    frame(&bytes)
}

/// A good input frame.
#[derive(Clone, Debug, PartialEq, Eq)]
pub enum Frame {
    Header {
        line: u8,
        n: usize,
        wish: Wish,
    },
    Columns {
        kind: u8,
        line: u8,
        columns: Vec<i32>,
    },
}

/// Reads one line of the sheet, its line feed included if it has one. None for a bad frame.
pub fn read_frame(line: &[u8]) -> Option<Frame> {
    let bytes = bytes_of_line(line)?;
    if bytes.is_empty() || sum(&bytes) != 0 {
        return None;
    }
    match bytes[0] {
        HEADER => {
            if bytes.len() != 1 + 1 + 2 + 2 + 4 + 1 {
                return None;
            }
            let separation = u16::from_be_bytes([bytes[4], bytes[5]]);
            let offset = four(&bytes[6..10]);
            Some(Frame::Header {
                line: bytes[1],
                n: u16::from_be_bytes([bytes[2], bytes[3]]) as usize,
                wish: Wish {
                    separation: (separation != LEAST).then_some(separation as usize),
                    offset: (offset != BEST).then_some(offset),
                },
            })
        }
        kind @ (BOTTOM | TOP) => {
            if bytes.len() < 1 + 1 + 1 + 1 {
                return None;
            }
            let k = bytes[2] as usize;
            if !(1..=16).contains(&k) || bytes.len() != 1 + 1 + 1 + 4 * k + 1 {
                return None;
            }
            Some(Frame::Columns {
                kind,
                line: bytes[1],
                columns: bytes[3..3 + 4 * k].chunks(4).map(four).collect(),
            })
        }
        _ => None,
    }
}

/// Four bytes, high byte first, two's complement.
fn four(bytes: &[u8]) -> i32 {
    i32::from_be_bytes([bytes[0], bytes[1], bytes[2], bytes[3]])
}

/// The bytes of a line that is capital hexadecimal, two digits a byte, and a line feed.
fn bytes_of_line(line: &[u8]) -> Option<Vec<u8>> {
    let digits = line.strip_suffix(b"\n")?;
    if digits.len() % 2 != 0 {
        return None;
    }
    digits
        .chunks(2)
        .map(|two| Some(16 * digit(two[0])? + digit(two[1])?))
        .collect()
}

/// The value of one capital hexadecimal digit.
fn digit(character: u8) -> Option<u8> {
    b"0123456789ABCDEF"
        .iter()
        .position(|&known| known == character)
        .map(|value| value as u8)
}

/// Where the machine stands between two lines.
enum State {
    Ready,
    Inside(Open),
    Skipping,
}

/// An open line and the columns it has so far.
struct Open {
    line: u8,
    n: usize,
    wish: Wish,
    bottom: Vec<i32>,
    top: Vec<i32>,
}

/// The answer to a whole sheet.
pub fn answer_sheet(input: &[u8]) -> Vec<u8> {
    let mut out = Vec::new();
    let mut earlier: HashSet<u8> = HashSet::new();
    let mut state = State::Ready;
    // Pieces end with a line feed, all but perhaps the last; nothing after the last line feed is no
    // line.
    for piece in input.split_inclusive(|&character| character == b'\n') {
        state = match (state, read_frame(piece)) {
            // Ready or skipping, a good 10 opens a line.
            (State::Ready | State::Skipping, Some(Frame::Header { line, n, wish })) => {
                open(line, n, wish, &mut earlier, &mut out)
            }
            // Ready, anything else answers line FF with 13 or 14, then it skips.
            (State::Ready, None) => refuse(NO_LINE, FRAME, &mut out),
            (State::Ready, Some(Frame::Columns { .. })) => refuse(NO_LINE, SEQUENCE, &mut out),
            // Skipping, all but a 10 is passed over.
            (State::Skipping, _) => State::Skipping,
            // Inside, a bad frame answers 13 and skips.
            (State::Inside(now), None) => refuse(now.line, FRAME, &mut out),
            // A wrong good frame answers 14 and skips, but a 10 then opens its line.
            (State::Inside(now), Some(Frame::Header { line, n, wish })) => {
                refuse(now.line, SEQUENCE, &mut out);
                open(line, n, wish, &mut earlier, &mut out)
            }
            (
                State::Inside(now),
                Some(Frame::Columns {
                    kind,
                    line,
                    columns,
                }),
            ) => take(now, kind, line, columns, &mut out),
        };
    }
    // End of input inside a line answers 14.
    if let State::Inside(now) = state {
        refuse(now.line, SEQUENCE, &mut out);
    }
    out
}

/// Writes a refusal; every refusal of the machine's own is followed by skipping.
fn refuse(line: u8, refusal: u8, out: &mut Vec<u8>) -> State {
    out.extend(frame_20(line, &Numbers::refused(refusal)));
    State::Skipping
}

/// A good 10. It is refused under its own line number, and then skipped, for 12, 15, 2 or 3, in
/// this order. Refused or not, it counts as an earlier good 10 from now on.
fn open(line: u8, n: usize, wish: Wish, earlier: &mut HashSet<u8>, out: &mut Vec<u8>) -> State {
    let twice = !earlier.insert(line);
    if line as usize >= MOST_LINES {
        refuse(line, LINE, out)
    } else if twice {
        refuse(line, TWICE, out)
    } else if n == 0 {
        refuse(line, EMPTY, out)
    } else if n > MOST_PAIRS {
        refuse(line, LONG, out)
    } else {
        State::Inside(Open {
            line,
            n,
            wish,
            bottom: Vec::new(),
            top: Vec::new(),
        })
    }
}

/// A good 11 or 12 inside a line.
fn take(mut now: Open, kind: u8, line: u8, columns: Vec<i32>, out: &mut Vec<u8>) -> State {
    let names_another = line != now.line;
    let bottom_full = now.bottom.len() == now.n;
    let wrong_row = (kind == TOP && !bottom_full) || (kind == BOTTOM && bottom_full);
    if names_another || wrong_row {
        return refuse(now.line, SEQUENCE, out);
    }
    let row = if kind == BOTTOM {
        &mut now.bottom
    } else {
        &mut now.top
    };
    if row.len() + columns.len() > now.n {
        return refuse(now.line, SEQUENCE, out);
    }
    row.extend(columns);
    if now.top.len() < now.n {
        return State::Inside(now);
    }
    answer_open(&now, out);
    // After a complete line it is ready.
    State::Ready
}

/// The 20 of a complete line and, if it isn't refused, its 21s at the lowest offset. None names track
/// 0, over which every wire goes straight.
fn answer_open(now: &Open, out: &mut Vec<u8>) {
    let answer = answer_wish(&now.bottom, &now.top, now.wish);
    out.extend(frame_20(now.line, &answer));
    if answer.refusal != 0 {
        return;
    }
    let s = answer.separation;
    let mut table = vec![0; now.n * (s + 1)];
    let drawn = draw_all(&now.bottom, &now.top, s, answer.lowest, &mut table);
    assert_eq!(drawn, Numbers::default(), "what is answered can be drawn");
    for wire in 0..now.n {
        for track in 0..s {
            let from = table[wire * (s + 1) + track];
            let to = table[wire * (s + 1) + track + 1];
            if from != to {
                out.extend(frame_21(now.line, wire, track, from, to));
            }
        }
    }
}
