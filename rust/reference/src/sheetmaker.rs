//! Sheets for the tests: whole ones, and whole ones damaged in every way the text speaks of.

use crate::form::Wish;
use crate::numbers::{FIRST_COLUMN, LAST_COLUMN, LAST_OFFSET, MOST_TRACKS};
use crate::random::*;
use crate::sheet::*;

/// The frames of one complete line, one after the other, its columns cut into random parts of 1 to
/// 16 (or all of 16 where `full`). A separation over 65,534 can't be written and is written as that.
pub fn line_frames(
    random: &mut Random,
    line: u8,
    a: &[i32],
    b: &[i32],
    wish: Wish,
    full: bool,
) -> Vec<Vec<u8>> {
    let separation = wish
        .separation
        .map_or(LEAST, |s| s.min(LEAST as usize - 1) as u16);
    let offset = wish.offset.unwrap_or(BEST);
    let mut frames = vec![frame_10(line, a.len() as u16, separation, offset)];
    for (row, bottom) in [(a, true), (b, false)] {
        let mut rest = row;
        while !rest.is_empty() {
            let k = if full { 16 } else { 1 + random.below(16) };
            let (part, after) = rest.split_at(k.min(rest.len()));
            frames.push(if bottom {
                frame_11(line, part)
            } else {
                frame_12(line, part)
            });
            rest = after;
        }
    }
    frames
}

/// A random wish for these rows, its numbers mostly in range.
pub fn wish(random: &mut Random, a: &[i32], b: &[i32]) -> Wish {
    Wish {
        separation: random.once_in(2).then(|| separation(random, a.len())),
        offset: random.once_in(2).then(|| offset(random, a, b)),
    }
}

/// The frames of a whole sheet: `lines` lines (at most 64) with numbers of their own in random
/// order, each of up to `most` pairs. Rows are accepted; wishes may be refused.
pub fn whole_frames(random: &mut Random, lines: usize, most: usize) -> Vec<Vec<u8>> {
    let mut numbers: Vec<u8> = (0..64).collect();
    for i in (1..numbers.len()).rev() {
        numbers.swap(i, random.below(i + 1));
    }
    let mut frames = Vec::new();
    for &line in numbers.iter().take(lines) {
        let (a, b) = rows(random, most);
        let wish = wish(random, &a, &b);
        frames.extend(line_frames(random, line, &a, &b, wish, false));
    }
    frames
}

/// A whole sheet.
pub fn whole_sheet(random: &mut Random, lines: usize, most: usize) -> Vec<u8> {
    whole_frames(random, lines, most).concat()
}

/// The ways to damage a sheet.
#[derive(Clone, Copy, Debug, PartialEq, Eq)]
pub enum Damage {
    /// One bit of one character turned over.
    FlippedBit,
    /// One character replaced by any byte.
    AnyByte,
    /// A line left out.
    DroppedLine,
    /// A line written twice.
    RepeatedLine,
    /// Two neighbouring lines exchanged.
    ExchangedLines,
    /// A line moved to anywhere.
    MovedLine,
    /// A line in lower case.
    LowerCase,
    /// A carriage return before one line feed.
    CarriageReturn,
    /// Carriage returns before all line feeds.
    CarriageReturns,
    /// A last byte that doesn't bring the sum to 0.
    WrongSum,
    /// Another kind, the sum right.
    WrongKind,
    /// Another k, the sum right.
    WrongK,
    /// A byte too many, the sum right.
    LongerFrame,
    /// A byte too few, the sum right.
    ShorterFrame,
    /// An odd number of digits.
    OddDigits,
    /// A space somewhere in a line.
    Space,
    /// An empty line put in.
    EmptyLine,
    /// A very long line of digits put in.
    LongLine,
    /// Bytes of any kind put in.
    Noise,
    /// The last line feed missing.
    NoLastFeed,
    /// One line feed missing inside the sheet.
    NoFeed,
    /// The sheet cut off anywhere.
    CutOff,
    /// A header's line number used before.
    Twice,
    /// A header's line number over 63.
    LineOver,
    /// A frame of columns that names another line.
    OtherLine,
    /// n = 0 in a header.
    NoPairs,
    /// n over 2,048 in a header.
    TooManyPairs,
    /// Another n in a header, so that rows don't come out even.
    OtherCount,
    /// Kinds 11 and 12 exchanged in one frame.
    OtherRow,
    /// A separation over 2,049 in a header.
    TooManyTracks,
    /// An offset out of range in a header.
    FarOffset,
    /// A column out of range or out of order.
    BadColumn,
}

/// All ways.
pub const DAMAGES: [Damage; 32] = [
    Damage::FlippedBit,
    Damage::AnyByte,
    Damage::DroppedLine,
    Damage::RepeatedLine,
    Damage::ExchangedLines,
    Damage::MovedLine,
    Damage::LowerCase,
    Damage::CarriageReturn,
    Damage::CarriageReturns,
    Damage::WrongSum,
    Damage::WrongKind,
    Damage::WrongK,
    Damage::LongerFrame,
    Damage::ShorterFrame,
    Damage::OddDigits,
    Damage::Space,
    Damage::EmptyLine,
    Damage::LongLine,
    Damage::Noise,
    Damage::NoLastFeed,
    Damage::NoFeed,
    Damage::CutOff,
    Damage::Twice,
    Damage::LineOver,
    Damage::OtherLine,
    Damage::NoPairs,
    Damage::TooManyPairs,
    Damage::OtherCount,
    Damage::OtherRow,
    Damage::TooManyTracks,
    Damage::FarOffset,
    Damage::BadColumn,
];

/// The bytes of a frame without its last, or None if it isn't hexadecimal any more.
fn body(frame: &[u8]) -> Option<Vec<u8>> {
    let text = std::str::from_utf8(frame).ok()?.trim_end();
    let mut bytes = Vec::new();
    for place in (0..text.len()).step_by(2) {
        bytes.push(u8::from_str_radix(text.get(place..place + 2)?, 16).ok()?);
    }
    bytes.pop()?;
    Some(bytes)
}

/// Changes the body of a random frame among those the filter lets pass, and makes the sum right
/// again. Does nothing if there is none.
fn rework(
    random: &mut Random,
    frames: &mut [Vec<u8>],
    filter: impl Fn(&[u8]) -> bool,
    change: impl FnOnce(&mut Random, &mut Vec<u8>),
) {
    let fitting: Vec<usize> = (0..frames.len())
        .filter(|&i| body(&frames[i]).is_some_and(|bytes| filter(&bytes)))
        .collect();
    if fitting.is_empty() {
        return;
    }
    let place = random.pick(&fitting);
    let mut bytes = body(&frames[place]).expect("it passed the filter");
    change(random, &mut bytes);
    frames[place] = frame(&bytes);
}

fn is_header(bytes: &[u8]) -> bool {
    bytes.len() == 10 && bytes[0] == HEADER
}

fn is_columns(bytes: &[u8]) -> bool {
    bytes.len() >= 7 && (bytes[0] == BOTTOM || bytes[0] == TOP)
}

/// Damages the frames of a sheet in one way. A way that finds nothing to damage does nothing.
pub fn damage(random: &mut Random, frames: &mut Vec<Vec<u8>>, how: Damage) {
    if frames.is_empty() {
        return;
    }
    let place = random.below(frames.len());
    match how {
        Damage::FlippedBit => {
            let line = &mut frames[place];
            if !line.is_empty() {
                let at = random.below(line.len());
                line[at] ^= 1 << random.below(8);
            }
        }
        Damage::AnyByte => {
            let line = &mut frames[place];
            if !line.is_empty() {
                let at = random.below(line.len());
                line[at] = random.below(256) as u8;
            }
        }
        Damage::DroppedLine => {
            frames.remove(place);
        }
        Damage::RepeatedLine => {
            let again = frames[place].clone();
            frames.insert(place, again);
        }
        Damage::ExchangedLines => {
            if place > 0 {
                frames.swap(place - 1, place);
            }
        }
        Damage::MovedLine => {
            let line = frames.remove(place);
            let to = random.below(frames.len() + 1);
            frames.insert(to, line);
        }
        Damage::LowerCase => frames[place].make_ascii_lowercase(),
        Damage::CarriageReturn => carriage_return(&mut frames[place]),
        Damage::CarriageReturns => frames.iter_mut().for_each(carriage_return),
        Damage::WrongSum => {
            if let Some(mut bytes) = body(&frames[place]) {
                let right = 0u8.wrapping_sub(sum(&bytes));
                bytes.push(right.wrapping_add(1 + random.below(255) as u8));
                frames[place] = hex_line(&bytes);
            }
        }
        Damage::WrongKind => rework(
            random,
            frames,
            |bytes| !bytes.is_empty(),
            |random, bytes| bytes[0] = random.pick(&[0x00, 0x0F, 0x13, 0x20, 0x21, 0x90, 0xFF]),
        ),
        Damage::WrongK => rework(random, frames, is_columns, |random, bytes| {
            let k = bytes[2];
            bytes[2] = random.pick(&[0, 17, 255, k.wrapping_sub(1), k.wrapping_add(1)]);
            if random.once_in(2) {
                // The length then goes with the wrong k, so that k = 0 and 17 are out of range.
                let long = 3 + 4 * bytes[2] as usize;
                bytes.resize(long, 0);
            }
        }),
        Damage::LongerFrame => rework(
            random,
            frames,
            |bytes| !bytes.is_empty(),
            |random, bytes| bytes.push(random.below(256) as u8),
        ),
        Damage::ShorterFrame => rework(
            random,
            frames,
            |bytes| !bytes.is_empty(),
            |random, bytes| {
                let long = random.below(bytes.len());
                bytes.truncate(long);
            },
        ),
        Damage::OddDigits => {
            let line = &mut frames[place];
            if random.once_in(2) && !line.is_empty() {
                line.remove(0);
            } else {
                line.insert(0, b'0');
            }
        }
        Damage::Space => {
            let at = random.below(frames[place].len() + 1);
            frames[place].insert(at, b' ');
        }
        Damage::EmptyLine => frames.insert(place, b"\n".to_vec()),
        Damage::LongLine => {
            let mut line = vec![b'0'; random.pick(&[138, 200, 70_000])];
            line.push(b'\n');
            frames.insert(place, line);
        }
        Damage::Noise => {
            let noise = (0..random.below(40))
                .map(|_| random.below(256) as u8)
                .collect();
            frames.insert(place, noise);
        }
        Damage::NoLastFeed => {
            frames.last_mut().expect("not empty").pop();
        }
        Damage::NoFeed => {
            frames[place].pop();
        }
        Damage::CutOff => {
            frames.truncate(place + 1);
            let long = random.below(frames[place].len() + 1);
            frames[place].truncate(long);
        }
        Damage::Twice => {
            let used: Vec<u8> = frames
                .iter()
                .filter_map(|frame| body(frame))
                .filter(|bytes| is_header(bytes))
                .map(|bytes| bytes[1])
                .collect();
            if !used.is_empty() {
                let number = random.pick(&used);
                let to = random.below(frames.len() + 1);
                if random.once_in(2) {
                    frames.insert(to, frame_10(number, 1, LEAST, BEST));
                } else {
                    rework(random, frames, is_header, |_, bytes| bytes[1] = number);
                }
            }
        }
        Damage::LineOver => rework(random, frames, is_header, |random, bytes| {
            bytes[1] = random.pick(&[64, 65, 127, 128, 254, 255]);
        }),
        Damage::OtherLine => rework(random, frames, is_columns, |random, bytes| {
            bytes[1] = bytes[1].wrapping_add(1 + random.below(255) as u8);
        }),
        Damage::NoPairs => rework(random, frames, is_header, |_, bytes| {
            bytes[2..4].fill(0);
        }),
        Damage::TooManyPairs => rework(random, frames, is_header, |random, bytes| {
            let n: u16 = random.pick(&[2_049, 2_050, 4_096, 0xFFFF]);
            bytes[2..4].copy_from_slice(&n.to_be_bytes());
        }),
        Damage::OtherCount => rework(random, frames, is_header, |random, bytes| {
            let n = u16::from_be_bytes([bytes[2], bytes[3]]);
            let other = random.pick(&[n.wrapping_sub(1), n.wrapping_add(1), 2_048]);
            bytes[2..4].copy_from_slice(&other.to_be_bytes());
        }),
        Damage::OtherRow => rework(random, frames, is_columns, |_, bytes| {
            bytes[0] = if bytes[0] == BOTTOM { TOP } else { BOTTOM };
        }),
        Damage::TooManyTracks => rework(random, frames, is_header, |random, bytes| {
            let past = MOST_TRACKS as u16 + 1;
            let s: u16 = random.pick(&[past, 4_096, 0x7FFF, 0x8000, 0xFFFE]);
            bytes[4..6].copy_from_slice(&s.to_be_bytes());
        }),
        Damage::FarOffset => rework(random, frames, is_header, |random, bytes| {
            let past = LAST_OFFSET + 1;
            let d: i32 = random.pick(&[past, -past, i32::MAX, i32::MIN + 1]);
            bytes[6..10].copy_from_slice(&d.to_be_bytes());
        }),
        Damage::BadColumn => rework(random, frames, is_columns, |random, bytes| {
            let columns = (bytes.len() - 3) / 4;
            let at = 3 + 4 * random.below(columns);
            let column: i32 = random.pick(&[
                FIRST_COLUMN - 1,
                LAST_COLUMN + 1,
                i32::MIN,
                i32::MAX,
                FIRST_COLUMN,
                0,
                LAST_COLUMN,
            ]);
            bytes[at..at + 4].copy_from_slice(&column.to_be_bytes());
        }),
    }
}

fn carriage_return(line: &mut Vec<u8>) {
    if line.last() == Some(&b'\n') {
        line.insert(line.len() - 1, b'\r');
    }
}

/// A sheet of up to six small lines with up to four damages, now and then none.
pub fn damaged_sheet(random: &mut Random, most: usize) -> Vec<u8> {
    let lines = 1 + random.below(6);
    let mut frames = whole_frames(random, lines, most);
    for _ in 0..random.below(5) {
        let how = random.pick(&DAMAGES);
        damage(random, &mut frames, how);
    }
    frames.concat()
}
