//! The long sheets of tests/sheets: longer than what the program `answersheet` reads at once, with
//! answers longer than what it writes at once. What it reads at once ends at every kind of place:
//! in a frame, between frames, in lines that are bad or passed over. A program that loses a part of
//! its input or its output, or the end of the sheet, answers one of them wrongly.
//!
//! `cargo run --release --offline --manifest-path rust/Cargo.toml --bin longsheets -- tests/sheets`
//! writes them, with the reference's answers.

use crate::sheet::{frame_10, frame_11, frame_12, LEAST};

/// What `answersheet` reads at once.
pub const READ: usize = 65_536;
/// What it writes at once.
pub const WRITTEN: usize = 131_072;

/// The frames of an order for a separation and an offset, 16 columns a frame. Its rows have a pad on
/// every third column, so at separation s an offset of 2(s - 1) just fits, and then each wire
/// moves on every track above 0 but where there are no pads left to hold it.
fn order(line: u8, n: usize, separation: u16, offset: i32) -> Vec<Vec<u8>> {
    let row: Vec<i32> = (0..n as i32).map(|i| 3 * i).collect();
    let mut frames = vec![frame_10(line, n as u16, separation, offset)];
    frames.extend(row.chunks(16).map(|part| frame_11(line, part)));
    frames.extend(row.chunks(16).map(|part| frame_12(line, part)));
    frames
}

/// A sheet as it grows, and the line number of its next order.
struct Sheet {
    text: Vec<u8>,
    line: u8,
}

impl Sheet {
    fn new() -> Sheet {
        Sheet {
            text: Vec::new(),
            line: 0,
        }
    }

    /// The frames of an order under the next line number. They aren't on the sheet yet.
    fn next(&mut self, n: usize, separation: u16, offset: i32) -> Vec<Vec<u8>> {
        self.line += 1;
        order(self.line - 1, n, separation, offset)
    }

    fn put(&mut self, frames: &[Vec<u8>]) {
        self.text.extend(frames.concat());
    }

    /// Straight orders of 2,048 pairs, each answered by one frame 20, as many as fit before `place`;
    /// then a bad line of zeros that ends there.
    fn fill_to(&mut self, place: usize) {
        loop {
            let straight = self.next(2_048, 0, 0);
            if self.text.len() + straight.concat().len() >= place {
                self.line -= 1;
                break;
            }
            self.put(&straight);
        }
        assert!(self.text.len() < place);
        self.text.resize(place - 1, b'0');
        self.text.push(b'\n');
    }

    /// These frames, so placed that what is read at once ends before byte `byte` of frame `frame`. A
    /// `frame` past the last stands for their end.
    fn put_cut_at(&mut self, frames: &[Vec<u8>], frame: usize, byte: usize) {
        let before = frames[..frame].concat().len() + byte;
        let end = (self.text.len() + before + 1).next_multiple_of(READ);
        self.fill_to(end - before);
        self.put(frames);
        assert!(self.text.len() >= end);
    }

    /// An order whose route is longer than what is written at once.
    fn put_long_route(&mut self) {
        let dense = self.next(200, 25, 48);
        self.put(&dense);
    }
}

/// The pairs of an order that a cut goes through: it has a header, three frames of the bottom row
/// and three of the top row.
const PAIRS: usize = 40;

/// In a header, between the two digits of a byte, before a line feed.
fn cut_inside_frames() -> Vec<u8> {
    let mut sheet = Sheet::new();
    sheet.put_long_route();
    let header = sheet.next(PAIRS, 4, 6);
    sheet.put_cut_at(&header, 0, 12);
    let digits = sheet.next(PAIRS, LEAST, 5);
    sheet.put_cut_at(&digits, 2, 61);
    let feed = sheet.next(PAIRS, 3, -4);
    sheet.put_cut_at(&feed, 5, feed[5].len() - 1);
    sheet.text
}

/// After a header, within a row, between the rows, between two orders.
fn cut_between_frames() -> Vec<u8> {
    let mut sheet = Sheet::new();
    sheet.put_long_route();
    let after_header = sheet.next(PAIRS, 4, 6);
    sheet.put_cut_at(&after_header, 1, 0);
    let in_a_row = sheet.next(PAIRS, LEAST, -5);
    sheet.put_cut_at(&in_a_row, 2, 0);
    let between_rows = sheet.next(PAIRS, 5, 7);
    sheet.put_cut_at(&between_rows, 4, 0);
    let between_orders = sheet.next(PAIRS, 2, 2);
    sheet.put_cut_at(&between_orders, between_orders.len(), 0);
    let last = sheet.next(PAIRS, 2, -2);
    sheet.put(&last);
    sheet.text
}

/// In a bad line of an open order; in a line that is passed over; in a last line without its line
/// feed. In the first two, what stands after the cut is a good frame by itself: the next of the row,
/// and a header.
fn cut_in_bad_and_passed_over_lines() -> Vec<u8> {
    let mut sheet = Sheet::new();
    sheet.put_long_route();
    let mut bad = sheet.next(PAIRS, 4, 6);
    bad[3].splice(..0, *b"00");
    sheet.put_cut_at(&bad, 3, 2);
    let mut passed = sheet.next(PAIRS, 4, 6);
    passed[1] = b"\n".to_vec();
    passed[3] = [b"00".to_vec(), frame_10(60, 1, 0, 0)].concat();
    sheet.put_cut_at(&passed, 3, 2);
    let after = sheet.next(PAIRS, LEAST, 1);
    sheet.put(&after);
    let mut unfed = sheet.next(PAIRS, 4, 6);
    unfed[6].pop();
    sheet.put_cut_at(&unfed, 6, 40);
    sheet.text
}

/// The sheet ends where a read does, inside an order.
fn ends_with_what_is_read() -> Vec<u8> {
    let mut sheet = Sheet::new();
    sheet.put_long_route();
    sheet.fill_to(READ);
    let open = sheet.next(PAIRS, 4, 6);
    sheet.put_cut_at(&open[..5], 5, 0);
    assert_eq!(sheet.text.len(), 2 * READ);
    sheet.text
}

/// The last line is a header that cuts an order off: when the sheet ends, that order's answer is
/// still owed and the header's own order is open.
fn ends_with_a_header() -> Vec<u8> {
    let mut sheet = Sheet::new();
    sheet.put_long_route();
    sheet.fill_to(READ);
    let cut_off = sheet.next(PAIRS, 4, 6);
    sheet.put(&cut_off[..5]);
    let open = sheet.next(PAIRS, 4, 6);
    sheet.put(&open[..1]);
    sheet.text
}

/// The last order's route is longer than twice what is written at once, and all of it is owed when
/// the sheet ends.
fn route_after_the_end() -> Vec<u8> {
    let mut sheet = Sheet::new();
    sheet.fill_to(READ);
    let dense = sheet.next(300, 33, 64);
    sheet.put(&dense);
    sheet.text
}

/// The first order's answer is just as long as what is written at once.
fn answer_as_long_as_the_buffer() -> Vec<u8> {
    let mut sheet = Sheet::new();
    let exact = sheet.next(707, 7, 12);
    sheet.put(&exact);
    assert_eq!(crate::answer_sheet(&sheet.text).len(), WRITTEN);
    sheet.fill_to(READ);
    let last = sheet.next(PAIRS, 4, 6);
    sheet.put(&last);
    sheet.text
}

/// The sheets, each with its name.
pub fn long_sheets() -> [(&'static str, Vec<u8>); 7] {
    [
        ("cut_inside_frames", cut_inside_frames()),
        ("cut_between_frames", cut_between_frames()),
        (
            "cut_in_bad_and_passed_over_lines",
            cut_in_bad_and_passed_over_lines(),
        ),
        ("ends_with_what_is_read", ends_with_what_is_read()),
        ("ends_with_a_header", ends_with_a_header()),
        ("route_after_the_end", route_after_the_end()),
        (
            "answer_as_long_as_the_buffer",
            answer_as_long_as_the_buffer(),
        ),
    ]
}
