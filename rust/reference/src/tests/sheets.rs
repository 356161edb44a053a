//! Sheets: the example of the text, every way of going wrong, and the state machine.

use std::{fs, path::Path};

use crate::baseline::answer_stream;
use crate::form::Wish;
use crate::longsheets::{long_sheets, READ, WRITTEN};
use crate::numbers::*;
use crate::random::*;
use crate::sheet::*;
use crate::sheetmaker::*;

/// What the machine answers, as (kind, line, refusal) for a 20 and (kind, line, 0) for a 21. Also
/// holds every frame to its form, and the streaming baseline to the reference.
fn short(sheet: &[u8]) -> Vec<(u8, u8, u8)> {
    let answer = answer_sheet(sheet);
    let mut streamed = Vec::new();
    answer_stream(sheet, &mut streamed).unwrap();
    assert!(
        streamed == answer,
        "{}\n-- reference\n{}\n-- baseline\n{}",
        String::from_utf8_lossy(sheet),
        String::from_utf8_lossy(&answer),
        String::from_utf8_lossy(&streamed)
    );
    answer
        .split_inclusive(|&character| character == b'\n')
        .map(|line| {
            let text = std::str::from_utf8(line).unwrap();
            assert!(text.ends_with('\n'));
            let text = text.trim_end();
            assert!(text.chars().all(|c| "0123456789ABCDEF".contains(c)));
            let bytes: Vec<u8> = (0..text.len() / 2)
                .map(|i| u8::from_str_radix(&text[2 * i..2 * i + 2], 16).unwrap())
                .collect();
            assert_eq!(sum(&bytes), 0);
            match bytes[0] {
                0x20 => {
                    assert_eq!(bytes.len(), 17);
                    if bytes[2] != 0 {
                        assert!(bytes[3..13].iter().all(|&byte| byte == 0));
                        assert_eq!(bytes[15] != 0, bytes[2] == NOFIT);
                    }
                    (0x20, bytes[1], bytes[2])
                }
                0x21 => {
                    assert_eq!(bytes.len(), 15);
                    // Never on track 0.
                    assert_ne!(bytes[4..6], [0, 0]);
                    assert_ne!(bytes[6..10], bytes[10..14]);
                    (0x21, bytes[1], 0)
                }
                kind => panic!("kind {kind:02X}"),
            }
        })
        .collect()
}

/// Refusals only, of the lines that a sheet made of these frames gets.
fn refusals(frames: &[Vec<u8>]) -> Vec<(u8, u8)> {
    short(&frames.concat())
        .into_iter()
        .filter(|answer| answer.0 == 0x20)
        .map(|answer| (answer.1, answer.2))
        .collect()
}

/// A complete line of one pair at column 1 and 1, wished least at offset 0.
fn one(line: u8) -> Vec<Vec<u8>> {
    vec![
        frame_10(line, 1, LEAST, 0),
        frame_11(line, &[1]),
        frame_12(line, &[1]),
    ]
}

const BAD: &[u8] = b"hello\n";

#[test]
fn example_byte_for_byte() {
    let sheet = b"10000002FFFF00000000F0\n1100020000000000000001EC\n1200020000000100000002E9\n";
    let expected = [
        "20000000030000000000000000000001DC\n",
        "2100000000020000000000000001DC\n",
        "2100000100010000000100000002DA\n",
    ]
    .concat()
    .into_bytes();
    assert_eq!(answer_sheet(sheet), expected);
    let made = [
        frame_10(0, 2, LEAST, 0),
        frame_11(0, &[0, 1]),
        frame_12(0, &[1, 2]),
    ];
    assert_eq!(made.concat(), sheet);
    short(sheet);
}

#[test]
fn nothing_in_nothing_out() {
    assert_eq!(answer_sheet(b""), b"");
    assert_eq!(short(b"\n"), [(0x20, 0xFF, FRAME)]);
    assert_eq!(short(b"\n\n\n"), [(0x20, 0xFF, FRAME)]);
    assert_eq!(short(b"1"), [(0x20, 0xFF, FRAME)]);
}

#[test]
fn kinds_and_lengths() {
    // Frames that are good but for one thing, on a ready machine.
    let bad: Vec<Vec<u8>> = vec![
        frame(&[]),
        frame(&[0x10]),
        frame(&[0x11]),
        frame(&[0x11, 0]),
        frame(&[0x11, 0, 0]),
        frame(&[0x11, 0, 1, 0, 0, 0]),
        frame(&[0x11, 0, 1, 0, 0, 0, 0, 0]),
        frame(&[0x11, 0, 2, 0, 0, 0, 0]),
        frame_11(0, &[5; 17]),
        frame_12(0, &[5; 17]),
        frame_11(0, &[]),
        frame(&[0x13, 0, 1, 0, 0, 0, 0]),
        frame(&[0x20, 0, 1, 0, 0, 0, 0]),
        frame(&[0x10, 0, 0, 1, 0xFF, 0xFF, 0, 0, 0]),
        frame(&[0x10, 0, 0, 1, 0xFF, 0xFF, 0, 0, 0, 0, 0]),
        b"10000002FFFF00000000f0\n".to_vec(),
        b"10000002FFFF00000000F1\n".to_vec(),
        b"10000002FFFF00000000F0\r\n".to_vec(),
        b" 10000002FFFF00000000F0\n".to_vec(),
        b"10000002FFFF00000000F0 \n".to_vec(),
        b"10000002FFFF00000000F\n".to_vec(),
        b"0x000002FFFF00000000F0\n".to_vec(),
        b"+1000002FFFF00000000F0\n".to_vec(),
        b"10000002FFFF00000000F0".to_vec(),
    ];
    for line in bad {
        assert_eq!(
            read_frame(&line),
            None,
            "{}",
            String::from_utf8_lossy(&line)
        );
        assert_eq!(refusals(&[line]), [(0xFF, FRAME)]);
    }
    let good = [
        frame_11(0, &[5; 16]),
        frame_12(63, &[-5]),
        frame_11(200, &[i32::MIN, i32::MAX]),
    ];
    for line in good {
        assert!(read_frame(&line).is_some());
        assert_eq!(refusals(&[line]), [(0xFF, SEQUENCE)]);
    }
    assert_eq!(
        read_frame(&frame_10(255, 65_535, 65_534, -1)),
        Some(Frame::Header {
            line: 255,
            n: 65_535,
            wish: Wish {
                separation: Some(65_534),
                offset: Some(-1)
            }
        })
    );
    assert_eq!(
        read_frame(&frame_10(1, 2, LEAST, BEST)),
        Some(Frame::Header {
            line: 1,
            n: 2,
            wish: Wish::default()
        })
    );
}

#[test]
fn ready_then_skipping() {
    let bad = BAD.to_vec();
    let stray = frame_11(3, &[1]);
    // Ready, a bad frame or a stray one is answered once; then all but a 10 is passed over.
    let sheet = [vec![bad.clone(), stray.clone(), bad.clone()], one(5)].concat();
    assert_eq!(refusals(&sheet), [(0xFF, FRAME), (5, 0)]);
    let sheet = [vec![stray.clone(), stray.clone(), bad.clone()], one(5)].concat();
    assert_eq!(refusals(&sheet), [(0xFF, SEQUENCE), (5, 0)]);
    // After a complete line it is ready again, refused or not.
    let sheet = [one(5), vec![bad.clone()], one(6), vec![stray.clone()]].concat();
    assert_eq!(
        refusals(&sheet),
        [(5, 0), (0xFF, FRAME), (6, 0), (0xFF, SEQUENCE)]
    );
    let refused = vec![
        frame_10(7, 1, LEAST, 0),
        frame_11(7, &[-65_536]),
        frame_12(7, &[1]),
    ];
    let sheet = [refused, vec![bad]].concat();
    assert_eq!(refusals(&sheet), [(7, COLUMN), (0xFF, FRAME)]);
}

#[test]
fn inside_a_line() {
    let head = frame_10(4, 2, LEAST, 0);
    let bad = BAD.to_vec();
    // End of input.
    assert_eq!(refusals(std::slice::from_ref(&head)), [(4, SEQUENCE)]);
    // A bad frame, then skipping to the end: nothing more.
    assert_eq!(refusals(&[head.clone(), bad.clone(), bad]), [(4, FRAME)]);
    // The end without a line feed is a bad frame.
    let cut = b"1104".to_vec();
    assert_eq!(refusals(&[head.clone(), cut]), [(4, FRAME)]);
    // Wrong good frames.
    for wrong in [
        frame_11(5, &[1, 2]),
        frame_12(4, &[1, 2]),
        frame_11(4, &[1, 2, 3]),
    ] {
        assert_eq!(refusals(&[head.clone(), wrong]), [(4, SEQUENCE)]);
    }
    for wrong in [
        frame_11(4, &[3]),
        frame_12(5, &[1]),
        frame_12(4, &[1, 2, 3]),
    ] {
        let sheet = [head.clone(), frame_11(4, &[1, 2]), wrong, frame_12(4, &[1])];
        assert_eq!(refusals(&sheet), [(4, SEQUENCE)]);
    }
    // A 12 before the bottom row is full, an 11 that passes n after a part.
    let part = frame_11(4, &[1]);
    let sheet = [head.clone(), part.clone(), frame_12(4, &[1])];
    assert_eq!(refusals(&sheet), [(4, SEQUENCE)]);
    let sheet = [head.clone(), part.clone(), frame_11(4, &[2, 3])];
    assert_eq!(refusals(&sheet), [(4, SEQUENCE)]);
    // A 10 inside: the open line is answered 14, the new one opens.
    let sheet = [vec![head.clone(), part.clone()], one(9)].concat();
    assert_eq!(refusals(&sheet), [(4, SEQUENCE), (9, 0)]);
    // The same number again: 14 for the open line, TWICE for the header, then skipping.
    let sheet = [head.clone(), part.clone(), head.clone(), part];
    assert_eq!(refusals(&sheet), [(4, SEQUENCE), (4, TWICE)]);
    // A 10 inside that is refused itself.
    let sheet = [head, frame_10(64, 1, LEAST, 0)];
    assert_eq!(refusals(&sheet), [(4, SEQUENCE), (64, LINE)]);
}

#[test]
fn headers_refused_in_order() {
    assert_eq!(refusals(&[frame_10(63, 0, 0, 0)]), [(63, EMPTY)]);
    assert_eq!(refusals(&[frame_10(63, 2_049, 0, 0)]), [(63, LONG)]);
    assert_eq!(refusals(&[frame_10(64, 0, 0, 0)]), [(64, LINE)]);
    assert_eq!(
        refusals(&[frame_10(255, 1, 0, 0), frame_11(255, &[1])]),
        [(255, LINE)]
    );
    // LINE before TWICE, TWICE before EMPTY and LONG; refused headers count as earlier ones.
    let sheet = [
        frame_10(64, 1, 0, 0),
        frame_10(64, 1, 0, 0),
        frame_10(7, 0, 0, 0),
        frame_10(7, 0, 0, 0),
        frame_10(8, 9_999, 0, 0),
        frame_10(8, 9_999, 0, 0),
        frame_10(8, 1, 0, 0),
    ];
    assert_eq!(
        refusals(&sheet),
        [
            (64, LINE),
            (64, LINE),
            (7, EMPTY),
            (7, TWICE),
            (8, LONG),
            (8, TWICE),
            (8, TWICE)
        ]
    );
    // A complete line again.
    let sheet = [one(3), one(3), one(2)].concat();
    assert_eq!(refusals(&sheet), [(3, 0), (3, TWICE), (2, 0)]);
}

#[test]
fn refused_wishes() {
    let line = |separation, offset, a: &[i32], b: &[i32]| {
        [
            frame_10(1, a.len() as u16, separation, offset),
            frame_11(1, a),
            frame_12(1, b),
        ]
    };
    let one_refusal =
        |separation, offset, a: &[i32], b: &[i32]| refusals(&line(separation, offset, a, b))[0].1;
    assert_eq!(
        one_refusal(9_999, LAST_OFFSET + 1, &[1, 1], &[1, 70_000]),
        ORDER
    );
    assert_eq!(
        one_refusal(9_999, LAST_OFFSET + 1, &[1, 2], &[1, 70_000]),
        COLUMN
    );
    assert_eq!(
        one_refusal(9_999, LAST_OFFSET + 1, &[1, 2], &[1, 7]),
        TRACKS
    );
    assert_eq!(one_refusal(0xFFFE, BEST, &[1, 2], &[1, 7]), TRACKS);
    assert_eq!(one_refusal(2_050, BEST, &[1, 2], &[1, 7]), TRACKS);
    assert_eq!(one_refusal(2_049, 0, &[1, 2], &[1, 7]), 0);
    assert_eq!(
        one_refusal(2_049, LAST_OFFSET + 1, &[1, 2], &[1, 7]),
        OFFSET
    );
    assert_eq!(one_refusal(LEAST, i32::MIN + 1, &[1, 2], &[1, 7]), OFFSET);
    assert_eq!(one_refusal(1, 9, &[1, 2], &[1, 7]), NOFIT);
    assert_eq!(one_refusal(0, BEST, &[1, 2], &[1, 7]), NOOFFSET);
    assert_eq!(one_refusal(1, BEST, &[1, 2], &[1, 7]), NOOFFSET);
    // NOFIT keeps its pair and side: pair 0, RIGHT.
    let answer = answer_sheet(&line(2, 9, &[1, 2], &[1, 7]).concat());
    assert_eq!(answer, frame_20(1, &Numbers::no_fit(0, RIGHT)));
    // A range at s > n is drawn at the lowest accepted offset; at n it has ends of its own.
    let answer = answer_sheet(&line(2, BEST, &[5], &[5]).concat());
    let numbers = super::with_offsets(2, -131_070, 131_070, 0);
    let expected = [frame_20(1, &numbers), frame_21(1, 0, 1, 5, -131_065)].concat();
    assert_eq!(answer, expected);
    let answer = answer_sheet(&line(1, BEST, &[5], &[5]).concat());
    assert_eq!(answer, frame_20(1, &super::with_offsets(1, 0, 0, 0)));
}

#[test]
fn j_on_a_sheet() {
    let (a, b) = super::J;
    let sheet = [
        frame_10(9, 4, LEAST, BEST),
        frame_11(9, &a[..3]),
        frame_11(9, &a[3..]),
        frame_12(9, &b[..1]),
        frame_12(9, &b[1..]),
    ];
    let answer = answer_sheet(&sheet.concat());
    let numbers = Numbers {
        separation: 3,
        lowest: -1,
        highest: 1,
        ..Numbers::default()
    };
    // At -1 the top pads are 0,1,2,3: wires 0 / 1 / 4,4,2,2 / 5,5,5,3 by the text's rule.
    let expected = [
        frame_20(9, &numbers),
        frame_21(9, 2, 1, 4, 2),
        frame_21(9, 3, 2, 5, 3),
    ]
    .concat();
    assert_eq!(
        String::from_utf8(answer).unwrap(),
        String::from_utf8(expected).unwrap()
    );
}

#[test]
fn whole_sheets() {
    let mut random = Random::new(51);
    for round in 0..60 {
        let lines = random.below(65);
        let most = if round % 10 == 0 { 200 } else { 20 };
        let frames = whole_frames(&mut random, lines, most);
        let answers = refusals(&frames);
        assert_eq!(answers.len(), lines);
        assert!(answers
            .iter()
            .all(|(_, refusal)| [0, TRACKS, OFFSET, NOFIT, NOOFFSET].contains(refusal)));
    }
}

#[test]
fn every_damage_to_sheets() {
    let mut random = Random::new(52);
    let mut seen = [0usize; 17];
    for how in DAMAGES {
        for _ in 0..60 {
            let lines = 1 + random.below(4);
            let mut frames = whole_frames(&mut random, lines, 20);
            damage(&mut random, &mut frames, how);
            for (_, refusal) in refusals(&frames) {
                seen[refusal as usize] += 1;
            }
        }
    }
    for _ in 0..2_000 {
        let sheet = damaged_sheet(&mut random, 12);
        for answer in short(&sheet) {
            seen[answer.2 as usize] += 1;
        }
    }
    // Everything a sheet can be answered with has come up.
    for refusal in [
        0, EMPTY, LONG, COLUMN, ORDER, TRACKS, OFFSET, NOFIT, NOOFFSET,
    ] {
        assert!(seen[refusal as usize] > 0, "{refusal}: {seen:?}");
    }
    for refusal in [LINE, FRAME, SEQUENCE, TWICE] {
        assert!(seen[refusal as usize] > 0, "{refusal}: {seen:?}");
    }
    for refusal in [UNEQUAL, WIRE, BUFFER, BADWIRE] {
        assert_eq!(seen[refusal as usize], 0, "{refusal}: {seen:?}");
    }
}

#[test]
fn full_length_line() {
    let mut random = Random::new(53);
    let packed: Vec<i32> = (0..2_048).collect();
    let wide: Vec<i32> = (0..2_048).map(|i| 32 * i).collect();
    for (a, b) in [
        (packed.clone(), wide.clone()),
        (wide, packed),
        stairs(2_048),
    ] {
        let wish = Wish {
            separation: None,
            offset: Some(0),
        };
        let frames = line_frames(&mut random, 0, &a, &b, wish, true);
        assert_eq!(frames.len(), 1 + 128 + 128);
        let answers = short(&frames.concat());
        assert_eq!(answers[0], (0x20, 0, 0));
        assert!(answers.len() >= 2_048);
    }
}

/// A reader that hands out a few bytes at a time.
struct Dribble<'s> {
    sheet: &'s [u8],
    random: Random,
}

impl std::io::Read for Dribble<'_> {
    fn read(&mut self, buffer: &mut [u8]) -> std::io::Result<usize> {
        let some = (1 + self.random.below(9))
            .min(self.sheet.len())
            .min(buffer.len());
        buffer[..some].copy_from_slice(&self.sheet[..some]);
        self.sheet = &self.sheet[some..];
        Ok(some)
    }
}

#[test]
fn baseline_takes_a_sheet_in_any_parts() {
    let mut random = Random::new(54);
    for seed in 0..200 {
        let sheet = damaged_sheet(&mut random, 30);
        let dribble = Dribble {
            sheet: &sheet,
            random: Random::new(seed),
        };
        let mut streamed = Vec::new();
        answer_stream(dribble, &mut streamed).unwrap();
        assert!(streamed == answer_sheet(&sheet));
    }
}

#[test]
fn lines_longer_than_any_frame() {
    // Around the longest good frame, 136 digits: one more, and a great many more.
    let good = [
        frame_10(1, 16, LEAST, BEST),
        frame_11(1, &(0..16).collect::<Vec<i32>>()),
    ];
    assert_eq!(good[1].len(), 137);
    for more in [1, 2, 3, 70_000] {
        for feed in [true, false] {
            let mut long = good[1].clone();
            long.pop();
            long.extend(vec![b'0'; more]);
            if feed {
                long.push(b'\n');
            }
            let sheet = [vec![good[0].clone(), long], one(2)].concat();
            let expected: &[(u8, u8)] = if feed {
                &[(1, FRAME), (2, 0)]
            } else {
                // Without its line feed the long line has swallowed the next header.
                &[(1, FRAME)]
            };
            assert_eq!(refusals(&sheet), expected);
        }
    }
}

/// The sheets of tests/sheets: the stored answers are the reference's, and the long sheets are those
/// that are made here.
#[test]
fn stored_sheets() {
    let folder = Path::new(env!("CARGO_MANIFEST_DIR")).join("../../tests/sheets");
    for entry in fs::read_dir(&folder).unwrap() {
        let path = entry.unwrap().path();
        if path.extension().is_some_and(|e| e == "in") {
            let sheet = fs::read(&path).unwrap();
            let answer = fs::read(path.with_extension("out")).unwrap();
            assert!(answer == answer_sheet(&sheet), "{}", path.display());
        }
    }
    for (name, sheet) in long_sheets() {
        assert!(sheet.len() > READ, "{name}");
        assert!(answer_sheet(&sheet).len() > WRITTEN, "{name}");
        let path = folder.join(format!("long_{name}.in"));
        assert!(sheet == fs::read(path).unwrap(), "{name}");
    }
}
