//! The proved program `answersheet` against the reference: random sheets, whole and damaged, byte for byte.
//! The program is target/bin/answersheet, which `tools/build` proves and builds.
use reference::random::Random;
use reference::sheet::answer_sheet;
use reference::sheetmaker::{damaged_sheet, whole_sheet};
use std::io::Write;
use std::process::{Command, Stdio};

fn answered(sheet: &[u8]) -> Vec<u8> {
    let program = concat!(env!("CARGO_MANIFEST_DIR"), "/../../target/bin/answersheet");
    let mut child = Command::new(program).stdin(Stdio::piped()).stdout(Stdio::piped()).spawn().expect("tools/build builds it");
    let mut input = child.stdin.take().unwrap();
    let sheet = sheet.to_vec();
    let feeder = std::thread::spawn(move || input.write_all(&sheet));
    let out = child.wait_with_output().unwrap();
    feeder.join().unwrap().unwrap();
    assert!(out.status.success());
    out.stdout
}

fn same(sheet: &[u8], what: &str) {
    assert!(answered(sheet) == answer_sheet(sheet), "{what}:\n{}", String::from_utf8_lossy(sheet));
}

#[test]
fn whole_sheets() {
    let mut random = Random::new(11);
    for round in 0..400 {
        let lines = 1 + random.below(8);
        same(&whole_sheet(&mut random, lines, 40), &format!("whole sheet {round}"));
    }
}

#[test]
fn damaged_sheets() {
    let mut random = Random::new(12);
    for round in 0..3000 {
        same(&damaged_sheet(&mut random, 12), &format!("damaged sheet {round}"));
    }
}

#[test]
fn large_sheets() {
    let mut random = Random::new(13);
    for round in 0..6 {
        same(&whole_sheet(&mut random, 5, 700), &format!("large sheet {round}"));
    }
}

/// Bytes of any kind, and three megabytes without a line feed, which are one bad frame.
#[test]
fn rubbish() {
    let mut random = Random::new(14);
    for round in 0..300 {
        let sheet: Vec<u8> = (0..random.below(400)).map(|_| random.pick(b"0123456789ABCDEF10111220\n\n\nabc\r ")).collect();
        same(&sheet, &format!("rubbish {round}"));
    }
    same(&vec![b'1'; 3_000_000], "3 megabytes of one line");
}
