//! Speed of the program `answersheet` against `sheetbase`, a plain Rust program that does the same, in one run: sheets of 64 lines of
//! 2,048 pairs with sparse routes (a move or none a wire), with dense ones (40 moves a wire) and with as many tracks as there can be,
//! and 50 megabytes of damaged lines. `rust/speed` builds all it needs and runs it.
use reference::sheet::{frame_10, frame_11, frame_12};
use std::fs::File;
use std::io::Write;
use std::process::{Command, Stdio};
use std::time::Instant;

fn sheet(a: impl Fn(i32) -> i32, b: impl Fn(i32) -> i32) -> Vec<u8> {
    let mut out = Vec::new();
    for line in 0..64u8 {
        out.extend(frame_10(line, 2048, 0xFFFF, 0));
        let (a, b): (Vec<i32>, Vec<i32>) = ((0..2048).map(&a).collect(), (0..2048).map(&b).collect());
        a.chunks(16).for_each(|k| out.extend(frame_11(line, k)));
        b.chunks(16).for_each(|k| out.extend(frame_12(line, k)));
    }
    out
}

fn time(program: &str, sheet: &str) -> f64 {
    let began = Instant::now();
    let status = Command::new(program).stdin(File::open(sheet).unwrap()).stdout(Stdio::null()).status().unwrap();
    assert!(status.success());
    began.elapsed().as_secs_f64()
}

fn main() {
    let root = concat!(env!("CARGO_MANIFEST_DIR"), "/../..");
    let ours = format!("{root}/target/bin/answersheet");
    let plain = format!("{root}/rust/target/release/sheetbase");
    let sparse = sheet(|i| 32 * i - i % 2, |i| 32 * i + i % 3);
    let dense = sheet(|i| 2 * i, |i| 2 * i + 40);
    let long = sheet(|i| i, |i| i + 1);
    let mut damaged = Vec::new();
    while damaged.len() < 50_000_000 {
        damaged.extend_from_slice(b"1100020000000000000001ED\n10000002FFFF0000000\nnothing of a frame\n1000000200000000000EEE\n");
    }
    println!("{:44} {:>12} {:>12} {:>7}", "sheet", "ours, s", "plain, s", "ratio");
    for (name, bytes) in [
        ("64 lines of 2048 pairs, sparse routes", sparse),
        ("64 lines of 2048 pairs, dense routes", dense),
        ("64 lines of 2048 pairs, 2049 tracks", long),
        ("50 MB of damaged lines", damaged),
    ] {
        let path = std::env::temp_dir().join("obrastyn-sheet");
        let path = path.to_str().unwrap();
        File::create(path).unwrap().write_all(&bytes).unwrap();
        // The least of many runs, by turns: a whole process strays by half from run to run, and only upwards.
        let (mut x, mut y) = (f64::INFINITY, f64::INFINITY);
        for _ in 0..21 {
            x = x.min(time(&ours, path));
            y = y.min(time(&plain, path));
        }
        println!("{name:44} {x:12.3} {y:12.3} {:7.2}", x / y);
        std::fs::remove_file(path).unwrap();
    }
}
