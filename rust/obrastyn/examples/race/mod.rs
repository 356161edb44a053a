//! Two sides that take turns, the rows and the form they are timed on, and the sizes.
use obrastyn::{Line, Order};
use std::hint::black_box;
use std::time::Instant;

/// Seconds a call, the median over rounds in which both sides take turns.
pub fn race<A, B>(mut ours: impl FnMut() -> A, mut other: impl FnMut() -> B) -> (f64, f64) {
    let began = Instant::now();
    black_box(other());
    let once = began.elapsed().as_secs_f64().max(1e-8);
    let inner = (2e-4 / once).ceil() as usize;
    let rounds = if once > 1e-2 { 9 } else { 61 };
    let (mut x, mut y) = (Vec::new(), Vec::new());
    for _ in 0..rounds {
        let began = Instant::now();
        for _ in 0..inner {
            black_box(ours());
        }
        x.push(began.elapsed().as_secs_f64() / inner as f64);
        let began = Instant::now();
        for _ in 0..inner {
            black_box(other());
        }
        y.push(began.elapsed().as_secs_f64() / inner as f64);
    }
    x.sort_by(f64::total_cmp);
    y.sort_by(f64::total_cmp);
    (x[rounds / 2], y[rounds / 2])
}

pub fn row(name: &str, t: (f64, f64)) {
    println!("{name:44} {:12.3} {:12.3} {:7.2}", t.0 * 1e6, t.1 * 1e6, t.0 / t.1);
}

/// Tight rows: pads close together, the top row close to the bottom row. Loose rows: wide gaps, all different.
pub fn rows(n: usize, tight: bool, seed: u64) -> (Vec<i32>, Vec<i32>) {
    let mut state = seed;
    let mut next = |most: u64| {
        state = state.wrapping_mul(6364136223846793005).wrapping_add(1442695040888963407);
        ((state >> 33) % most) as i32
    };
    let gap = if tight { 3 } else { (65535 / n as u64).max(2) - 1 };
    let mut row = |_: usize| {
        let mut at = -1;
        (0..n).map(|_| { at += 1 + next(gap); at }).collect::<Vec<i32>>()
    };
    let a = row(0);
    let b = row(1);
    (a, b)
}

/// The row with its last pad on the one before: a fault that is found last.
pub fn last_at_fault(row: &[i32]) -> Vec<i32> {
    let mut faulty = row.to_vec();
    faulty[row.len() - 1] = row[row.len() - 2];
    faulty
}

/// A full form: 64 lines of 2,048 pairs, "least" and "best", and its two pools.
pub fn form(tight: bool) -> (Vec<Line>, Vec<i32>, Vec<i32>) {
    let (mut a, mut b) = (Vec::new(), Vec::new());
    for line in 0..64 {
        let (x, y) = rows(2048, tight, 99 + line);
        a.extend(x);
        b.extend(y);
    }
    let order = |k: usize| Order { bottom: 2048 * k, top: 2048 * k, pairs: 2048, separation: obrastyn::LEAST, offset: obrastyn::BEST };
    let lines = (0..64).map(|k| Line { order: order(k), answer: Default::default() }).collect();
    (lines, a, b)
}

/// Every size: the calls of the rule on tight and loose rows, the form, and routes.
pub fn table(head: &str, rule: fn(usize, bool), form: fn(bool), route: fn(usize, usize)) {
    println!("{head}");
    for n in [64, 512, 2048] {
        for tight in [true, false] {
            rule(n, tight);
        }
    }
    form(true);
    form(false);
    route(512, 256);
    route(2048, 1024);
}

pub fn kind(tight: bool) -> &'static str {
    if tight { "tight" } else { "loose" }
}
