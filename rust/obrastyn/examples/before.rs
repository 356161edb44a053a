//! The calls now and at an earlier revision, by turns, in one run. `rust/before REVISION` builds what is needed and runs this. Only for revisions whose
//! exports have the same arguments and records as today's: the linker can't tell.
mod race;
use obrastyn::{Line, Numbers};
use race::{form, kind, last_at_fault, race, row, rows, table};
use std::hint::black_box;

extern "C" {
    fn before_obrastyn_rows(a: *const i32, an: usize, b: *const i32, bn: usize) -> Numbers;
    fn before_obrastyn_fit(a: *const i32, an: usize, b: *const i32, bn: usize, s: usize, d: i32) -> Numbers;
    fn before_obrastyn_least(a: *const i32, an: usize, b: *const i32, bn: usize, d: i32) -> Numbers;
    fn before_obrastyn_range(a: *const i32, an: usize, b: *const i32, bn: usize, s: usize) -> Numbers;
    fn before_obrastyn_best(a: *const i32, an: usize, b: *const i32, bn: usize, ladder: *mut usize, room: usize) -> Numbers;
    fn before_obrastyn_draw_all(a: *const i32, an: usize, b: *const i32, bn: usize, s: usize, d: i32, out: *mut i32, room: usize) -> Numbers;
    fn before_obrastyn_check(a: *const i32, an: usize, b: *const i32, bn: usize, s: usize, d: i32, table: *const i32, room: usize) -> Numbers;
    fn before_answer_all(table: *mut Line, lines: usize, a: *const i32, an: usize, b: *const i32, bn: usize) -> u8;
}

/// A change may change an answer: then the two sides may not have done the same work. Where the earlier calls count tracks otherwise they always differ.
fn same(agree: bool) {
    if !agree && fewer() == 0 {
        println!("    (the answers differ)");
    }
}

/// By how many tracks fewer the earlier calls are asked about a fit or a range (`rust/before` says what for).
fn fewer() -> usize {
    std::env::args().nth(1).map_or(0, |number| number.parse().expect("a number of tracks"))
}

fn rule(n: usize, tight: bool) {
    let name = |call: &str| format!("{call}, {n} pairs, {}", kind(tight));
    let (a, b) = rows(n, tight, 7 + n as u64);
    let s = obrastyn::least(&a, &b, 0).separation;
    let earlier = s.saturating_sub(fewer());
    let (x, y) = (&a[..], &b[..]);
    let (p, q) = (a.as_ptr(), b.as_ptr());
    let (mut now, mut then) = ([0usize; 24], [0usize; 24]);
    let faulty = last_at_fault(y);
    let (f, g) = (&faulty[..], faulty.as_ptr());
    row(&name("rows"), race(|| obrastyn::rows(black_box(x), black_box(y)), || unsafe { before_obrastyn_rows(black_box(p), n, black_box(q), n) }));
    row(&(name("rows") + ", last at fault"), race(|| obrastyn::rows(black_box(x), black_box(f)), || unsafe { before_obrastyn_rows(black_box(p), n, black_box(g), n) }));
    row(&name("fit"), race(|| obrastyn::fit(black_box(x), black_box(y), s, 0), || unsafe { before_obrastyn_fit(black_box(p), n, black_box(q), n, earlier, 0) }));
    row(&name("least"), race(|| obrastyn::least(black_box(x), black_box(y), 0), || unsafe { before_obrastyn_least(black_box(p), n, black_box(q), n, 0) }));
    row(&name("range"), race(|| obrastyn::range(black_box(x), black_box(y), s), || unsafe { before_obrastyn_range(black_box(p), n, black_box(q), n, earlier) }));
    let best = race(
        || obrastyn::best(black_box(x), black_box(y), &mut now),
        || unsafe { before_obrastyn_best(black_box(p), n, black_box(q), n, then.as_mut_ptr(), 24) },
    );
    row(&name("best"), best);
    same(now == then);
    same(obrastyn::least(x, y, 0) == unsafe { before_obrastyn_least(p, n, q, n, 0) });
    same(obrastyn::range(x, y, s) == unsafe { before_obrastyn_range(p, n, q, n, earlier) });
}

fn route(n: usize, s: usize) {
    let a: Vec<i32> = (0..n as i32).map(|i| 3 * i).collect();
    let b: Vec<i32> = a.iter().map(|x| x + 2 * s as i32 - 7).collect();
    let (x, y) = (&a[..], &b[..]);
    let (p, q) = (a.as_ptr(), b.as_ptr());
    let mut now = vec![0i32; n * (s + 1)];
    let mut then = now.clone();
    let room = now.len();
    assert_eq!(obrastyn::draw_all(x, y, s, 0, &mut now).refusal, 0);
    let drawn = race(
        || obrastyn::draw_all(black_box(x), black_box(y), s, 0, &mut now),
        || unsafe { before_obrastyn_draw_all(black_box(p), n, black_box(q), n, s, 0, then.as_mut_ptr(), room) },
    );
    row(&format!("draw all, {n} pairs by {s} tracks"), drawn);
    let checked = race(
        || obrastyn::check(black_box(x), black_box(y), s, 0, &now),
        || unsafe { before_obrastyn_check(black_box(p), n, black_box(q), n, s, 0, then.as_ptr(), room) },
    );
    row(&format!("check, {n} pairs by {s} tracks"), checked);
    same(now == then);
}

fn whole_form(tight: bool) {
    let (mut now, a, b) = form(tight);
    let mut then = now.clone();
    let (x, y, n, kind) = (&a[..], &b[..], a.len(), kind(tight));
    let (p, q) = (a.as_ptr(), b.as_ptr());
    let answered = race(|| obrastyn::answer_all(black_box(&mut now), x, y), || unsafe { before_answer_all(black_box(then.as_mut_ptr()), 64, p, n, q, n) });
    row(&format!("form, 64 lines of 2048 pairs, {kind}"), answered);
    same(now == then);
}

fn main() {
    let head = format!("{:44} {:>12} {:>12} {:>7}", "call", "now, us", "before, us", "ratio");
    table(&head, rule, whole_form, route);
}
