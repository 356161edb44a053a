//! Speed, as ratios in one run: each proved call against the same work in plain Rust at -O3 (reference::baseline).
//! `cargo run --release --offline --example speed` prints a table; docs/SPEED.md has the figures of one run.
//! A figure is the median of many rounds, the two sides taking turns. Buffers are lent as they are, not cleared between rounds.
mod race;
use race::{form, kind, last_at_fault, race, row, rows, table};
use reference::baseline;
use std::hint::black_box;

fn rule(n: usize, tight: bool) {
    let name = |call: &str, how: &str| format!("{call}, {n} pairs, {}{how}", kind(tight));
    let (a, b) = rows(n, tight, 7 + n as u64);
    let least = obrastyn::least(&a, &b, 0).separation;
    let (x, y) = (&a[..], &b[..]);
    let faulty = last_at_fault(y);
    for (how, y) in [("", y), (", last at fault", &faulty[..])] {
        row(&name("rows", how), race(|| obrastyn::rows(black_box(x), black_box(y)), || baseline::accept_rows(black_box(x), black_box(y))));
    }
    let places = [(", at the least", least), (", at 2", 2)];
    for (how, s) in places {
        row(&name("fit", how), race(|| obrastyn::fit(black_box(x), black_box(y), s, 0), || baseline::fit(black_box(x), black_box(y), s, 0)));
    }
    row(&name("least", ""), race(|| obrastyn::least(black_box(x), black_box(y), 0), || baseline::least(black_box(x), black_box(y), 0)));
    for (how, s) in places {
        row(&name("range", how), race(|| obrastyn::range(black_box(x), black_box(y), s), || baseline::range(black_box(x), black_box(y), s)));
    }
    let (mut ours, mut plain) = ([0usize; 24], [0usize; 24]);
    let mut ladders = |best: fn(&[i32], &[i32], &mut [usize]) -> reference::numbers::Numbers| {
        race(|| obrastyn::best(black_box(x), black_box(y), &mut ours), || best(black_box(x), black_box(y), &mut plain))
    };
    row(&name("best", ""), ladders(baseline::best_with_ladder));
    row(&name("best", ", against copies"), ladders(baseline::best_by_copies));
    // half of them in no order that the processor could guess: the bits of a multiplicative hash
    for (how, stays) in [(", an eighth bare", stay_but(n, |i| i % 8 == 3)), (", half bare", stay_but(n, |i| i * i * 2654435761 >> 7 & 1 == 0))] {
        let z = &stays[..];
        let part = race(
            || obrastyn::still_fits(black_box(x), black_box(y), black_box(z), least, 0),
            || baseline::still_fits(black_box(x), black_box(y), black_box(z), least, 0),
        );
        row(&name("part", how), part);
    }
}

/// The bytes of a part of n pairs: which stay, all but those that are bare.
fn stay_but(n: usize, bare: fn(usize) -> bool) -> Vec<u8> {
    (0..n).map(|i| u8::from(!bare(i))).collect()
}

/// Rows that need about `s` tracks at offset 0, drawn and checked at exactly `s`.
fn route(n: usize, s: usize) {
    let name = |call: &str| format!("{call}, {n} pairs by {s} tracks");
    let a: Vec<i32> = (0..n as i32).map(|i| 3 * i).collect();
    let shift = 2 * s as i32 - 7;
    let b: Vec<i32> = a.iter().map(|x| x + shift.max(0)).collect();
    let (x, y) = (&a[..], &b[..]);
    let mut ours = vec![0i32; n * (s + 1)];
    let mut plain = ours.clone();
    assert_eq!(obrastyn::draw_all(x, y, s, 0, &mut ours).refusal, 0);
    let drawn = race(
        || obrastyn::draw_all(black_box(x), black_box(y), s, 0, &mut ours),
        || baseline::draw_all(black_box(x), black_box(y), s, 0, &mut plain),
    );
    row(&name("draw all"), drawn);
    assert_eq!(ours, plain);
    let (mut one, mut other) = (vec![0i32; s + 1], vec![0i32; s + 1]);
    let wire = race(
        || obrastyn::draw_wire(black_box(x), black_box(y), s, 0, n / 2, &mut one),
        || baseline::draw_wire(black_box(x), black_box(y), s, 0, n / 2, &mut other),
    );
    row(&name("draw a wire"), wire);
    assert_eq!(one, other);
    let checked = race(|| obrastyn::check(black_box(x), black_box(y), s, 0, &ours), || baseline::check(black_box(x), black_box(y), s, 0, &plain));
    row(&name("check"), checked);
    let stays = stay_but(n, |i| i % 8 == 3);
    let places = stays.iter().filter(|&&byte| byte != 0).count() * (s + 1);
    let (mut left, mut other) = (vec![0i32; places], vec![0i32; places]);
    let routed = race(
        || obrastyn::part_route(black_box(x), black_box(y), black_box(&stays), s, 0, &ours, &mut left),
        || baseline::part_route(black_box(x), black_box(y), black_box(&stays), s, 0, &plain, &mut other),
    );
    row(&name("route of a part"), routed);
    assert_eq!(left, other);
}

fn whole_form(tight: bool) {
    use reference::form::{Record, Wish};
    let (mut ours, a, b) = form(tight);
    let wish = || Wish { separation: None, offset: None };
    let record = |k: usize| Record { bottom_start: 2048 * k, top_start: 2048 * k, count: 2048, wish: wish(), answer: Default::default() };
    let mut plain: Vec<Record> = (0..64).map(record).collect();
    let (x, y, kind) = (&a[..], &b[..], kind(tight));
    let answered = race(|| obrastyn::answer_all(black_box(&mut ours), x, y), || baseline::answer_form(black_box(&mut plain), x, y));
    row(&format!("form, 64 lines of 2048 pairs, {kind}"), answered);
}

fn main() {
    let head = format!("{:44} {:>12} {:>12} {:>7}", "call", "ours, us", "plain, us", "ratio");
    table(&head, rule, whole_form, route);
}
