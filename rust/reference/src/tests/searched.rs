//! The rule of fit against two searches that know nothing of it.

use std::collections::HashSet;

use super::*;
use crate::numbers::*;
use crate::random::*;
use crate::rule::rule_at;
use crate::search::*;
use crate::*;

/// Every rising row of n columns from `first` to `last`.
pub fn all_rows(n: usize, first: i32, last: i32) -> Vec<Vec<i32>> {
    let mut found = vec![vec![]];
    for _ in 0..n {
        let mut longer = Vec::new();
        for row in found {
            for column in row.last().map_or(first, |before| before + 1)..=last {
                let mut row = row.clone();
                row.push(column);
                longer.push(row);
            }
        }
        found = longer;
    }
    found
}

/// A rising row of n columns from `first` to `last`.
pub fn small_row(random: &mut Random, n: usize, first: i32, last: i32) -> Vec<i32> {
    loop {
        let mut row: Vec<i32> = (0..n).map(|_| random.between(first, last)).collect();
        row.sort();
        row.dedup();
        if row.len() == n {
            return row;
        }
    }
}

/// Every pair of rows of one to three columns from `first` to `last`.
pub fn all_jumpers(first: i32, last: i32) -> Vec<(Vec<i32>, Vec<i32>)> {
    let mut found = Vec::new();
    for n in 1..=3 {
        for a in all_rows(n, first, last) {
            for b in all_rows(n, first, last) {
                found.push((a.clone(), b));
            }
        }
    }
    found
}

/// How many questions had a wiring and how many had none, so that a test can say it saw both.
#[derive(Default)]
pub struct Seen {
    fitting: usize,
    misfits: usize,
}

impl Seen {
    pub fn note(&mut self, fits: bool) {
        *(if fits {
            &mut self.fitting
        } else {
            &mut self.misfits
        }) += 1;
    }

    pub fn enough(&self, fitting: usize, misfits: usize) {
        assert!(self.fitting > fitting && self.misfits > misfits);
    }
}

/// Holds the rule to `found`, a search, for all jumpers with columns from `first` to `last`, at
/// separations 0 to 4 and offsets up to `reach`.
fn rule_agrees(
    (first, last): (i32, i32),
    reach: i32,
    found: fn(&[i32], &[i32], usize, i32) -> bool,
) -> Seen {
    let mut seen = Seen::default();
    for (a, b) in all_jumpers(first, last) {
        for s in 0..=4 {
            for d in -reach..=reach {
                let fits = fit(&a, &b, s, d).refusal == 0;
                assert_eq!(fits, found(&a, &b, s, d), "{a:?} {b:?} at ({s}, {d})");
                seen.note(fits);
            }
        }
    }
    seen
}

#[test]
fn every_smallest_jumper() {
    rule_agrees((-2, 2), 4, exists_wiring).enough(1_000, 1_000);
}

/// The same by backtracking, which lays one wire after the other, on fewer columns.
#[test]
fn every_smallest_jumper_by_backtracking() {
    let found = |a: &[i32], b: &[i32], s, d| match find_wiring(a, b, s, d) {
        Some(wires) => {
            assert!(legal_wires(a, b, s, d, &wires));
            true
        }
        None => false,
    };
    rule_agrees((-1, 2), 2, found).enough(500, 500);
}

/// At separation 0 a wire is one point, at 1 two, one above the other: straight either way.
#[test]
fn separations_0_and_1_have_wirings_alike() {
    let mut seen = Seen::default();
    for (a, b) in all_jumpers(-2, 2) {
        for d in -4..=4 {
            let [at_0, at_1] = [0, 1].map(|s| exists_wiring(&a, &b, s, d));
            let [found_0, found_1] = [0, 1].map(|s| find_wiring(&a, &b, s, d).is_some());
            assert!(at_0 == at_1 && at_0 == found_0 && at_0 == found_1);
            seen.note(at_0);
        }
    }
    seen.enough(50, 1_000);
}

/// Every offset has a wiring at n + 1; at n far offsets have none, whatever the rows, and for some
/// rows even offset 0 has none.
#[test]
fn every_offset_has_a_wiring_only_above_n() {
    for (a, b) in all_jumpers(-1, 2) {
        let n = a.len();
        for d in [-7, -3, -1, 0, 1, 3, 7] {
            assert!(exists_wiring(&a, &b, n + 1, d), "{a:?} {b:?} at {d}");
        }
        for d in [-7, 7] {
            assert!(!exists_wiring(&a, &b, n, d), "{a:?} {b:?} at {d}");
        }
    }
    for n in 1..=3 {
        let (a, b) = stairs(n);
        assert!(!exists_wiring(&a, &b, n, 0));
    }
}

#[test]
fn thousands_of_small_jumpers() {
    let mut random = Random::new(11);
    let (mut fitting, mut misfits) = (0, 0);
    for _ in 0..6_000 {
        let n = 1 + random.below(4);
        let (a, b) = (
            small_row(&mut random, n, -3, 4),
            small_row(&mut random, n, -3, 4),
        );
        let (s, d) = (random.below(5), random.between(-6, 6));
        let fits = fit(&a, &b, s, d).refusal == 0;
        assert_eq!(
            fits,
            exists_wiring(&a, &b, s, d),
            "{a:?} {b:?} at ({s}, {d})"
        );
        *(if fits { &mut fitting } else { &mut misfits }) += 1;
    }
    assert!(fitting > 1_000 && misfits > 1_000);
}

#[test]
fn some_larger_jumpers_around_their_least_separation() {
    let mut random = Random::new(12);
    for _ in 0..150 {
        let n = 4 + random.below(3);
        let (a, b) = (
            small_row(&mut random, n, -6, 6),
            small_row(&mut random, n, -6, 6),
        );
        let d = random.between(-5, 5);
        let s = least(&a, &b, d).separation;
        if s <= 6 {
            assert!(exists_wiring(&a, &b, s, d), "{a:?} {b:?} at ({s}, {d})");
            if s > 0 {
                assert!(!exists_wiring(&a, &b, s - 1, d), "{a:?} {b:?} below {s}");
            }
        }
    }
}

/// The two pads that a witness names prevent a wiring: no rows that have them at the same columns
/// have one, however many other pads they have. With r the number at which the rule is read, RIGHT
/// names top pad i and bottom pad i + r, LEFT bottom pad i and top pad i + r.
#[test]
fn two_pads_prevent_it() {
    let rows: Vec<Vec<i32>> = (1..=3).flat_map(|n| all_rows(n, -2, 2)).collect();
    let jumpers = || {
        rows.iter()
            .flat_map(|a| rows.iter().map(move |b| (a, b)))
            .filter(|(a, b)| a.len() == b.len())
    };
    // Each pair of pads with a separation and an offset that a witness names.
    let mut named = HashSet::new();
    for (a, b) in jumpers() {
        for (s, d) in (0..=a.len()).flat_map(|s| (-4..=4).map(move |d| (s, d))) {
            let answer = fit(a, b, s, d);
            if answer.refusal == NOFIT {
                let (i, other) = (answer.pair, answer.pair + rule_at(s));
                let (below, above) = if answer.side == RIGHT {
                    (other, i)
                } else {
                    (i, other)
                };
                named.insert((s, d, (below, a[below]), (above, b[above])));
            }
        }
    }
    let mut seen = 0;
    for (s, d, below, above) in named {
        for (a, b) in jumpers() {
            if a.get(below.0) == Some(&below.1) && b.get(above.0) == Some(&above.1) {
                assert!(!exists_wiring(a, b, s, d), "{a:?} {b:?} at ({s}, {d})");
                seen += 1;
            }
        }
    }
    assert!(seen > 4_000, "{seen}");
}

#[test]
fn two_searches_agree() {
    let mut random = Random::new(13);
    let (mut found, mut missing) = (0, 0);
    for _ in 0..1_500 {
        let n = 1 + random.below(3);
        let (a, b) = (
            small_row(&mut random, n, -2, 3),
            small_row(&mut random, n, -2, 3),
        );
        let (s, d) = (random.below(5), random.between(-2, 2));
        match find_wiring(&a, &b, s, d) {
            Some(wires) => {
                assert!(legal_wires(&a, &b, s, d, &wires));
                assert!(exists_wiring(&a, &b, s, d), "{a:?} {b:?} at ({s}, {d})");
                found += 1;
            }
            None => {
                assert!(!exists_wiring(&a, &b, s, d), "{a:?} {b:?} at ({s}, {d})");
                missing += 1;
            }
        }
    }
    assert!(found > 100 && missing > 100);
}

#[test]
fn more_columns_change_nothing() {
    let mut random = Random::new(15);
    for _ in 0..1_000 {
        let n = 1 + random.below(4);
        let (a, b) = (
            small_row(&mut random, n, -3, 4),
            small_row(&mut random, n, -3, 4),
        );
        let (s, d) = (random.below(5), random.between(-4, 4));
        let (first, last) = enough_columns(&a, &b, s, d);
        assert_eq!(
            exists_wiring(&a, &b, s, d),
            exists_wiring_within(&a, &b, s, d, (first - 9, last + 9))
        );
    }
}

#[test]
fn best_offsets_by_search() {
    // For small jumpers the whole range at s, found by searching offset after offset.
    let mut random = Random::new(14);
    for _ in 0..150 {
        let n = 1 + random.below(3);
        let (a, b) = (
            small_row(&mut random, n, -3, 3),
            small_row(&mut random, n, -3, 3),
        );
        for s in 0..=n {
            let there: Vec<i32> = (-9..=9).filter(|&d| exists_wiring(&a, &b, s, d)).collect();
            let answer = range(&a, &b, s);
            if answer.refusal == NOOFFSET {
                assert!(there.is_empty());
            } else {
                let expected: Vec<i32> = (answer.lowest..=answer.highest).collect();
                assert_eq!(there, expected, "{a:?} {b:?} at {s}");
            }
        }
    }
}

#[test]
fn worked_jumpers_by_search() {
    assert!(exists_wiring(&J.0, &J.1, 3, 0));
    assert!(!exists_wiring(&J.0, &J.1, 2, 0));
    assert!(!exists_wiring(&K.0, &K.1, 2, -5));
    assert!(exists_wiring(&K.0, &K.1, 2, -4));
    assert!(!exists_wiring(&K.0, &K.1, 1, -4));
    assert!(exists_wiring(&S.0, &S.1, 0, -1));
    assert!(exists_wiring(&S.0, &S.1, 1, -1));
    assert!(!exists_wiring(&[0, 1, 3], &[1, 2, 4], 2, 0));
    assert!(exists_wiring(&[0, 1, 3], &[1, 2, 4], 3, 0));
    assert!(exists_wiring(&[0], &[9], 2, 0));
    assert!(!exists_wiring(&[0], &[9], 1, 0));
    assert!(!exists_wiring(&[0], &[9], 0, 0));
}
