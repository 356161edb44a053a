//! Drawn tables are legal; the checker accepts exactly what is legal over grid points.

use crate::numbers::*;
use crate::random::*;
use crate::rule::*;
use crate::wires::*;

/// Rows whose columns lie near each other and near the datum, on either side of it or on both, so
/// that walking every point is cheap.
pub fn near_rows(random: &mut Random, most: usize) -> (Vec<i32>, Vec<i32>) {
    let n = 1 + random.below(most);
    let start = -random.between(0, 3 * n as i32);
    let mut row = || -> Vec<i32> {
        let mut column = start + random.between(0, 6);
        (0..n)
            .map(|_| {
                column += random.pick(&[1, 1, 1, 2, 3, 7]);
                column
            })
            .collect()
    };
    (row(), row())
}

/// Changes a table at one place or two, to columns still near the datum.
pub fn change(random: &mut Random, table: &mut [i32]) {
    let place = random.below(table.len());
    match random.below(4) {
        0 => table[place] += random.pick(&[-1, 1]),
        1 => table[place] = random.between(-30, 40),
        2 => {
            let other = random.below(table.len());
            table.swap(place, other);
        }
        _ => {
            let other = random.below(table.len());
            table[place] = table[other];
        }
    }
}

#[test]
fn drawn_tables_are_legal() {
    let mut random = Random::new(31);
    let mut drawn = 0;
    for _ in 0..2_000 {
        let (a, b) = near_rows(&mut random, 14);
        let d = random.between(-30, 30);
        let s = least(&a, &b, d).separation + random.pick(&[0, 0, 0, 1, 5]);
        let mut table = vec![0; a.len() * (s + 1)];
        assert_eq!(draw_all(&a, &b, s, d, &mut table), Numbers::default());
        assert!(legal_table(&a, &b, s, d, &table), "{a:?} {b:?} ({s}, {d})");
        assert_eq!(check(&a, &b, s, d, &table), Numbers::default());
        for wire in 0..a.len() {
            let mut one = vec![0; s + 1];
            draw_wire(&a, &b, s, d, wire, &mut one);
            assert_eq!(one, table[wire * (s + 1)..(wire + 1) * (s + 1)]);
        }
        drawn += 1;
    }
    assert_eq!(drawn, 2_000);
}

#[test]
fn drawn_at_the_ends_of_the_best_range() {
    let mut random = Random::new(32);
    for _ in 0..300 {
        let (a, b) = near_rows(&mut random, 30);
        let answer = crate::best(&a, &b);
        for d in [answer.lowest, answer.highest] {
            let s = answer.separation;
            let mut table = vec![0; a.len() * (s + 1)];
            assert_eq!(draw_all(&a, &b, s, d, &mut table).refusal, 0);
            assert!(legal_table(&a, &b, s, d, &table));
        }
    }
}

#[test]
fn a_misfit_followed_by_the_text_is_never_accepted() {
    let mut random = Random::new(33);
    let mut misfits = 0;
    for _ in 0..2_000 {
        let (a, b) = near_rows(&mut random, 8);
        let (s, d) = (random.below(a.len() + 1), random.between(-12, 12));
        if fit(&a, &b, s, d).refusal == NOFIT {
            let table: Vec<i32> = (0..a.len())
                .flat_map(|i| columns_of_wire(&a, &b, s, d, i))
                .collect();
            assert_eq!(check(&a, &b, s, d, &table).refusal, BADWIRE);
            assert!(!legal_table(&a, &b, s, d, &table));
            misfits += 1;
        }
    }
    assert!(misfits > 300);
}

#[test]
fn checker_equals_legality_on_mutated_tables() {
    let mut random = Random::new(34);
    let (mut accepted, mut refused) = (0, 0);
    for _ in 0..20_000 {
        let (a, b) = near_rows(&mut random, 5);
        let d = random.between(-8, 8);
        let s = least(&a, &b, d).separation + random.below(3);
        let mut table = vec![0; a.len() * (s + 1)];
        draw_all(&a, &b, s, d, &mut table);
        for _ in 0..random.below(4) {
            change(&mut random, &mut table);
        }
        let legal = legal_table(&a, &b, s, d, &table);
        assert_eq!(check(&a, &b, s, d, &table).refusal == 0, legal);
        *(if legal { &mut accepted } else { &mut refused }) += 1;
    }
    assert!(accepted > 2_000 && refused > 2_000, "{accepted} {refused}");
}

#[test]
fn checker_equals_legality_on_all_small_tables() {
    // Two wires on up to three tracks and the top: all tables with columns -2 to 2.
    for (a, b, d) in [
        ([-2, 0], [-1, 1], 0),
        ([-2, -1], [-2, -1], 1),
        ([-1, 1], [0, 1], -2),
        ([-1, 2], [-2, 1], 1),
    ] {
        for s in 0..=3 {
            let places = 2 * (s as u32 + 1);
            let mut legal_ones = 0;
            for code in 0..5usize.pow(places) {
                let table: Vec<i32> = (0..places)
                    .map(|place| (code / 5usize.pow(place) % 5) as i32 - 2)
                    .collect();
                let legal = legal_table(&a, &b, s, d, &table);
                assert_eq!(check(&a, &b, s, d, &table).refusal == 0, legal);
                legal_ones += legal as usize;
            }
            // Where one fits there is one among these, for what is drawn is.
            assert_eq!(legal_ones > 0, fit(&a, &b, s, d).refusal == 0);
        }
    }
}

#[test]
fn first_fault_by_track_then_wire() {
    let (a, b) = super::J;
    let drawn = [0, 0, 0, 1, 1, 1, 2, 2, 4, 4, 3, 3, 5, 5, 5, 4];
    let fault = |change: &[(usize, i32)]| {
        let mut table = drawn;
        for &(place, column) in change {
            table[place] = column;
        }
        let answer = check(&a, &b, 3, 0, &table);
        (answer.refusal, answer.place, answer.second)
    };
    assert_eq!(fault(&[]), (0, 0, 0));
    // Wrong start of wire 2, alone and with a straight step from there; it leaves wire 1 alone.
    assert_eq!(fault(&[(8, 3)]), (BADWIRE, 2, 0));
    assert_eq!(fault(&[(8, 3), (9, 3)]), (BADWIRE, 2, 0));
    // Wrong start of wire 1 that runs into wire 0: wire 0 comes first.
    assert_eq!(fault(&[(4, 0)]), (BADWIRE, 0, 0));
    // A step aside of wire 1 on track 0, which is no one else's fault; likewise of wire 2, of both.
    assert_eq!(fault(&[(5, 2)]), (BADWIRE, 1, 0));
    assert_eq!(fault(&[(9, 3)]), (BADWIRE, 2, 0));
    assert_eq!(fault(&[(5, 2), (9, 3)]), (BADWIRE, 1, 0));
    // A step aside of wire 2 that meets wire 1: wire 1 comes first.
    assert_eq!(fault(&[(9, 1)]), (BADWIRE, 1, 0));
    // A step aside of the last wire, by track before wire 0's fault on track 1.
    assert_eq!(fault(&[(2, 3)]), (BADWIRE, 0, 1));
    assert_eq!(fault(&[(2, 3), (13, 6)]), (BADWIRE, 3, 0));
    // Wrong end of wire 3, by track after a meeting on track 2.
    assert_eq!(fault(&[(15, 6)]), (BADWIRE, 3, 3));
    assert_eq!(fault(&[(15, 6), (11, 4)]), (BADWIRE, 2, 3));
    assert_eq!(fault(&[(15, 3)]), (BADWIRE, 2, 2));
    // At s = 0 start and end are on one track.
    let at_zero = |table: &[i32]| {
        let answer = check(&[1, 5], &[0, 4], 0, 1, table);
        (answer.refusal, answer.place, answer.second)
    };
    assert_eq!(at_zero(&[1, 5]), (0, 0, 0));
    assert_eq!(at_zero(&[1, 4]), (BADWIRE, 1, 0));
    // A right start can be a wrong end.
    let answer = check(&[1, 5], &[1, 6], 0, 0, &[1, 5]);
    assert_eq!(answer, Numbers::refused_at(BADWIRE, 1, 0));
    // Columns as far off as they go.
    let answer = check(&[1], &[1], 1, 0, &[i32::MIN, i32::MAX]);
    assert_eq!(answer, Numbers::refused_at(BADWIRE, 0, 0));
    // At s = 1 a wrong end is a step aside, unless the wire goes straight up to it.
    let answer = check(&[1], &[1], 1, 0, &[1, i32::MAX]);
    assert_eq!(answer, Numbers::refused_at(BADWIRE, 0, 0));
    let answer = check(&[1], &[2], 1, 0, &[1, 1]);
    assert_eq!(answer, Numbers::refused_at(BADWIRE, 0, 1));
    let answer = check(&[1], &[1], 2, 0, &[1, 1, i32::MAX]);
    assert_eq!(answer, Numbers::refused_at(BADWIRE, 0, 2));
    let table = [1, 1, 1, 2, i32::MIN, 2];
    let answer = check(&[1, 2], &[1, 2], 2, 0, &table);
    assert_eq!(answer, Numbers::refused_at(BADWIRE, 0, 0));
    let table = [1, 1, 1, 2, 2, i32::MIN];
    let answer = check(&[1, 2], &[1, 2], 2, 0, &table);
    assert_eq!(answer, Numbers::refused_at(BADWIRE, 0, 1));
}

#[test]
fn a_large_table_point_by_point() {
    let mut random = Random::new(35);
    let (a, b) = stairs(150);
    let mut table = vec![0; 150 * 152];
    assert_eq!(draw_all(&a, &b, 151, 0, &mut table).refusal, 0);
    assert!(legal_table(&a, &b, 151, 0, &table));
    let (a, b) = near_rows(&mut random, 200);
    let d = b[0] - a[a.len() - 1];
    let s = least(&a, &b, d).separation;
    let mut table = vec![0; a.len() * (s + 1)];
    assert_eq!(draw_all(&a, &b, s, d, &mut table).refusal, 0);
    assert!(legal_table(&a, &b, s, d, &table));
}
