//! Least and best separations, offset ranges, the ladder and the count.

use crate::halving::*;
use crate::numbers::*;
use crate::random::*;
use crate::rule::*;

#[test]
fn reduced_rows_never_fall() {
    let mut random = Random::new(21);
    for _ in 0..500 {
        let (a, b) = rows(&mut random, 40);
        for row in [reduced(&a), reduced(&b)] {
            assert!(row.windows(2).all(|two| two[0] <= two[1]));
        }
    }
}

/// The number of the rule for each separation, and the least separation for each number.
#[test]
fn numbers_of_the_rule() {
    let at: Vec<usize> = (0..5).map(rule_at).collect();
    assert_eq!(at, [0, 0, 1, 2, 3]);
    let tracks: Vec<usize> = (0..5).map(tracks_for).collect();
    assert_eq!(tracks, [0, 2, 3, 4, 5]);
    for r in 0..3_000 {
        let least = (0..).find(|&s| rule_at(s) == r);
        assert_eq!(least, Some(tracks_for(r)));
    }
}

#[test]
fn separations_0_and_1_fit_alike() {
    let mut random = Random::new(27);
    let mut fitting = 0;
    for round in 0..2_000 {
        let (a, b) = rows(&mut random, if round % 2 == 0 { 2 } else { 20 });
        let d = if round % 4 == 0 {
            // An offset that fits if any does.
            let (x, y) = (reduced(&a), reduced(&b));
            (x[0] - y[0]).clamp(-LAST_OFFSET, LAST_OFFSET)
        } else {
            offset(&mut random, &a, &b)
        };
        let at_0 = |answer: Numbers| Numbers {
            separation: 0,
            ..answer
        };
        assert_eq!(at_0(fit(&a, &b, 1, d)), fit(&a, &b, 0, d));
        assert_eq!(at_0(range(&a, &b, 1)), range(&a, &b, 0));
        assert_eq!(stretch(&a, &b, 1, d), stretch(&a, &b, 0, d));
        fitting += (fit(&a, &b, 1, d).refusal == 0) as usize;
    }
    assert!(fitting > 100, "{fitting}");
}

/// A least or best separation of 0 stays; any other is one more than the least number at which the
/// rule is met, and so never 1.
#[test]
fn no_least_or_best_separation_is_1() {
    let mut random = Random::new(28);
    let (mut least_seen, mut best_seen) = ([0; 4], [0; 4]);
    for _ in 0..4_000 {
        let (a, b) = rows(&mut random, 12);
        let n = a.len();
        let (x, y) = (reduced(&a), reduced(&b));
        let d = offset(&mut random, &a, &b).clamp(-LAST_OFFSET, LAST_OFFSET);
        let answer = least(&a, &b, d);
        let number = (0..=n).find(|&r| witness(&x, &y, r, d).is_none()).unwrap();
        assert_eq!(answer.separation, tracks_for(number));
        assert!(answer.separation <= n + 1);
        if answer.separation > 0 {
            // The witness of before, at the number below, and the witness at one track fewer.
            let misfit = Numbers::no_fit(answer.pair, answer.side);
            assert_eq!(fit(&a, &b, answer.separation - 1, d), misfit);
            let before = witness(&x, &y, number - 1, d);
            assert_eq!(before, Some((answer.pair, answer.side)));
        }
        least_seen[answer.separation.min(3)] += 1;
        let best = best(&a, &b);
        let number = (0..n).find(|&r| !offsets(&x, &y, r).is_empty()).unwrap();
        assert_eq!(best.separation, tracks_for(number));
        assert!(best.separation <= n / 2 + 1);
        best_seen[best.separation.min(3)] += 1;
    }
    for seen in [least_seen, best_seen] {
        assert_eq!(seen[1], 0);
        assert!(seen[0].min(seen[2]).min(seen[3]) > 50, "{seen:?}");
    }
}

/// The whole range of accepted offsets is given from n + 1 on and not before.
#[test]
fn every_offset_fits_only_above_n() {
    let mut random = Random::new(29);
    for round in 0..1_000 {
        let most = if round % 100 == 0 { MOST_PAIRS } else { 20 };
        let (a, b) = rows(&mut random, most);
        let n = a.len();
        for s in [n + 1, n + 2, MOST_TRACKS] {
            let answer = range(&a, &b, s.min(MOST_TRACKS));
            assert_eq!((answer.lowest, answer.highest), (-131_070, 131_070));
        }
        // At n the rows' outermost pads still bind the offset, wherever they are.
        let answer = range(&a, &b, n);
        assert!(answer.refusal != 0 || answer.lowest > -131_070 || answer.highest < 131_070);
        for d in [-131_070, 131_070] {
            assert_eq!(fit(&a, &b, n + 1, d).refusal, 0);
        }
    }
    for n in [1, 2, 7, MOST_PAIRS] {
        let (a, b) = stairs(n);
        assert_eq!(fit(&a, &b, n, 0), Numbers::no_fit(0, RIGHT));
        assert_eq!(fit(&a, &b, n + 1, 0).refusal, 0);
        assert_eq!(least(&a, &b, 0).separation, n + 1);
    }
}

#[test]
fn what_fits_goes_on_fitting() {
    let mut random = Random::new(22);
    for _ in 0..500 {
        let (a, b) = rows(&mut random, 20);
        let d = random.between(-30, 30);
        let from = least(&a, &b, d).separation;
        for s in 0..=a.len() + 2 {
            assert_eq!(fit(&a, &b, s, d).refusal == 0, s >= from);
        }
    }
}

#[test]
fn range_is_where_it_fits() {
    let mut random = Random::new(23);
    for _ in 0..1_000 {
        let (a, b) = rows(&mut random, 20);
        let s = random.below(a.len() + 1);
        let answer = range(&a, &b, s);
        let (x, y, r) = (reduced(&a), reduced(&b), rule_at(s));
        let found = offsets(&x, &y, r);
        assert_eq!(answer.refusal != 0, found.is_empty());
        for end in [found.lowest, found.highest] {
            for d in end - 1..=end + 1 {
                if Range::ALL.holds(d) {
                    assert_eq!(fit(&a, &b, s, d).refusal == 0, found.holds(d));
                }
            }
        }
        if answer.refusal != 0 {
            // The two places together show that nothing fits: one bound is above the other.
            let (i, j) = (answer.place, answer.second);
            assert!(x[i] - y[i + r] > x[j + r] - y[j]);
        }
    }
}

#[test]
fn halving_equals_trial() {
    let mut random = Random::new(24);
    let mut beside_twice = [0; 3];
    for round in 0..4_000 {
        let most = if round % 20 == 0 { 300 } else { 24 };
        let (a, b) = rows(&mut random, most);
        let halved = halve(reduced(&a), reduced(&b));
        let (s, found) = best_by_trial(&a, &b);
        assert_eq!(tracks_for(halved.best()), s);
        assert!(halved.best() <= a.len() / 2);
        // Each level equals trial on its own thinned rows.
        let (mut x, mut y) = (reduced(&a), reduced(&b));
        for &(size, best) in &halved.ladder {
            assert_eq!(size, x.len());
            assert!(!offsets(&x, &y, best).is_empty());
            assert!(best == 0 || offsets(&x, &y, best - 1).is_empty());
            x = x.iter().step_by(2).copied().collect();
            y = y.iter().step_by(2).copied().collect();
        }
        assert_eq!(halved.ladder.last(), Some(&(1, 0)));
        assert_eq!(halved.count, count_of_ladder(&halved.ladder));
        assert!(halved.count <= 12 * a.len());
        for level in halved.ladder.windows(2) {
            beside_twice[level[0].1 + 1 - 2 * level[1].1] += 1;
        }
        let answer = best(&a, &b);
        assert_eq!(answer.separation, s);
        assert_eq!(
            (answer.lowest, answer.highest),
            (found.lowest, found.highest)
        );
        assert_eq!(answer.count, halved.count);
    }
    // Twice the half's best less one, twice, and twice and one all occur.
    assert!(
        beside_twice.iter().all(|&times| times > 50),
        "{beside_twice:?}"
    );
}

#[test]
fn full_length() {
    let mut random = Random::new(25);
    for n in [1_023, 1_024, 1_025, 2_047, 2_048] {
        let (a, b) = rows_of(&mut random, n);
        let (s, _) = best_by_trial(&a, &b);
        assert_eq!(best(&a, &b).separation, s);
    }
    let (a, b) = stairs(2_048);
    assert_eq!(least(&a, &b, 0).separation, 2_049);
    assert_eq!(best(&a, &b).separation, 0);
    // Levels 2,048 down to 2, one trial at 0 each.
    assert_eq!(best(&a, &b).count, 2 * (2_048 * 2 - 2));
    // A row packed, the other wide: the best is large.
    let packed: Vec<i32> = (0..2_048).collect();
    let wide: Vec<i32> = (0..2_048).map(|i| 32 * i).collect();
    let (s, found) = best_by_trial(&packed, &wide);
    let answer = best(&packed, &wide);
    assert_eq!((answer.separation, answer.lowest), (s, found.lowest));
    assert!(s > 1_000);
}

#[test]
fn ladder_needs_all_its_room() {
    let mut random = Random::new(26);
    for n in 1..70 {
        let (a, b) = rows_of(&mut random, n);
        let ladder = halve(reduced(&a), reduced(&b)).ladder;
        let need = 2 * ladder.len();
        let mut short = vec![9_999; need - 1];
        assert_eq!(
            best_with_ladder(&a, &b, &mut short),
            Numbers::refused(BUFFER)
        );
        assert!(short.iter().all(|&place| place == 9_999));
        let mut long = vec![9_999; need + 3];
        assert_eq!(best_with_ladder(&a, &b, &mut long), best(&a, &b));
        assert_eq!(long[need..], [9_999; 3]);
        for (level, &(size, best)) in ladder.iter().enumerate() {
            assert_eq!(long[2 * level..2 * level + 2], [size, best]);
        }
    }
}
