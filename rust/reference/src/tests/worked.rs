//! The jumpers worked by hand and the traps on the bench, with request 106's step from the pad.

use super::*;
use crate::numbers::*;
use crate::rule::{offsets, reduced};
use crate::search::{exists_wiring, find_wiring};
use crate::*;

#[test]
fn one_pair() {
    assert_eq!(least(&[0], &[0], 0), at_offset(0, 0, 0, 0));
    assert_eq!(least(&[0], &[9], 0), at_offset(2, 0, 0, RIGHT));
    assert_eq!(least(&[9], &[0], 0), at_offset(2, 0, 0, LEFT));
    assert_eq!(best(&[3], &[9]), with_offsets(0, -6, -6, 0));
    assert_eq!(fit(&[0], &[9], 1, 0), Numbers::no_fit(0, RIGHT));
    assert_eq!(range(&[0], &[9], 1), with_offsets(1, -9, -9, 0));
    assert_eq!(range(&[0], &[9], 2), with_offsets(2, -131_070, 131_070, 0));
}

#[test]
fn two_steps() {
    let (a, b) = ([0, 1], [1, 2]);
    assert_eq!(least(&a, &b, 0), at_offset(3, 0, 0, RIGHT));
    assert_eq!(fit(&a, &b, 1, 0), Numbers::no_fit(0, RIGHT));
    assert_eq!(fit(&a, &b, 2, 0), Numbers::no_fit(0, RIGHT));
    assert_eq!(fit(&a, &b, 3, 0), at_offset(3, 0, 0, 0));
    assert!(!exists_wiring(&a, &b, 2, 0) && exists_wiring(&a, &b, 3, 0));
    assert!(find_wiring(&a, &b, 2, 0).is_none() && find_wiring(&a, &b, 3, 0).is_some());
    let mut table = [77; 9];
    assert_eq!(draw_all(&a, &b, 3, 0, &mut table), Numbers::default());
    assert_eq!(table, [0, 0, 0, 1, 1, 1, 2, 2, 77]);
    // The checker's two examples: wire 0's run isn't below wire 1's, and wire 1 steps aside.
    let fault = |table: &[i32]| check(&a, &b, 3, 0, table);
    let meets = [0, 0, 0, 1, 1, 0, 2, 2];
    assert_eq!(fault(&meets), Numbers::refused_at(BADWIRE, 0, 0));
    let aside = [0, 0, 0, 1, 1, 2, 2, 2];
    assert_eq!(fault(&aside), Numbers::refused_at(BADWIRE, 1, 0));
    assert!(!legal_table(&a, &b, 3, 0, &aside));
}

#[test]
fn k() {
    let (a, b) = K;
    assert_eq!(range(&a, &b, 0), with_offsets(0, 0, 0, 0));
    assert_eq!(range(&a, &b, 1), with_offsets(1, 0, 0, 0));
    assert_eq!(range(&a, &b, 2), with_offsets(2, -4, 4, 0));
    assert_eq!(range(&a, &b, 3), with_offsets(3, -131_070, 131_070, 0));
    assert_eq!(least(&a, &b, 5), at_offset(3, 5, 0, RIGHT));
    assert_eq!(fit(&a, &b, 2, -5), Numbers::no_fit(0, LEFT));
    assert_eq!(stretch_part(&a, &b, 2, -5), &a);
    assert_eq!(stretch_part(&a, &b, 1, -5), &a[..1]);
    assert_eq!(stretch_part(&a, &b, 0, -5), &a[..1]);
}

#[test]
fn s() {
    let (a, b) = S;
    assert_eq!(least(&a, &b, 0), at_offset(5, 0, 0, RIGHT));
    assert_eq!(best(&a, &b), with_offsets(0, -1, -1, 12));
}

#[test]
fn j() {
    let (a, b) = J;
    let mut ladder = [77; 7];
    let answer = best_with_ladder(&a, &b, &mut ladder);
    assert_eq!(answer, with_offsets(3, -1, 1, 14));
    // The ladder has the numbers of before, the topmost too: its first best is 2 and the answer 3.
    assert_eq!(ladder, [4, 2, 2, 1, 1, 0, 77]);
    assert_eq!(best(&a, &b), answer);
    assert_eq!(best_by_trial(&a, &b).0, 3);
    for s in 0..=2 {
        assert_eq!(range(&a, &b, s), Numbers::refused_at(NOOFFSET, 2, 0));
    }
    let mut table = [77; 17];
    assert_eq!(draw_all(&a, &b, 3, 0, &mut table), Numbers::default());
    let drawn = [
        [0, 0, 0, 1],
        [1, 1, 2, 2],
        [4, 4, 3, 3],
        [5, 5, 5, 4], //
    ];
    assert_eq!(table[..16], drawn.concat());
    assert_eq!(table[16], 77);
    assert_eq!(check(&a, &b, 3, 0, &table), Numbers::default());
    assert!(legal_table(&a, &b, 3, 0, &table));
    // 01's drawing at one track fewer steps aside on track 0: not legal.
    let before = [0, 0, 1, 1, 2, 2, 4, 3, 3, 5, 5, 4];
    let refused = Numbers::refused_at(BADWIRE, 1, 0);
    assert_eq!(check(&a, &b, 2, 0, &before), refused);
    assert!(!legal_table(&a, &b, 2, 0, &before));
}

/// Request 105's own jumper, around a centre pin.
#[test]
fn c() {
    let (a, b) = ([-1, 0, 1], [-2, 0, 2]);
    assert_eq!(range(&a, &b, 0), Numbers::refused_at(NOOFFSET, 0, 2));
    assert_eq!(range(&a, &b, 1), Numbers::refused_at(NOOFFSET, 0, 2));
    assert_eq!(range(&a, &b, 2), with_offsets(2, 0, 0, 0));
    assert_eq!(range(&a, &b, 3), with_offsets(3, -1, 1, 0));
    assert_eq!(range(&a, &b, 4), with_offsets(4, -131_070, 131_070, 0));
    assert_eq!(best(&a, &b), with_offsets(2, 0, 0, 8));
    assert_eq!(least(&a, &b, -131_070), at_offset(4, -131_070, 0, LEFT));
    let mut table = [77; 9];
    assert_eq!(draw_all(&a, &b, 2, 0, &mut table), Numbers::default());
    assert_eq!(table, [-1, -1, -2, 0, 0, 0, 1, 1, 2]);
    assert!(exists_wiring(&a, &b, 2, 0) && !exists_wiring(&a, &b, 2, 1));
}

#[test]
fn limits() {
    let row: Vec<i32> = (0..2_048).collect();
    assert_eq!(fit(&row, &row, 0, 0), at_offset(0, 0, 0, 0));
    let row: Vec<i32> = (0..2_049).collect();
    assert_eq!(fit(&row, &row, 0, 0), Numbers::refused(LONG));
    for column in [65_535, -1, -65_535] {
        assert_eq!(fit(&[column], &[column], 0, 0).refusal, 0);
    }
    for column in [65_536, -65_536] {
        let refused = Numbers::refused_at(COLUMN, 0, 0);
        assert_eq!(fit(&[column], &[1], 0, 0), refused);
        let refused = Numbers::refused_at(COLUMN, 1, 0);
        assert_eq!(fit(&[1], &[column], 0, 0), refused);
    }
    assert_eq!(accept_rows(&[3, 3], &[1, 2]).refusal, ORDER);
    assert_eq!(accept_rows(&[3, 3], &[1, 2]).place, 1);
    assert_eq!(accept_rows(&[1, 2], &[3, 3]).place, 3);
    assert_eq!(fit(&[1], &[1], 2_049, 9).refusal, 0);
    assert_eq!(fit(&[1], &[1], 2_050, 9), Numbers::refused(TRACKS));
    assert_eq!(range(&[1], &[1], 2_049).refusal, 0);
    assert_eq!(range(&[1], &[1], 2_050), Numbers::refused(TRACKS));
    for offset in [131_070, -131_070] {
        assert_eq!(fit(&[1], &[1], 2, offset).refusal, 0);
    }
    for offset in [131_071, -131_071] {
        assert_eq!(fit(&[1], &[1], 2, offset), Numbers::refused(OFFSET));
    }
    // A route on the most tracks is drawn and found legal; one track more is refused.
    let mut table = [0; 2_051];
    assert_eq!(draw_all(&[1], &[1], 2_049, 9, &mut table).refusal, 0);
    assert_eq!((table[0], table[1], table[2], table[2_049]), (1, 1, 10, 10));
    assert_eq!(check(&[1], &[1], 2_049, 9, &table).refusal, 0);
    assert!(legal_table(&[1], &[1], 2_049, 9, &table));
    let refused = Numbers::refused(TRACKS);
    assert_eq!(draw_all(&[1], &[1], 2_050, 9, &mut table), refused);
    assert_eq!(draw_wire(&[1], &[1], 2_050, 9, 0, &mut table), refused);
    assert_eq!(check(&[1], &[1], 2_050, 9, &table), refused);
}

#[test]
fn trap_of_the_vertical_line() {
    let (a, b) = S;
    let over = |column: i32| (0..4).filter(|&i| a[i] <= column && column <= b[i]).count();
    assert_eq!((-1..=6).map(over).max(), Some(2));
    assert_eq!(least(&a, &b, 0).separation, 5);
    assert!(!exists_wiring(&a, &b, 4, 0));
    assert!(exists_wiring(&a, &b, 5, 0));
}

#[test]
fn trap_of_twice_the_half() {
    // In the numbers of the ladder. x = 0, 0 and y = 0, 4: the even half is one pair and has 0, the
    // whole has 1.
    let above = (vec![0, 1], vec![0, 5]);
    let mut ladder = [0; 4];
    assert_eq!(
        best_with_ladder(&above.0, &above.1, &mut ladder).separation,
        2
    );
    assert_eq!(ladder, [2, 1, 1, 0]);
    // x = 0, 9, 9 and y = 0, 0, 0: the even half x = 0, 9 has 1, and so has the whole.
    let below = (vec![0, 10, 11], vec![0, 1, 2]);
    let mut ladder = [0; 6];
    assert_eq!(
        best_with_ladder(&below.0, &below.1, &mut ladder).separation,
        2
    );
    assert_eq!(ladder, [3, 1, 2, 1, 1, 0]);
    // Nor is it twice the half's separation: both need 2, and their halves 0 and 2.
    assert_eq!(best_by_trial(&above.0, &above.1).0, 2);
    assert_eq!(best_by_trial(&below.0, &below.1).0, 2);
}

#[test]
fn trap_of_running_along_track_s() {
    // A wiring that runs along track 2: by the rule of the last point it is none.
    let (a, b) = ([0, 1], [1, 2]);
    let along = vec![
        vec![(0, 0), (0, 1), (0, 2), (1, 2)],
        vec![(1, 0), (1, 1), (2, 1), (2, 2)],
    ];
    assert!(!legal_wires(&a, &b, 2, 0, &along));
    assert!(!exists_wiring(&a, &b, 2, 0));
    assert_eq!(fit(&a, &b, 2, 0).refusal, NOFIT);
    assert!(exists_wiring(&a, &b, 3, 0));
}

/// Request 106's own trap: wirings along track 0, which 01's words alone would let pass.
#[test]
fn trap_of_running_along_track_0() {
    // Straight along track 0, and down to it again at another column.
    let along = vec![vec![(0, 0), (1, 0), (1, 1), (1, 2)]];
    assert!(!legal_wires(&[0], &[1], 2, 0, &along));
    let down = vec![vec![(0, 0), (0, 1), (1, 1), (1, 0), (2, 0), (2, 1), (2, 2)]];
    assert!(!legal_wires(&[0], &[2], 2, 0, &down));
    // Back to the first point itself: it is then the wire's third point, too.
    let back = vec![vec![(0, 0), (0, 1), (0, 0), (0, 1), (0, 2)]];
    assert!(!legal_wires(&[0], &[0], 2, 0, &back));
    // The same without it.
    let straight = vec![vec![(0, 0), (0, 1), (1, 1), (1, 2)]];
    assert!(legal_wires(&[0], &[1], 2, 0, &straight));
    // 01's rows at 01's separation.
    let (a, b) = ([0, 1], [1, 2]);
    let before = vec![
        vec![(0, 0), (0, 1), (1, 1), (1, 2)],
        vec![(1, 0), (2, 0), (2, 1), (2, 2)],
    ];
    assert!(!legal_wires(&a, &b, 2, 0, &before));
    // At separation 0 the first point is the last, and nothing has changed.
    assert!(legal_wires(&[3], &[1], 0, 2, &[vec![(3, 0)]]));
    assert!(!legal_wires(&[3], &[4], 0, 0, &[vec![(3, 0), (4, 0)]]));
    assert!(!legal_wires(
        &[3],
        &[3],
        0,
        0,
        &[vec![(3, 0), (4, 0), (3, 0)]]
    ));
}

#[test]
fn trap_of_one_more_pair() {
    assert_eq!(least(&S.0, &S.1, 0).separation, 5);
    assert_eq!(least(&[0, 1, 3], &[1, 2, 4], 0).separation, 3);
}

#[test]
fn ranges_know_of_themselves() {
    assert_eq!(Range::ALL.lowest, -131_070);
    assert_eq!(Range::ALL.highest, 131_070);
    assert!(!Range::ALL.is_empty());
    let (low, high) = (
        Range {
            lowest: -3,
            highest: 2,
        },
        Range {
            lowest: 1,
            highest: 9,
        },
    );
    let both = Range {
        lowest: 1,
        highest: 2,
    };
    assert_eq!(low.meet(high), both);
    assert_eq!(high.meet(low), both);
    let none = Range {
        lowest: 3,
        highest: 9,
    };
    assert!(low.meet(none).is_empty());
    assert_eq!(low.meet(Range::ALL), low);
    // Whatever the rows, where the rule says anything its range lies within the accepted offsets.
    let far = ([-65_535, 65_535], [-65_535, 65_535]);
    let found = offsets(&reduced(&far.0), &reduced(&far.1), 1);
    assert_eq!(found.meet(Range::ALL), found);
    assert_eq!(offsets(&[-65_535], &[65_535], 0).lowest, -131_070);
    assert_eq!(offsets(&[65_535], &[-65_535], 0).highest, 131_070);
}
