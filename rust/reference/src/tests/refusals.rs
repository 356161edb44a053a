//! Refusals by number, their places, and lent memory that doesn't change.

use super::*;
use crate::numbers::*;
use crate::random::*;
use crate::*;

#[test]
fn rows_by_number() {
    let long: Vec<i32> = (0..2_049).rev().collect();
    assert_eq!(accept_rows(&[], &[1]), Numbers::refused(UNEQUAL));
    assert_eq!(accept_rows(&[5, 5], &[1]), Numbers::refused(UNEQUAL));
    assert_eq!(accept_rows(&[], &[]), Numbers::refused(EMPTY));
    assert_eq!(accept_rows(&long, &long), Numbers::refused(LONG));
    // COLUMN before ORDER at one place; an earlier ORDER before a later COLUMN.
    assert_eq!(
        accept_rows(&[5, -65_536], &[1, 2]),
        Numbers::refused_at(COLUMN, 1, 0)
    );
    assert_eq!(
        accept_rows(&[5, 5, -65_536], &[1, 2, 3]),
        Numbers::refused_at(ORDER, 1, 0)
    );
    // The bottom row's last fault before the top row's first.
    assert_eq!(
        accept_rows(&[1, 2, 2], &[-65_536, 2, 3]),
        Numbers::refused_at(ORDER, 2, 0)
    );
    assert_eq!(
        accept_rows(&[1, 2, 3], &[1, 70_000, 3]),
        Numbers::refused_at(COLUMN, 4, 0)
    );
    assert_eq!(
        accept_rows(&[-65_535, 65_535], &[-1, 0]),
        Numbers::default()
    );
}

#[test]
fn order_of_all_checks() {
    let good = ([1, 4], [2, 9]);
    let bad = ([4, 4], [2, 9]);
    // Rows before separation before offset before wire before buffer before fit.
    let mut none = [];
    let draw = |a: &[i32], b: &[i32], s, d, wire, buffer: &mut [i32]| {
        draw_wire(a, b, s, d, wire, buffer).refusal
    };
    assert_eq!(
        draw(&bad.0, &bad.1, 9_999, LAST_OFFSET + 1, 9, &mut none),
        ORDER
    );
    assert_eq!(
        draw(&good.0, &good.1, 9_999, LAST_OFFSET + 1, 9, &mut none),
        TRACKS
    );
    assert_eq!(
        draw(&good.0, &good.1, 1, LAST_OFFSET + 1, 9, &mut none),
        OFFSET
    );
    assert_eq!(draw(&good.0, &good.1, 1, 50_000, 2, &mut none), WIRE);
    assert_eq!(draw(&good.0, &good.1, 1, 50_000, 1, &mut none), BUFFER);
    assert_eq!(draw(&good.0, &good.1, 1, 50_000, 1, &mut [0; 2]), NOFIT);
    assert_eq!(draw(&good.0, &good.1, 2, 50_000, 1, &mut [0; 3]), NOFIT);
    assert_eq!(draw(&good.0, &good.1, 3, 50_000, 1, &mut [0; 4]), 0);
    let table = |s, d, buffer: &mut [i32]| draw_all(&good.0, &good.1, s, d, buffer).refusal;
    assert_eq!(table(9_999, LAST_OFFSET + 1, &mut none), TRACKS);
    assert_eq!(table(1, LAST_OFFSET + 1, &mut none), OFFSET);
    assert_eq!(table(1, 50_000, &mut [0; 3]), BUFFER);
    assert_eq!(table(1, 50_000, &mut [0; 4]), NOFIT);
    // The checker doesn't test NOFIT.
    let check = |s, d, table: &[i32]| check(&good.0, &good.1, s, d, table).refusal;
    assert_eq!(check(1, 50_000, &[0; 3]), BUFFER);
    assert_eq!(check(1, 50_000, &[0; 4]), BADWIRE);
    assert_eq!(check(2_050, 50_000, &[0; 4]), TRACKS);
    assert_eq!(check(2_049, 50_000, &[0; 4]), BUFFER);
    assert_eq!(check(1, 131_071, &[0; 4]), OFFSET);
    // The best call has rows and a buffer only.
    assert_eq!(
        best_with_ladder(&bad.0, &bad.1, &mut []),
        Numbers::refused_at(ORDER, 1, 0)
    );
    let mut ladder = [7; 3];
    assert_eq!(
        best_with_ladder(&good.0, &good.1, &mut ladder),
        Numbers::refused(BUFFER)
    );
    assert_eq!(ladder, [7; 3]);
}

#[test]
fn nothing_written_on_a_refusal_nor_beyond() {
    let mut random = Random::new(1);
    let mut refused = 0;
    for _ in 0..3_000 {
        let (a, b) = any_rows(&mut random, 12);
        let (s, d) = (
            separation(&mut random, a.len()),
            offset(&mut random, &a, &b),
        );
        let room = random.below(200);
        let wire = random.below(a.len() + 2);

        let mut buffer = vec![MARK; room];
        let answer = draw_wire(&a, &b, s, d, wire, &mut buffer);
        let written = if answer.refusal == 0 { s + 1 } else { 0 };
        assert!(buffer[written..].iter().all(|&place| place == MARK));
        assert!(buffer[..written].iter().all(|&place| place != MARK));

        let mut buffer = vec![MARK; room];
        let answer = draw_all(&a, &b, s, d, &mut buffer);
        let written = if answer.refusal == 0 {
            a.len() * (s + 1)
        } else {
            0
        };
        assert!(buffer[written..].iter().all(|&place| place == MARK));
        assert!(buffer[..written].iter().all(|&place| place != MARK));
        refused += (answer.refusal != 0) as usize;

        // Numbers of a refusal are 0 but for what it speaks of.
        for answer in [
            answer,
            fit(&a, &b, s, d),
            range(&a, &b, s),
            least(&a, &b, d),
        ] {
            if answer.refusal != 0 {
                let spoken = Numbers {
                    refusal: answer.refusal,
                    place: answer.place,
                    second: answer.second,
                    pair: answer.pair,
                    side: answer.side,
                    ..Numbers::default()
                };
                assert_eq!(answer, spoken);
                assert_eq!(answer.refusal == NOFIT, answer.side != 0);
                assert!(answer.pair == 0 || answer.refusal == NOFIT);
                assert!(answer.second == 0 || answer.refusal == NOOFFSET);
                assert!(answer.place == 0 || [COLUMN, ORDER, NOOFFSET].contains(&answer.refusal));
            }
        }
    }
    assert!(refused > 500);
}

#[test]
fn every_shape_of_row_is_accepted() {
    let mut random = Random::new(2);
    for n in [1, 2, 3, 7, 64, 1_000, 2_047, 2_048] {
        for shape in SHAPES {
            for _ in 0..5 {
                let a = row(&mut random, n, shape);
                let b = nudged(&mut random, &a);
                assert_eq!(accept_rows(&a, &b), Numbers::default(), "{n} {shape:?}");
            }
        }
    }
}

/// Rows left of the datum, across it and right of it, against each other, with an end on either
/// limit or on both; offsets at both limits and one past each.
#[test]
fn rows_and_offsets_lie_everywhere() {
    let mut random = Random::new(4);
    let side = |row: &[i32]| match (row[0] < 0, row[row.len() - 1] > 0) {
        (true, false) => 0,
        (true, true) => 1,
        _ => 2,
    };
    let (mut pairs, mut first, mut last, mut whole) = ([[0; 3]; 3], 0, 0, 0);
    let mut offsets = std::collections::HashSet::new();
    for _ in 0..4_000 {
        let (a, b) = rows(&mut random, 20);
        pairs[side(&a)][side(&b)] += 1;
        for row in [&a, &b] {
            first += (row[0] == FIRST_COLUMN) as usize;
            last += (row[row.len() - 1] == LAST_COLUMN) as usize;
            whole += (row[row.len() - 1] - row[0] == LAST_COLUMN - FIRST_COLUMN) as usize;
        }
        offsets.insert(offset(&mut random, &a, &b));
    }
    assert!(pairs.iter().flatten().all(|&count| count > 50), "{pairs:?}");
    assert!(first.min(last).min(whole) > 50, "{first} {last} {whole}");
    for limit in [LAST_OFFSET, LAST_OFFSET + 1] {
        assert!(offsets.contains(&limit) && offsets.contains(&-limit));
    }
}

#[test]
fn every_damage_to_rows_is_refused() {
    let mut random = Random::new(3);
    for how in ROW_DAMAGES {
        for _ in 0..200 {
            let n = 2 + random.below(20);
            let (mut a, mut b) = rows_of(&mut random, n);
            damage_rows(&mut random, &mut a, &mut b, how);
            let refusal = accept_rows(&a, &b).refusal;
            match how {
                RowDamage::OutOfRange => assert_eq!(refusal, COLUMN),
                RowDamage::OutOfOrder => assert_eq!(refusal, ORDER),
                RowDamage::Unequal => assert_eq!(refusal, UNEQUAL),
                RowDamage::Empty => assert_eq!(refusal, EMPTY),
                RowDamage::Long => assert_eq!(refusal, LONG),
            }
        }
    }
}

#[test]
fn stretch_is_empty_when_there_is_no_misfit() {
    for (a, b, s, d) in [
        (vec![], vec![], 0, 0),
        (vec![1, 2], vec![1], 0, 9),
        (vec![5, 4], vec![1, 2], 0, 9),
        (vec![1, 2], vec![1, 2], 0, 0),
        (vec![1, 2], vec![1, 2], 2_050, 9),
        (vec![1, 2], vec![1, 2], 3, 9),
        (vec![1, 2], vec![1, 2], 0, 131_071),
    ] {
        assert_eq!(stretch(&a, &b, s, d), Stretch::default());
        let part = stretch_part(&a, &b, s, d);
        assert!(part.is_empty());
        assert_eq!(part.as_ptr(), a.as_ptr());
    }
}

#[test]
fn stretch_of_a_misfit() {
    // The narrower row, the bottom row if equal.
    let (a, b) = J;
    let part = |top, start, length| Stretch { top, start, length };
    // One pad at 0 and at 1, from there on one more a track.
    assert_eq!(stretch(&a, &b, 0, 0), part(false, 0, 1));
    assert_eq!(stretch(&a, &b, 1, 0), part(false, 0, 1));
    // (2, 1): x = 0,0,2,2 and y = 1,1,1,1. Pair 0 breaks it: 1 > x_1 - y_0 = -1. Both span 1.
    assert_eq!(stretch(&a, &b, 2, 1), part(false, 0, 2));
    // (2, -1): pair 2 breaks it on the left: x_2 - y_3 = 1. Bottom 4,5 and top 3,4.
    assert_eq!(stretch(&a, &b, 2, -1), part(false, 2, 2));
    // (3, 2): pair 0, RIGHT: x_2 - y_0 = 1. Bottom 0..4, top 1..3, so the top one.
    assert_eq!(fit(&a, &b, 3, 2), Numbers::no_fit(0, RIGHT));
    assert_eq!(stretch(&a, &b, 3, 2), part(true, 0, 3));
    assert_eq!(stretch_part(&a, &b, 3, 2), &[1, 2, 3]);
    assert_eq!(stretch_part(&a, &b, 3, 2).as_ptr(), b.as_ptr());
}
