//! The form.

use super::*;
use crate::form::*;
use crate::numbers::*;
use crate::random::*;
use crate::*;

const MARKED: Numbers = Numbers {
    refusal: 99,
    place: 99,
    second: 99,
    separation: 99,
    lowest: 99,
    highest: 99,
    pair: 99,
    side: 99,
    count: 99,
};

/// A random form: records over two pools, some of which reach beyond them.
pub fn random_form(random: &mut Random, lines: usize) -> (Vec<Record>, Vec<i32>, Vec<i32>) {
    let (mut bottoms, mut tops) = (vec![3; random.below(4)], vec![3; random.below(4)]);
    let mut table = Vec::new();
    for _ in 0..lines {
        let (a, b) = any_rows(random, 12);
        let count = a.len().min(b.len());
        let mut record = Record {
            bottom_start: bottoms.len(),
            top_start: tops.len(),
            count,
            wish: sheetmaker::wish(random, &a, &b),
            answer: MARKED,
        };
        bottoms.extend(&a);
        tops.extend(&b);
        if random.once_in(10) {
            let far = random.pick(&[1, 1_000, 100_000, usize::MAX]);
            match random.below(3) {
                0 => record.bottom_start = record.bottom_start.saturating_add(far),
                1 => record.top_start = record.top_start.saturating_add(far),
                _ => record.count = record.count.saturating_add(far),
            }
        }
        table.push(record);
    }
    (table, bottoms, tops)
}

#[test]
fn lines_of_a_form() {
    let (bottoms, tops) = ([0, 1, 4, 5, 0, 5], [0, 5, 1, 2, 3, 4]);
    let line = |bottom_start, top_start, count, separation, offset| Record {
        bottom_start,
        top_start,
        count,
        wish: Wish { separation, offset },
        answer: MARKED,
    };
    let mut table = [
        line(0, 2, 4, None, None),
        line(0, 2, 4, Some(2), None),
        line(4, 0, 2, None, Some(5)),
        line(4, 0, 2, Some(2), Some(-5)),
        line(5, 0, 2, None, None),
        line(4, 6, 0, None, None),
        line(4, 7, 0, None, None),
        line(usize::MAX, 0, usize::MAX, None, None),
        line(3, 0, 2, Some(9_999), Some(LAST_OFFSET + 1)),
    ];
    let before = table;
    assert_eq!(
        answer_line(&mut table, 9, &bottoms, &tops),
        Numbers::refused(LINE)
    );
    assert_eq!(table, before);
    let expected = [
        with_offsets(3, -1, 1, 14),
        Numbers::refused_at(NOOFFSET, 2, 0),
        at_offset(3, 5, 0, RIGHT),
        Numbers::no_fit(0, LEFT),
        Numbers::refused(LINE),
        Numbers::refused(EMPTY),
        Numbers::refused(LINE),
        Numbers::refused(LINE),
        Numbers::refused_at(ORDER, 1, 0),
    ];
    for k in 0..table.len() {
        let mut expected_table = table;
        expected_table[k].answer = expected[k];
        assert_eq!(answer_line(&mut table, k, &bottoms, &tops), expected[k]);
        assert_eq!(table, expected_table);
    }
    let mut again = before;
    assert_eq!(answer_form(&mut again, &bottoms, &tops), Numbers::default());
    assert_eq!(again, table);
}

#[test]
fn tables_of_0_64_and_65_lines() {
    assert_eq!(answer_form(&mut [], &[], &[]), Numbers::default());
    assert_eq!(answer_line(&mut [], 0, &[], &[]), Numbers::refused(LINE));
    let record = Record {
        count: 1,
        answer: MARKED,
        ..Record::default()
    };
    let mut table = [record; 64];
    assert_eq!(answer_form(&mut table, &[4], &[7]), Numbers::default());
    assert!(table
        .iter()
        .all(|record| record.answer == with_offsets(0, -3, -3, 0)));
    let mut table = [record; 65];
    for k in [0, 63, 64, 65] {
        assert_eq!(
            answer_line(&mut table, k, &[4], &[7]),
            Numbers::refused(LINE)
        );
    }
    assert_eq!(answer_form(&mut table, &[4], &[7]), Numbers::refused(LINE));
    assert_eq!(table, [record; 65]);
}

#[test]
fn all_equals_each() {
    let mut random = Random::new(41);
    for _ in 0..200 {
        let lines = random.below(65);
        let (table, bottoms, tops) = random_form(&mut random, lines);
        let mut all = table.clone();
        assert_eq!(answer_form(&mut all, &bottoms, &tops), Numbers::default());
        let mut each = table.clone();
        for k in (0..lines).rev() {
            let answer = answer_line(&mut each, k, &bottoms, &tops);
            assert_eq!(answer, each[k].answer);
        }
        assert_eq!(all, each);
        for (before, after) in table.iter().zip(&all) {
            let back = Record {
                answer: before.answer,
                ..*after
            };
            assert_eq!(back, *before);
        }
    }
}
