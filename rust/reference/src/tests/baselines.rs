//! The baselines give the very same numbers and leave the very same memory.

use super::forms::random_form;
use super::MARK;
use crate::numbers::{Numbers, LAST_OFFSET};
use crate::random::*;
use crate::{baseline, form, halving, parts, rows, rule, wires};

fn same_on(random: &mut Random, a: &[i32], b: &[i32], s: usize, d: i32) {
    assert_eq!(baseline::accept_rows(a, b), rows::accept_rows(a, b));
    assert_eq!(baseline::fit(a, b, s, d), rule::fit(a, b, s, d));
    assert_eq!(baseline::least(a, b, d), rule::least(a, b, d));
    assert_eq!(baseline::range(a, b, s), rule::range(a, b, s));
    assert_eq!(baseline::best(a, b), halving::best(a, b));

    let room = random.below(30);
    let (mut ours, mut theirs) = (vec![9_999; room], vec![9_999; room]);
    assert_eq!(
        baseline::best_with_ladder(a, b, &mut ours),
        halving::best_with_ladder(a, b, &mut theirs)
    );
    assert_eq!(ours, theirs);
    let mut copies = vec![9_999; room];
    assert_eq!(
        baseline::best_by_copies(a, b, &mut copies),
        halving::best_with_ladder(a, b, &mut theirs)
    );
    assert_eq!(copies, theirs);

    let wire = random.below(a.len() + 2);
    let room = (s.min(3_000) + 3).saturating_sub(random.below(5));
    let (mut ours, mut theirs) = (vec![MARK; room], vec![MARK; room]);
    assert_eq!(
        baseline::draw_wire(a, b, s, d, wire, &mut ours),
        wires::draw_wire(a, b, s, d, wire, &mut theirs)
    );
    assert_eq!(ours, theirs);

    let room = (a.len() * (s.min(3_000) + 1) + 3).saturating_sub(random.below(5));
    let (mut ours, mut theirs) = (vec![MARK; room], vec![MARK; room]);
    let drawn = wires::draw_all(a, b, s, d, &mut theirs);
    assert_eq!(baseline::draw_all(a, b, s, d, &mut ours), drawn);
    assert_eq!(ours, theirs);

    // Check what was drawn, and then what isn't quite that.
    same_on_table(random, a, b, s, d, &theirs);
    for _ in 0..4 {
        if theirs.is_empty() {
            break;
        }
        let place = random.below(theirs.len());
        theirs[place] = match random.below(4) {
            0 => random.pick(&[i32::MIN, i32::MAX]),
            1 => theirs[random.below(place + 1)],
            _ => theirs[place].wrapping_add(random.between(-3, 3)),
        };
        same_on_table(random, a, b, s, d, &theirs);
    }
}

/// The checker, and the calls on a part of the jumper.
fn same_on_table(random: &mut Random, a: &[i32], b: &[i32], s: usize, d: i32, table: &[i32]) {
    assert_eq!(
        baseline::check(a, b, s, d, table),
        wires::check(a, b, s, d, table)
    );

    let stays = any_stays(random, a.len());
    assert_eq!(
        baseline::still_fits(a, b, &stays, s, d),
        parts::still_fits(a, b, &stays, s, d)
    );
    let kept = stays.iter().filter(|&&stay| stay != 0).count();
    let room = (kept * (s.min(3_000) + 1) + 3).saturating_sub(random.below(5));
    let (mut ours, mut theirs) = (vec![MARK; room], vec![MARK; room]);
    assert_eq!(
        baseline::part_route(a, b, &stays, s, d, table, &mut ours),
        parts::part_route(a, b, &stays, s, d, table, &mut theirs)
    );
    assert_eq!(ours, theirs);
}

#[test]
fn calls() {
    let mut random = Random::new(61);
    for _ in 0..6_000 {
        let (a, b) = any_rows(&mut random, 16);
        let s = separation(&mut random, a.len());
        let d = offset(&mut random, &a, &b);
        same_on(&mut random, &a, &b, s, d);
    }
}

#[test]
fn calls_that_fit() {
    let mut random = Random::new(62);
    for _ in 0..2_000 {
        let (a, b) = rows(&mut random, 24);
        let d = offset(&mut random, &a, &b).clamp(-LAST_OFFSET, LAST_OFFSET);
        let s = rule::least(&a, &b, d).separation;
        same_on(&mut random, &a, &b, s, d);
    }
}

#[test]
fn calls_on_long_rows() {
    let mut random = Random::new(63);
    for n in [500, 1_023, 1_024, 1_025, 2_047, 2_048] {
        for _ in 0..3 {
            let (a, b) = rows_of(&mut random, n);
            let d = offset(&mut random, &a, &b).clamp(-LAST_OFFSET, LAST_OFFSET);
            let s = random.pick(&[0, 1, 17, 300]);
            same_on(&mut random, &a, &b, s, d);
            let answer = rule::least(&a, &b, d);
            assert_eq!(baseline::least(&a, &b, d), answer);
            assert_eq!(
                baseline::fit(&a, &b, answer.separation, d),
                rule::fit(&a, &b, answer.separation, d)
            );
        }
    }
}

#[test]
fn forms() {
    let mut random = Random::new(64);
    for _ in 0..300 {
        let lines = random.below(67);
        let (table, bottoms, tops) = random_form(&mut random, lines);
        let (mut ours, mut theirs) = (table.clone(), table.clone());
        let all: Numbers = form::answer_form(&mut theirs, &bottoms, &tops);
        assert_eq!(baseline::answer_form(&mut ours, &bottoms, &tops), all);
        assert_eq!(ours, theirs);
        let (mut ours, mut theirs) = (table.clone(), table);
        let k = random.below(70);
        assert_eq!(
            baseline::answer_line(&mut ours, k, &bottoms, &tops),
            form::answer_line(&mut theirs, k, &bottoms, &tops)
        );
        assert_eq!(ours, theirs);
    }
}
