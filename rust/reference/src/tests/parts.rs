//! Pads dropped from a part: what fits goes on fitting, what is least or best doesn't rise; a pair
//! added last; the two calls.

use std::collections::HashMap;

use super::searched::{all_jumpers, all_rows, small_row, Seen};
use super::wiring::{change, near_rows};
use super::*;
use crate::halving::halve;
use crate::numbers::*;
use crate::parts::*;
use crate::random::*;
use crate::rule::*;
use crate::search::*;
use crate::*;

/// Every choice of n pairs with one kept at least, each pair kept by another byte.
fn choices(n: usize) -> Vec<Vec<u8>> {
    (1..1 << n)
        .map(|code| {
            (0..n)
                .map(|i| (code >> i & 1) * (1 + 50 * i as u8))
                .collect()
        })
        .collect()
}

/// All pairs but the last.
fn but_last(n: usize) -> Vec<u8> {
    (1..=n).map(|i| (i < n) as u8).collect()
}

fn rows_kept(a: &[i32], b: &[i32], stays: &[u8]) -> (Vec<i32>, Vec<i32>) {
    (kept(a, stays), kept(b, stays))
}

/// What the search, which knows nothing of the rule, has found so far: many jumpers share a part.
#[derive(Default)]
struct Searched {
    known: HashMap<(Vec<i32>, Vec<i32>, usize, i32), bool>,
}

impl Searched {
    fn exists(&mut self, a: &[i32], b: &[i32], s: usize, d: i32) -> bool {
        *self
            .known
            .entry((a.to_vec(), b.to_vec(), s, d))
            .or_insert_with(|| exists_wiring(a, b, s, d))
    }

    fn least(&mut self, a: &[i32], b: &[i32], d: i32) -> usize {
        (0..)
            .find(|&s| self.exists(a, b, s, d))
            .expect("n + 1 is enough")
    }
}

/// All small jumpers of one to three pairs, and a few of four.
fn small_jumpers() -> Vec<(Vec<i32>, Vec<i32>)> {
    let mut jumpers = all_jumpers(-2, 2);
    for a in all_rows(4, -2, 2) {
        jumpers.extend(all_rows(4, -2, 2).into_iter().map(|b| (a.clone(), b)));
    }
    jumpers
}

/// What has a wiring has one without some of its pairs. `still_fits` says of every part whether it
/// has one, and its other numbers are those of the rows left.
#[test]
fn every_part_of_every_smallest_jumper() {
    let mut searched = Searched::default();
    let (mut seen, mut gained) = (Seen::default(), 0);
    for (a, b) in small_jumpers() {
        for (s, d) in (0..=5).flat_map(|s| (-4..=4).map(move |d| (s, d))) {
            let whole = searched.exists(&a, &b, s, d);
            for stays in choices(a.len()) {
                let (part_a, part_b) = rows_kept(&a, &b, &stays);
                let part = searched.exists(&part_a, &part_b, s, d);
                assert!(part || !whole, "{a:?} {b:?} {stays:?} at ({s}, {d})");
                let answer = still_fits(&a, &b, &stays, s, d);
                assert!(answer.refusal == 0 || answer.refusal == NOFIT);
                assert_eq!(answer.refusal == 0, part);
                assert_eq!(answer, fit(&part_a, &part_b, s, d));
                seen.note(part);
                gained += (part && !whole) as usize;
            }
        }
    }
    seen.enough(10_000, 10_000);
    assert!(gained > 5_000, "{gained}");
}

/// The same for rows in any order, which no call accepts: of wirings it holds for any numbers. (Two
/// pads at one place are left out: they never have a wiring, and the search isn't made for them.)
#[test]
fn every_part_of_rows_in_any_order() {
    let mut searched = Searched::default();
    let mut seen = Seen::default();
    for n in 1..=3 {
        // Every row of columns -1 to 2, no two alike.
        let rows: Vec<Vec<i32>> = (0..4i32.pow(n as u32))
            .map(|code| (0..n).map(|i| (code >> (2 * i) & 3) - 1).collect())
            .filter(|row: &Vec<i32>| (0..n).all(|i| !row[..i].contains(&row[i])))
            .collect();
        for (a, b) in rows.iter().flat_map(|a| rows.iter().map(move |b| (a, b))) {
            for (s, d) in (0..=4).flat_map(|s| (-1..=1).map(move |d| (s, d))) {
                let whole = searched.exists(a, b, s, d);
                seen.note(whole);
                for stays in choices(n) {
                    let (part_a, part_b) = rows_kept(a, b, &stays);
                    assert!(!whole || searched.exists(&part_a, &part_b, s, d));
                }
            }
        }
    }
    seen.enough(500, 500);
}

/// Why it is so: a wiring without some of its wires is a wiring of the rows left.
#[test]
fn a_wiring_without_some_of_its_wires() {
    let mut found = 0;
    for (a, b) in all_jumpers(-1, 2) {
        for (s, d) in (0..=4).flat_map(|s| (-2..=2).map(move |d| (s, d))) {
            let Some(wires) = find_wiring(&a, &b, s, d) else {
                continue;
            };
            let wires: Vec<_> = wires.iter().collect();
            for stays in choices(a.len()) {
                let (part_a, part_b) = rows_kept(&a, &b, &stays);
                let left: Vec<_> = kept(&wires, &stays).into_iter().cloned().collect();
                assert!(legal_wires(&part_a, &part_b, s, d, &left));
                found += 1;
            }
        }
    }
    assert!(found > 1_000, "{found}");
}

/// How often a pair added last raised a separation by 0, 1 and 2.
#[derive(Debug, Default)]
struct Rises([usize; 3]);

impl Rises {
    /// At most two and that from 0 only; at most one in the numbers at which the rule is read.
    fn note(&mut self, before: usize, after: usize) {
        assert!(before <= after && after <= before + 2);
        assert!(after < before + 2 || before == 0);
        assert!(rule_at(after) <= rule_at(before) + 1);
        self.0[after - before] += 1;
    }

    fn enough(&self, each: usize) {
        assert!(self.0.iter().all(|&times| times > each), "{self:?}");
    }
}

/// Least separations found by search alone, of the whole and of all its parts.
#[test]
fn least_separations_by_search() {
    let mut searched = Searched::default();
    let mut rises = Rises::default();
    for (a, b) in small_jumpers() {
        let n = a.len();
        for d in -4..=4 {
            let whole = searched.least(&a, &b, d);
            for stays in choices(n) {
                let (part_a, part_b) = rows_kept(&a, &b, &stays);
                assert!(searched.least(&part_a, &part_b, d) <= whole);
            }
            if n > 1 {
                let (part_a, part_b) = rows_kept(&a, &b, &but_last(n));
                rises.note(searched.least(&part_a, &part_b, d), whole);
            }
        }
    }
    rises.enough(20);
}

/// Least and best of the whole against those of a part, by the calls. Where an offset range is
/// given, the part's holds it.
fn part_is_no_higher(a: &[i32], b: &[i32], stays: &[u8], d: i32) {
    let (part_a, part_b) = rows_kept(a, b, stays);
    assert_eq!(accept_rows(&part_a, &part_b), Numbers::default());
    assert!(least(&part_a, &part_b, d).separation <= least(a, b, d).separation);
    let (whole, part) = (best(a, b), best(&part_a, &part_b));
    assert!(part.separation <= whole.separation);
    let part = range(&part_a, &part_b, whole.separation);
    assert!(part.refusal == 0 && part.lowest <= whole.lowest && whole.highest <= part.highest);
}

/// A pair added after the last, by the calls; the numbers inside are those of the ladder.
fn added_last(a: &[i32], b: &[i32], d: i32, least_rises: &mut Rises, best_rises: &mut Rises) {
    let (part_a, part_b) = rows_kept(a, b, &but_last(a.len()));
    let before = least(&part_a, &part_b, d).separation;
    least_rises.note(before, least(a, b, d).separation);
    best_rises.note(best(&part_a, &part_b).separation, best(a, b).separation);
    let inside = |a: &[i32], b: &[i32]| halve(reduced(a), reduced(b)).best();
    assert!(inside(a, b) <= inside(&part_a, &part_b) + 1);
}

#[test]
fn least_and_best_of_every_part() {
    let (mut least_rises, mut best_rises) = (Rises::default(), Rises::default());
    for (a, b) in small_jumpers() {
        for d in -4..=4 {
            for stays in choices(a.len()) {
                part_is_no_higher(&a, &b, &stays, d);
            }
            if a.len() > 1 {
                added_last(&a, &b, d, &mut least_rises, &mut best_rises);
            }
        }
    }
    least_rises.enough(50);
    best_rises.enough(20);
}

#[test]
fn least_and_best_of_random_parts() {
    let mut random = Random::new(71);
    let (mut least_rises, mut best_rises) = (Rises::default(), Rises::default());
    for round in 0..4_000 {
        let most = [3, 6, 20, 60][round % 4];
        let (mut a, mut b) = rows(&mut random, most);
        if round % 8 == 0 {
            // All but the last fit at separation 0.
            let n = a.len();
            a = small_row(&mut random, n, -9, 9);
            b = a.clone();
            b[n - 1] += random.between(0, 2);
        }
        let d = if round % 2 == 0 {
            a[0] - b[0]
        } else {
            offset(&mut random, &a, &b)
        };
        let d = d.clamp(-LAST_OFFSET, LAST_OFFSET);
        for _ in 0..4 {
            let stays = stays(&mut random, a.len());
            part_is_no_higher(&a, &b, &stays, d);
            // At any separation, not the least alone.
            let s = random.below(a.len() + 2);
            let whole = fit(&a, &b, s, d);
            let part = still_fits(&a, &b, &stays, s, d);
            assert!(whole.refusal != 0 || part == whole);
        }
        if a.len() > 1 {
            added_last(&a, &b, d, &mut least_rises, &mut best_rises);
        }
    }
    least_rises.enough(100);
    best_rises.enough(100);
}

/// Pair after pair up to the most there may be.
#[test]
fn long_rows_pair_by_pair() {
    let mut random = Random::new(72);
    for _ in 0..3 {
        let (a, b) = rows_of(&mut random, MOST_PAIRS);
        let d = offset(&mut random, &a, &b).clamp(-LAST_OFFSET, LAST_OFFSET);
        let both = |n: usize| {
            let (a, b) = (&a[..n], &b[..n]);
            [baseline::least(a, b, d), baseline::best(a, b)].map(|answer| answer.separation)
        };
        let (mut least_rises, mut best_rises) = (Rises::default(), Rises::default());
        let mut before = both(1);
        for n in 2..=MOST_PAIRS {
            let after = both(n);
            least_rises.note(before[0], after[0]);
            best_rises.note(before[1], after[1]);
            before = after;
        }
    }
}

/// The rise of two from 0, and 01's trap: a pair that isn't last may cost more than one track.
#[test]
fn worked_parts() {
    let separations = |a: &[i32], b: &[i32]| (least(a, b, 0).separation, best(a, b).separation);
    assert_eq!(separations(&[0], &[0]), (0, 0));
    assert_eq!(separations(&[0, 1], &[0, 2]), (2, 2));
    assert_eq!(separations(&[0, 1, 2], &[0, 2, 4]).0, 3);
    assert_eq!(least(&S.0, &S.1, 0).separation, 5);
    let stays = [1, 1, 0, 1];
    assert_eq!(
        rows_kept(&S.0, &S.1, &stays),
        (vec![0, 1, 3], vec![1, 2, 4])
    );
    assert_eq!(still_fits(&S.0, &S.1, &stays, 3, 0), at_offset(3, 0, 0, 0));
    assert_eq!(
        still_fits(&S.0, &S.1, &stays, 2, 0),
        Numbers::no_fit(0, RIGHT)
    );
    // The witness is told by number of the part: pair 2 of J breaks the rule, pair 1 of those left.
    assert_eq!(fit(&J.0, &J.1, 2, -1), Numbers::no_fit(2, LEFT));
    let answer = still_fits(&J.0, &J.1, &[0, 9, 9, 9], 2, -1);
    assert_eq!(answer, Numbers::no_fit(1, LEFT));
    // J's route at (3, 0) without its second wire, and places beyond.
    let drawn = [0, 0, 0, 1, 1, 1, 2, 2, 4, 4, 3, 3, 5, 5, 5, 4];
    let mut out = [MARK; 14];
    let answer = part_route(&J.0, &J.1, &[1, 0, 255, 7], 3, 0, &drawn, &mut out);
    assert_eq!(answer, Numbers::default());
    assert_eq!(out, [0, 0, 0, 1, 4, 4, 3, 3, 5, 5, 5, 4, MARK, MARK]);
}

/// With every pair kept the calls are the fit call, and the checker with a copy. Which byte keeps a
/// pair doesn't matter.
#[test]
fn all_pairs_kept() {
    let mut random = Random::new(73);
    for _ in 0..3_000 {
        let (a, b) = any_rows(&mut random, 10);
        let s = separation(&mut random, a.len());
        let d = offset(&mut random, &a, &b);
        let all: Vec<u8> = a.iter().map(|_| 1 + random.below(255) as u8).collect();
        assert_eq!(still_fits(&a, &b, &all, s, d), fit(&a, &b, s, d));
        let room = a.len().min(20) * (s.min(30) + 1);
        let mut table = vec![MARK; room];
        draw_all(&a, &b, s, d, &mut table);
        let mut out = vec![MARK; room];
        let answer = part_route(&a, &b, &all, s, d, &table, &mut out);
        assert_eq!(answer, check(&a, &b, s, d, &table));
        let copied = if answer.refusal == 0 {
            table
        } else {
            vec![MARK; room]
        };
        assert_eq!(out, copied);
        let ones: Vec<u8> = stays(&mut random, a.len());
        let others: Vec<u8> = ones.iter().map(|&stay| 255 * (stay != 0) as u8).collect();
        let answer = still_fits(&a, &b, &ones, s, d);
        assert_eq!(answer, still_fits(&a, &b, &others, s, d));
    }
}

/// Every part of a drawn route, and of one that was changed and is still legal, is a route of the
/// rows left. What the checker refuses is refused with its very words, whichever wires stay.
#[test]
fn routes_of_parts() {
    let mut random = Random::new(74);
    let mut seen = Seen::default();
    let mut bare_faults = 0;
    for _ in 0..3_000 {
        let (a, b) = near_rows(&mut random, 5);
        let n = a.len();
        let d = random.between(-8, 8);
        let s = least(&a, &b, d).separation + random.below(3);
        let mut table = vec![0; n * (s + 1)];
        draw_all(&a, &b, s, d, &mut table);
        for _ in 0..random.below(3) {
            change(&mut random, &mut table);
        }
        // What lies beyond the table isn't read.
        table.extend(vec![MARK; random.below(3)]);
        let checked = check(&a, &b, s, d, &table);
        seen.note(checked.refusal == 0);
        for stays in choices(n) {
            let (part_a, part_b) = rows_kept(&a, &b, &stays);
            let need = part_a.len() * (s + 1);
            let mut out = vec![MARK; need + random.below(3)];
            let answer = part_route(&a, &b, &stays, s, d, &table, &mut out);
            assert_eq!(answer, checked);
            let written = if answer.refusal == 0 { need } else { 0 };
            assert!(out[written..].iter().all(|&place| place == MARK));
            if answer.refusal == 0 {
                assert!(legal_table(&part_a, &part_b, s, d, &out));
                assert_eq!(check(&part_a, &part_b, s, d, &out), Numbers::default());
                assert_eq!(still_fits(&a, &b, &stays, s, d), fit(&a, &b, s, d));
                let old: Vec<usize> = (0..n).filter(|&i| stays[i] != 0).collect();
                for (k, i) in old.into_iter().enumerate() {
                    let wire = |from: &[i32], k: usize| from[k * (s + 1)..][..s + 1].to_vec();
                    assert_eq!(wire(&out, k), wire(&table, i));
                }
            } else {
                assert_eq!(answer.refusal, BADWIRE);
                bare_faults += (stays[answer.place] == 0) as usize;
            }
        }
    }
    seen.enough(1_000, 1_000);
    assert!(bare_faults > 1_000, "{bare_faults}");
}

#[test]
fn short_buffers() {
    let mut random = Random::new(75);
    for _ in 0..500 {
        let (a, b) = near_rows(&mut random, 6);
        let d = random.between(-8, 8);
        let s = least(&a, &b, d).separation;
        let mut table = vec![0; a.len() * (s + 1)];
        draw_all(&a, &b, s, d, &mut table);
        let stays = stays(&mut random, a.len());
        let need = kept(&a, &stays).len() * (s + 1);
        // Room for the part is enough, though the whole has no room there.
        let mut out = vec![MARK; need];
        let answer = part_route(&a, &b, &stays, s, d, &table, &mut out);
        assert_eq!(answer, Numbers::default());
        // One place fewer in either, whatever the table holds.
        let last = table.len() - 1;
        for table in [&table[..], &vec![MARK; table.len()]] {
            let mut out = vec![MARK; need - 1];
            let answer = part_route(&a, &b, &stays, s, d, table, &mut out);
            assert_eq!(answer, Numbers::refused(BUFFER));
            assert!(out.iter().all(|&place| place == MARK));
            let mut out = vec![MARK; need + 1];
            let answer = part_route(&a, &b, &stays, s, d, &table[..last], &mut out);
            assert_eq!(answer, Numbers::refused(BUFFER));
            assert!(out.iter().all(|&place| place == MARK));
        }
    }
}

/// Several faults at once: the least number is given, 4 and 5 by place.
#[test]
fn refusals_of_parts_by_number() {
    let long: Vec<i32> = (0..2_049).rev().collect();
    // Both calls, the second with a table of no legal route and no room.
    let both = |a: &[i32], b: &[i32], stays: &[u8], s, d| {
        let answer = still_fits(a, b, stays, s, d);
        assert_eq!(part_route(a, b, stays, s, d, &[7], &mut []), answer);
        answer
    };
    let far = LAST_OFFSET + 1;
    let refused = Numbers::refused;
    // The rows, or the bytes and the rows, or both, with none kept and all else wrong.
    assert_eq!(both(&[5, 5], &[1], &[0, 0], 9_999, far), refused(UNEQUAL));
    assert_eq!(both(&[5, 5], &[1], &[0], 9_999, far), refused(UNEQUAL));
    assert_eq!(both(&[5, 5], &[1, 1], &[0], 9_999, far), refused(UNEQUAL));
    assert_eq!(both(&[5, 5], &[1, 1], &[1; 3], 0, 0), refused(UNEQUAL));
    assert_eq!(both(&[], &[], &[0], 0, 0), refused(UNEQUAL));
    assert_eq!(both(&[], &[1], &[], 0, 0), refused(UNEQUAL));
    assert_eq!(both(&[1], &[1], &[], 0, 0), refused(UNEQUAL));
    assert_eq!(
        both(&long, &long, &[0; 2_048], 9_999, far),
        refused(UNEQUAL)
    );
    // No pairs, or none kept, where the rows are too long or have a bad column too.
    assert_eq!(both(&[], &[], &[], 9_999, far), refused(EMPTY));
    assert_eq!(
        both(&[5, 5], &[1, -70_000], &[0, 0], 9_999, far),
        refused(EMPTY)
    );
    assert_eq!(both(&long, &long, &[0; 2_049], 9_999, far), refused(EMPTY));
    // 3 to 7 are of the whole rows, also where the fault is at a pad left bare.
    let mut one = [0; 2_049];
    one[77] = 1;
    assert_eq!(both(&long, &long, &one, 9_999, far), refused(LONG));
    let at = |refusal, place| Numbers::refused_at(refusal, place, 0);
    let (good, bad) = ([1, 4, 6], [4, 4, -65_536]);
    assert_eq!(both(&bad, &bad, &[1, 0, 0], 9_999, far), at(ORDER, 1));
    assert_eq!(both(&good, &bad, &[1, 0, 0], 9_999, far), at(ORDER, 4));
    let bad = [1, 65_536, 3];
    assert_eq!(both(&good, &bad, &[1, 0, 1], 9_999, far), at(COLUMN, 4));
    assert_eq!(both(&good, &good, &[1, 0, 1], 2_050, far), refused(TRACKS));
    assert_eq!(both(&good, &good, &[1, 0, 1], 2_049, far), refused(OFFSET));
    // From here on the two differ: NOFIT, or BUFFER and then BADWIRE, which is of the whole.
    let fits = |stays: &[u8], s| still_fits(&good, &good, stays, s, 1);
    assert_eq!(fits(&[0, 9, 9], 0), Numbers::no_fit(0, RIGHT));
    assert_eq!(fits(&[0, 9, 9], 2), at_offset(2, 1, 0, 0));
    let route = |table: &[i32], room: usize| {
        let mut out = vec![MARK; room];
        let answer = part_route(&good, &good, &[0, 9, 9], 0, 1, table, &mut out);
        assert_eq!(out, vec![MARK; room]);
        answer
    };
    assert_eq!(route(&[0; 2], 1), refused(BUFFER));
    assert_eq!(route(&[0; 2], 2), refused(BUFFER));
    assert_eq!(route(&[0; 3], 1), refused(BUFFER));
    assert_eq!(route(&[0; 3], 2), at(BADWIRE, 0));
    // A wire left bare that is at fault, and one that is kept: by its number in the old jumper.
    let check_wires = |table: &[i32]| {
        let mut out = [MARK; 4];
        part_route(&good, &good, &[9, 0, 9], 1, 0, table, &mut out)
    };
    assert_eq!(check_wires(&[1, 1, 4, 4, 6, 6]), Numbers::default());
    assert_eq!(check_wires(&[1, 1, 3, 3, 6, 6]), at(BADWIRE, 1));
    assert_eq!(check_wires(&[1, 1, 4, 4, 7, 7]), at(BADWIRE, 2));
}

/// Refusals 1 to 7 on careless input: those of the fit call for the whole, but for 1 and 2.
#[test]
fn careless_parts() {
    let mut random = Random::new(76);
    let mut times = [0; 17];
    for _ in 0..6_000 {
        let (a, b) = any_rows(&mut random, 10);
        let stays = any_stays(&mut random, a.len());
        let s = separation(&mut random, a.len());
        let d = offset(&mut random, &a, &b);
        let answer = still_fits(&a, &b, &stays, s, d);
        times[answer.refusal as usize] += 1;
        let whole = fit(&a, &b, s, d);
        if a.len() != b.len() || a.len() != stays.len() {
            assert_eq!(answer, Numbers::refused(UNEQUAL));
        } else if stays.iter().all(|&stay| stay == 0) {
            assert_eq!(answer, Numbers::refused(EMPTY));
        } else if (1..NOFIT).contains(&whole.refusal) {
            assert_eq!(answer, whole);
        } else {
            let (part_a, part_b) = rows_kept(&a, &b, &stays);
            assert_eq!(answer, fit(&part_a, &part_b, s, d));
        }
        let mut out = vec![MARK; random.below(60)];
        let room = out.len();
        let table = vec![MARK; random.below(60)];
        let routed = part_route(&a, &b, &stays, s, d, &table, &mut out);
        assert_eq!(out, vec![MARK; room]);
        if (1..NOFIT).contains(&answer.refusal) {
            assert_eq!(routed, answer);
        } else {
            let need = kept(&a, &stays).len() * (s + 1);
            let short = room < need || table.len() < a.len() * (s + 1);
            assert_eq!(routed.refusal, if short { BUFFER } else { BADWIRE });
        }
    }
    for refusal in (0..8).chain([NOFIT as usize]) {
        assert!(times[refusal] > 50, "{times:?}");
    }
}
