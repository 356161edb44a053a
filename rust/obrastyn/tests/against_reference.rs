//! The proved library against the reference, which was written from documents 01 and 02 (docs/DECISIONS.md, 45): random rows and tables, small and at
//! the limits, valid and damaged. Lent buffers stand between sentinels, and what lies beyond must be untouched.
use obrastyn::{Numbers, MOST_TRACKS};
use reference::random::{any_rows, any_stays, offset, rows, separation, Random};
use reference::{halving, parts, rule, wires};

fn same(theirs: reference::numbers::Numbers) -> Numbers {
    Numbers {
        refusal: theirs.refusal,
        place: theirs.place,
        second: theirs.second,
        separation: theirs.separation,
        lowest: theirs.lowest,
        highest: theirs.highest,
        pair: theirs.pair,
        side: theirs.side,
        count: theirs.count,
    }
}

/// The reference fills in what was asked; a call alone tells only what it found (docs/DECISIONS.md, 3).
fn told(theirs: reference::numbers::Numbers, separation: bool, offsets: bool) -> Numbers {
    let mut k = same(theirs);
    if !separation {
        k.separation = 0;
    }
    if !offsets {
        (k.lowest, k.highest) = (0, 0);
    }
    k
}

const SENTINEL: i32 = 0x5EA1;

fn calls(random: &mut Random, most: usize, rounds: usize) {
    for round in 0..rounds {
        let (a, b) = any_rows(random, most);
        let s = separation(random, a.len());
        let d = offset(random, &a, &b);
        let what = || format!("round {round}: {a:?} {b:?} s {s} d {d}");
        assert_eq!(obrastyn::rows(&a, &b), same(reference::rows::accept_rows(&a, &b)), "rows, {}", what());
        assert_eq!(obrastyn::fit(&a, &b, s, d), told(rule::fit(&a, &b, s, d), false, false), "fit, {}", what());
        assert_eq!(obrastyn::least(&a, &b, d), told(rule::least(&a, &b, d), true, false), "least, {}", what());
        assert_eq!(obrastyn::range(&a, &b, s), told(rule::range(&a, &b, s), false, true), "range, {}", what());
        let part = rule::stretch_part(&a, &b, s, d);
        let ours = obrastyn::stretch(&a, &b, s, d);
        assert!(ours == part && (part.is_empty() || ours.as_ptr() == part.as_ptr()), "stretch, {}", what());
        let room = random.below(30);
        let mut ours = vec![77usize; room];
        let mut theirs = ours.clone();
        assert_eq!(obrastyn::best(&a, &b, &mut ours), same(halving::best_with_ladder(&a, &b, &mut theirs)), "best, {}", what());
        assert_eq!(ours, theirs, "ladder, {}", what());
    }
}

#[test]
fn small_rows() {
    calls(&mut Random::new(1), 9, 400_000);
}

#[test]
fn middling_rows() {
    calls(&mut Random::new(2), 90, 12_000);
}

#[test]
fn rows_at_the_limits() {
    calls(&mut Random::new(3), 2049, 150);
}

/// Draws one wire and all wires into buffers that may be too short, and looks at every place.
fn drawings(random: &mut Random, most: usize, rounds: usize) {
    for round in 0..rounds {
        let (a, b) = any_rows(random, most);
        let d = offset(random, &a, &b);
        let s = match random.below(3) {
            0 => separation(random, a.len()).min(MOST_TRACKS + 1),
            _ => rule::least(&a, &b, d).separation + random.below(2),
        };
        let what = || format!("round {round}: {a:?} {b:?} s {s} d {d}");
        let room = (a.len() * (s + 1)).min(40_000) + random.below(5);
        let room = room.saturating_sub(if random.once_in(6) { 3 } else { 0 });
        let mut ours = vec![SENTINEL; room];
        let mut theirs = ours.clone();
        assert_eq!(obrastyn::draw_all(&a, &b, s, d, &mut ours), told(wires::draw_all(&a, &b, s, d, &mut theirs), true, true), "draw all, {}", what());
        assert_eq!(ours, theirs, "all places, {}", what());
        let wire = random.below(a.len() + 2);
        let room = (s + 1 + random.below(4)).saturating_sub(if random.once_in(6) { 2 } else { 0 });
        let mut ours = vec![SENTINEL; room.min(5000)];
        let mut theirs = ours.clone();
        let drawn = obrastyn::draw_wire(&a, &b, s, d, wire, &mut ours);
        assert_eq!(drawn, told(wires::draw_wire(&a, &b, s, d, wire, &mut theirs), true, true), "draw wire {wire}, {}", what());
        assert_eq!(ours, theirs, "a wire's places, {}", what());
    }
}

#[test]
fn small_drawings() {
    drawings(&mut Random::new(4), 8, 150_000);
}

#[test]
fn larger_drawings() {
    drawings(&mut Random::new(5), 60, 3_000);
}

/// A table damaged at a few places, with columns far out too.
fn damage(random: &mut Random, table: &mut [i32]) {
    for _ in 0..1 + random.below(3) {
        let at = random.below(table.len());
        table[at] = match random.below(6) {
            0 => i32::MIN,
            1 => i32::MAX,
            _ => table[at].wrapping_add(random.between(-2, 2)),
        };
    }
}

/// Tables that were drawn, drawn and then damaged, and made up.
fn tables(random: &mut Random, most: usize, rounds: usize) {
    for round in 0..rounds {
        let (a, b) = if random.once_in(12) { any_rows(random, most) } else { rows(random, most) };
        let d = offset(random, &a, &b);
        let least = rule::least(&a, &b, d).separation;
        let s = if random.once_in(20) { separation(random, a.len()).min(MOST_TRACKS + 1) } else { least + random.below(2) };
        let places = (a.len() * (s + 1)).min(40_000);
        let mut table = vec![0; places + random.below(3)];
        wires::draw_all(&a, &b, s, d, &mut table);
        if !table.is_empty() && !random.once_in(4) {
            damage(random, &mut table);
        }
        if random.once_in(30) {
            table.pop();
        }
        let what = || format!("round {round}: {a:?} {b:?} s {s} d {d} {table:?}");
        let ours = obrastyn::check(&a, &b, s, d, &table);
        assert_eq!(ours, told(wires::check(&a, &b, s, d, &table), true, true), "check, {}", what());
        if round % 16 == 0 && (ours.refusal == 0 || ours.refusal == 16) && s < 6 && table.iter().all(|x| x.unsigned_abs() < 300) {
            assert_eq!(ours.refusal == 0, wires::legal_table(&a, &b, s, d, &table), "legal by grid points, {}", what());
        }
    }
}

#[test]
fn small_tables() {
    tables(&mut Random::new(6), 7, 600_000);
}

#[test]
fn larger_tables() {
    tables(&mut Random::new(7), 60, 5_000);
}

/// Parts of jumpers: bytes of another length, none that stays, tables that are damaged or too short, buffers that are too short.
/// Tells how often each refusal was seen.
fn some_parts(random: &mut Random, most: usize, rounds: usize) -> [usize; 17] {
    let mut seen = [0; 17];
    for round in 0..rounds {
        let (a, b) = if random.once_in(8) { any_rows(random, most) } else { rows(random, most) };
        let stays = any_stays(random, a.len());
        let d = offset(random, &a, &b);
        let s = match random.below(4) {
            0 => separation(random, a.len()).min(MOST_TRACKS + 1),
            _ => (rule::least(&a, &b, d).separation + random.below(2)).saturating_sub(random.below(3)),
        };
        let what = || format!("round {round}: {a:?} {b:?} stays {stays:?} s {s} d {d}");
        let still = obrastyn::still_fits(&a, &b, &stays, s, d);
        assert_eq!(still, told(parts::still_fits(&a, &b, &stays, s, d), false, false), "still fits, {}", what());
        let mut table = vec![0; (a.len() * (s + 1)).min(40_000) + random.below(3)];
        wires::draw_all(&a, &b, s, d, &mut table);
        if !table.is_empty() && random.once_in(3) {
            damage(random, &mut table);
        }
        if random.once_in(30) {
            table.pop();
        }
        let left = stays.iter().filter(|&&byte| byte != 0).count();
        let room = ((left * (s + 1)).min(40_000) + random.below(4)).saturating_sub(if random.once_in(6) { 3 } else { 0 });
        let mut ours = vec![SENTINEL; room];
        let mut theirs = ours.clone();
        let routed = obrastyn::part_route(&a, &b, &stays, s, d, &table, &mut ours);
        assert_eq!(routed, told(parts::part_route(&a, &b, &stays, s, d, &table, &mut theirs), true, true), "route, {} {table:?}", what());
        assert_eq!(ours, theirs, "places, {} {table:?}", what());
        seen[usize::from(still.refusal)] += 1;
        seen[usize::from(routed.refusal)] += 1;
    }
    seen
}

/// All that either call can say, but for LONG, which only the longest rows earn.
fn all_seen(seen: [usize; 17]) {
    assert!([0, 1, 2, 4, 5, 6, 7, 9, 10, 16].iter().all(|&refusal| seen[refusal] > 0), "{seen:?}");
}

#[test]
fn small_parts() {
    all_seen(some_parts(&mut Random::new(9), 7, 300_000));
}

#[test]
fn larger_parts() {
    all_seen(some_parts(&mut Random::new(10), 60, 8_000));
}

#[test]
fn parts_at_the_limits() {
    let seen = some_parts(&mut Random::new(11), 2049, 60);
    assert!(seen[0] > 0 && seen[10] > 0, "{seen:?}");
}

/// A form over shared pools: lines that overlap, lines with damaged starts, counts and wishes, too many lines.
#[test]
fn forms() {
    use reference::form::{answer_form, answer_line, Record, Wish};
    let mut random = Random::new(8);
    for round in 0..20_000 {
        let (a, b) = any_rows(&mut random, 60);
        let lines = if random.once_in(50) { 65 } else { random.below(7) };
        let (mut ours, mut theirs) = (Vec::new(), Vec::new());
        for _ in 0..lines {
            let count = if random.once_in(20) { usize::MAX } else { random.below(a.len() + 3) };
            let (i, j) = if random.once_in(20) { (usize::MAX - 1, 1) } else { (random.below(a.len() + 2), random.below(b.len() + 2)) };
            let (i, j) = if random.once_in(2) { (0, 0) } else { (i, j) };
            let s = if random.once_in(2) { obrastyn::LEAST } else { separation(&mut random, a.len()).min(70_000) as u32 };
            let d = if random.once_in(2) { obrastyn::BEST } else { offset(&mut random, &a, &b) };
            let wish = Wish { separation: (s != obrastyn::LEAST).then_some(s as usize), offset: (d != obrastyn::BEST).then_some(d) };
            let order = obrastyn::Order { bottom: i, top: j, pairs: count, separation: s, offset: d };
            ours.push(obrastyn::Line { order, answer: Numbers { refusal: 99, ..Numbers::default() } });
            theirs.push(Record { bottom_start: i, top_start: j, count, wish, answer: reference::numbers::Numbers { refusal: 99, ..Default::default() } });
        }
        let k = random.below(lines + 2);
        let before = ours.clone();
        assert_eq!(obrastyn::answer_line(&mut ours, k, &a, &b), if lines > 64 || k >= lines { 12 } else { 0 }, "round {round}");
        answer_line(&mut theirs, k, &a, &b);
        for (i, (x, y)) in ours.iter().zip(&theirs).enumerate() {
            assert_eq!(x.answer, same(y.answer), "round {round}, line {i} after line {k}: {x:?}");
            assert_eq!(x.order, before[i].order, "round {round}, line {i}: only the answer is written");
        }
        assert_eq!(obrastyn::answer_all(&mut ours, &a, &b), if lines > 64 { 12 } else { 0 }, "round {round}");
        answer_form(&mut theirs, &a, &b);
        for (i, (x, y)) in ours.iter().zip(&theirs).enumerate() {
            assert_eq!(x.answer, same(y.answer), "round {round}, line {i}: {x:?}");
            if lines <= 64 {
                assert_eq!(obrastyn::answer(before[i], &a, &b), *x, "round {round}, line {i} by value");
            }
        }
    }
}
