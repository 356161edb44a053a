//! What is accepted, at each limit and one past it (02, #105 and #106), and the jumper worked out by hand at the head of crates/jumper/specs/Limits.antt.
use obrastyn::*;

/// The header's numbers are the wrapper's.
#[test]
fn header() {
    let header = include_str!("../../include/obrastyn.h");
    let columns = [("FIRST_COLUMN", FIRST_COLUMN), ("LAST_COLUMN", LAST_COLUMN)];
    let offsets = [("LOWEST_OFFSET", LOWEST_OFFSET), ("HIGHEST_OFFSET", HIGHEST_OFFSET)];
    for (name, limit) in columns.into_iter().chain(offsets).chain([("MOST_TRACKS", MOST_TRACKS as i32)]) {
        let written = if limit < 0 { format!("({limit})") } else { format!("{limit}") };
        let line = format!("#define OBRASTYN_{name} {written}");
        assert!(header.lines().any(|found| found == line), "{line}");
    }
}

/// Either limit passes in either row; one past it is COLUMN with its place, in a row of its own and as a fault beside others.
#[test]
fn columns() {
    for column in [FIRST_COLUMN, -1, 0, 1, LAST_COLUMN] {
        assert_eq!((rows(&[column], &[0]).refusal, rows(&[0], &[column]).refusal), (0, 0));
    }
    for column in [FIRST_COLUMN - 1, LAST_COLUMN + 1, i32::MIN, i32::MAX] {
        let refused = |place| Numbers { refusal: 4, place, ..Numbers::default() };
        assert_eq!((rows(&[column], &[0]), rows(&[0], &[column])), (refused(0), refused(1)));
        assert_eq!((rows(&[0, column], &[0, 1]), rows(&[0, 1], &[0, column])), (refused(1), refused(3)));
    }
    assert_eq!(rows(&[FIRST_COLUMN, FIRST_COLUMN], &[0, 1]), Numbers { refusal: 5, place: 1, ..Numbers::default() });
}

/// Either limit passes; one past it is OFFSET, in every call that takes one, and the stretch at fault is empty then.
#[test]
fn offsets() {
    let (a, b) = ([-3, 4], [-5, 6]);
    let calls = |d| {
        let mut table = [0; 8];
        let one = draw_wire(&a, &b, 3, d, 1, &mut table[..4]).refusal;
        let all = draw_all(&a, &b, 3, d, &mut table).refusal;
        let order = Order { pairs: 2, separation: LEAST, offset: d, ..Order::default() };
        let mut line = [Line { order, ..Line::default() }];
        let answered = answer(line[0], &a, &b).answer.refusal;
        assert_eq!((answer_line(&mut line, 0, &a, &b), line[0].answer.refusal), (0, answered));
        assert!(stretch(&a, &b, 3, d).is_empty());
        [fit(&a, &b, 3, d).refusal, least(&a, &b, d).refusal, one, all, check(&a, &b, 3, d, &table).refusal, answered]
    };
    for d in [LOWEST_OFFSET, HIGHEST_OFFSET] {
        assert_eq!(calls(d), [0; 6]);
    }
    for d in [LOWEST_OFFSET - 1, HIGHEST_OFFSET + 1, i32::MIN + 1, i32::MAX] {
        assert_eq!(calls(d), [7; 6]);
    }
    // the mark of a record is no offset for a call
    assert_eq!((fit(&a, &b, 2, BEST).refusal, least(&a, &b, BEST).refusal), (7, 7));
}

/// The greatest separation passes; one more is TRACKS, in every call that takes one, and the stretch at fault is empty then.
#[test]
fn separations() {
    let (a, b) = ([-3, 4], [-5, 6]);
    let calls = |s: usize| {
        let mut table = vec![0; 2 * (MOST_TRACKS + 2)];
        let one = draw_wire(&a, &b, s, 0, 1, &mut table).refusal;
        let all = draw_all(&a, &b, s, 0, &mut table).refusal;
        let order = Order { pairs: 2, separation: s.min(LEAST as usize - 1) as u32, offset: BEST, ..Order::default() };
        let answered = answer(Line { order, ..Line::default() }, &a, &b).answer.refusal;
        assert!(stretch(&a, &b, s, 0).is_empty());
        [fit(&a, &b, s, 0).refusal, range(&a, &b, s).refusal, one, all, check(&a, &b, s, 0, &table).refusal, answered]
    };
    assert_eq!((calls(MOST_TRACKS - 1), calls(MOST_TRACKS)), ([0; 6], [0; 6]));
    for s in [MOST_TRACKS + 1, 65_535, usize::MAX] {
        assert_eq!(calls(s), [6; 6]);
    }
}

/// Three pads around a centre pin.
#[test]
fn around_a_centre_pin() {
    let (a, b) = ([-1, 0, 1], [-2, 0, 2]);
    for none in [range(&a, &b, 0), range(&a, &b, 1)] {
        assert_eq!((none.refusal, none.place, none.second), (11, 0, 2));
    }
    let offsets = |s| (range(&a, &b, s).lowest, range(&a, &b, s).highest);
    assert_eq!((offsets(2), offsets(3), offsets(4)), ((0, 0), (-1, 1), (LOWEST_OFFSET, HIGHEST_OFFSET)));
    let mut ladder = [99; 7];
    let found = best(&a, &b, &mut ladder);
    assert_eq!((found.separation, found.lowest, found.highest, found.count), (2, 0, 0, 8));
    assert_eq!(ladder, [3, 1, 2, 1, 1, 0, 99]);
    let mut table = [99; 9];
    assert_eq!(draw_all(&a, &b, 2, 0, &mut table).refusal, 0);
    assert_eq!(table, [-1, -1, -2, 0, 0, 0, 1, 1, 2]);
}

/// The widest jumper at the lowest and at the highest offset, drawn and found legal: its wires reach columns -196,605 and 196,605. Ends of a range at n
/// tracks and fewer need no clipping.
#[test]
fn farthest_wires() {
    let row = [FIRST_COLUMN, LAST_COLUMN];
    assert_eq!((range(&row, &row, 2).lowest, range(&row, &row, 2).highest), (LOWEST_OFFSET + 1, HIGHEST_OFFSET - 1));
    for (d, first, last) in [(LOWEST_OFFSET, -196_605, -65_535), (HIGHEST_OFFSET, 65_535, 196_605)] {
        let mut table = [0; 8];
        assert_eq!(draw_all(&row, &row, 3, d, &mut table).refusal, 0);
        assert_eq!((table[3], table[7]), (first, last));
        assert_eq!(check(&row, &row, 3, d, &table).refusal, 0);
    }
}

/// A jumper moved along, both rows alike, has the same answers, its route moved with it: left of the datum, across it and right of it.
#[test]
fn moved_along() {
    use reference::random::{offset, rows_of, separation, Random};
    let mut random = Random::new(105);
    for round in 0..20_000 {
        let n = 1 + random.below(12);
        let (a, b) = rows_of(&mut random, n);
        let (s, d) = (separation(&mut random, n), offset(&mut random, &a, &b));
        let room_left = a[0].min(b[0]) - FIRST_COLUMN;
        let room_right = LAST_COLUMN - a[n - 1].max(b[n - 1]);
        let by = random.between(-room_left, room_right);
        let moved = |row: &[i32]| row.iter().map(|column| column + by).collect::<Vec<i32>>();
        let (p, q) = (moved(&a), moved(&b));
        let what = || format!("round {round}: {a:?} {b:?} s {s} d {d} by {by}");
        assert_eq!(fit(&a, &b, s, d), fit(&p, &q, s, d), "fit, {}", what());
        assert_eq!(least(&a, &b, d), least(&p, &q, d), "least, {}", what());
        assert_eq!(range(&a, &b, s), range(&p, &q, s), "range, {}", what());
        assert_eq!(best(&a, &b, &mut [0; 24]), best(&p, &q, &mut [0; 24]), "best, {}", what());
        let (mut here, mut there) = (vec![0; n * 20], vec![0; n * 20]);
        let drawn = draw_all(&a, &b, s, d, &mut here);
        assert_eq!(drawn, draw_all(&p, &q, s, d, &mut there), "draw, {}", what());
        if drawn.refusal == 0 {
            let route = ..n * (s + 1);
            assert_eq!(moved(&here[route]), &there[route], "route, {}", what());
            assert_eq!(check(&p, &q, s, d, &there).refusal, 0, "check, {}", what());
        }
    }
}
