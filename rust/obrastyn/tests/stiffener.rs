//! Wires beside the lower stiffener (02, #106): the jumper worked out by hand at the heads of crates/wiring/specs/Wiring.antt and crates/route/specs/Check.antt,
//! what the change says of every jumper, and the largest table there is.
use obrastyn::*;
use reference::random::{offset, rows, Random};

/// Rows 0,1 and 1,2 at offset 0 need three tracks, and are drawn so that no wire steps aside on track 0.
#[test]
fn three_tracks() {
    let (a, b) = ([0, 1], [1, 2]);
    assert_eq!(least(&a, &b, 0), Numbers { separation: 3, pair: 0, side: 1, ..Numbers::default() });
    let misfit = Numbers { refusal: 10, pair: 0, side: 1, ..Numbers::default() };
    assert_eq!((fit(&a, &b, 0, 0), fit(&a, &b, 1, 0), fit(&a, &b, 2, 0)), (misfit, misfit, misfit));
    assert_eq!((stretch(&a, &b, 0, 0), stretch(&a, &b, 1, 0), stretch(&a, &b, 2, 0)), (&[0][..], &[0][..], &[0, 1][..]));
    let mut table = [99; 8];
    assert_eq!(draw_all(&a, &b, 3, 0, &mut table).refusal, 0);
    assert_eq!(table, [0, 0, 0, 1, 1, 1, 2, 2]);
    let fault = |place| Numbers { refusal: 16, place, ..Numbers::default() };
    assert_eq!(check(&a, &b, 3, 0, &table).refusal, 0);
    assert_eq!(check(&a, &b, 3, 0, &[0, 0, 0, 1, 1, 2, 2, 2]), fault(1));
    assert_eq!(check(&a, &b, 3, 0, &[0, 0, 0, 1, 1, 0, 2, 2]), fault(0));
}

/// Separations 0 and 1 fit alike, no least or best separation is 1, all offsets fit exactly at separations above n, and one track more never hurts.
#[test]
fn every_jumper() {
    let mut random = Random::new(106);
    for round in 0..40_000 {
        let (a, b) = rows(&mut random, 12);
        let (n, d) = (a.len(), offset(&mut random, &a, &b).clamp(LOWEST_OFFSET, HIGHEST_OFFSET));
        let what = || format!("round {round}: {a:?} {b:?} d {d}");
        assert_eq!(fit(&a, &b, 0, d), fit(&a, &b, 1, d), "fit, {}", what());
        assert_eq!(range(&a, &b, 0), range(&a, &b, 1), "range, {}", what());
        assert_eq!(stretch(&a, &b, 0, d), stretch(&a, &b, 1, d), "stretch, {}", what());
        let mut ladder = [0; 24];
        let (needed, found) = (least(&a, &b, d).separation, best(&a, &b, &mut ladder).separation);
        assert!(needed != 1 && found != 1 && found <= needed && needed <= n + 1 && found <= n / 2 + 1, "{}", what());
        assert_eq!(ladder[1], found.saturating_sub(1), "ladder, {}", what());
        for s in 0..n + 3 {
            assert_eq!(fit(&a, &b, s, d).refusal == 0, s >= needed, "at {s}, {}", what());
            let told = range(&a, &b, s);
            let whole = told.refusal == 0 && (told.lowest, told.highest) == (LOWEST_OFFSET, HIGHEST_OFFSET);
            assert_eq!(whole, s > n, "every offset at {s}, {}", what());
        }
    }
}

/// A route that we draw goes straight up from every pad; with a wire of it moved aside on track 0 that wire is at fault there, or the one before it if they meet.
#[test]
fn stepping_aside() {
    let mut random = Random::new(1060);
    for round in 0..40_000 {
        let (a, b) = rows(&mut random, 9);
        let d = offset(&mut random, &a, &b).clamp(LOWEST_OFFSET, HIGHEST_OFFSET);
        let s = least(&a, &b, d).separation.max(1) + random.below(2);
        let mut table = vec![0; a.len() * (s + 1)];
        assert_eq!(draw_all(&a, &b, s, d, &mut table).refusal, 0);
        assert!(table.chunks(s + 1).zip(&a).all(|(wire, pad)| wire[0] == *pad && wire[1] == *pad));
        let wire = random.below(a.len());
        let by = [-2, -1, 1, 2][random.below(4)];
        table[wire * (s + 1) + 1] += by;
        let told = check(&a, &b, s, d, &table);
        let meets = by < 0 && wire > 0 && table[wire * (s + 1) + 1] <= a[wire - 1];
        assert_eq!((told.refusal, told.place, told.second), (16, wire - meets as usize, 0), "round {round}: {a:?} {b:?} d {d} {table:?}");
    }
}

/// 2,048 pairs at 2,049 tracks, the most that any rows need: a table of 2,048 by 2,050 places, drawn and checked; and not one track fewer.
#[test]
fn largest_table() {
    let row: Vec<i32> = (0..2048).collect();
    let s = least(&row, &row, 1).separation;
    assert_eq!((s, fit(&row, &row, s - 1, 1).refusal), (MOST_TRACKS, 10));
    assert_eq!(stretch(&row, &row, s - 1, 1).len(), 2048);
    let mut table = vec![99; 2048 * 2050 + 1];
    assert_eq!(draw_all(&row, &row, s, 1, &mut table[..2048 * 2050 - 1]).refusal, 9);
    assert!(table.iter().all(|&place| place == 99));
    assert_eq!(draw_all(&row, &row, s, 1, &mut table).refusal, 0);
    for (i, wire) in table[..2048 * 2050].chunks(2050).enumerate() {
        let turn = 2048 - i;
        assert!(wire.iter().enumerate().all(|(t, &column)| column == i as i32 + (t > turn) as i32), "wire {i}");
    }
    assert_eq!(table[2048 * 2050], 99);
    assert_eq!(check(&row, &row, s, 1, &table).refusal, 0);
    table[2047 * 2050 + 1] += 1;
    let told = check(&row, &row, s, 1, &table);
    assert_eq!((told.refusal, told.place, told.second), (16, 2047, 0));
}
