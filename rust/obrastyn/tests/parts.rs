//! A catalog keeper's day (02, #113): a jumper is planned and drawn once; later it is ordered with some pads bare, and served from the old record.
use obrastyn::Numbers;
use reference::random::{rows, stays, Random};

/// The entries that stay.
fn left(row: &[i32], stays: &[u8]) -> Vec<i32> {
    row.iter().zip(stays).filter(|(_, &byte)| byte != 0).map(|(&x, _)| x).collect()
}

/// What a catalog keeps: the best separation, an offset that will do, and the route.
fn record(a: &[i32], b: &[i32]) -> (Numbers, Vec<i32>) {
    let best = obrastyn::best(a, b, &mut [0; 24]);
    let mut table = vec![0; a.len() * (best.separation + 1)];
    assert_eq!(obrastyn::draw_all(a, b, best.separation, best.lowest, &mut table).refusal, 0);
    (best, table)
}

#[test]
fn served_from_the_old_record() {
    let mut random = Random::new(113);
    for most in [3, 12, 90, 700] {
        for _ in 0..300 {
            let (a, b) = rows(&mut random, most);
            let (best, table) = record(&a, &b);
            let (s, d) = (best.separation, best.lowest);
            let stays = stays(&mut random, a.len());
            let (la, lb) = (left(&a, &stays), left(&b, &stays));
            assert_eq!(obrastyn::still_fits(&a, &b, &stays, s, d), Numbers::default(), "{a:?} {b:?} {stays:?}");
            let mut route = vec![0; la.len() * (s + 1)];
            assert_eq!(obrastyn::part_route(&a, &b, &stays, s, d, &table, &mut route), Numbers::default(), "{a:?} {b:?} {stays:?}");
            assert_eq!(obrastyn::check(&la, &lb, s, d, &route), Numbers::default(), "{a:?} {b:?} {stays:?}");
            // and a plan of its own wouldn't need more
            assert!(obrastyn::best(&la, &lb, &mut [0; 24]).separation <= s, "{a:?} {b:?} {stays:?}");
            assert!(obrastyn::least(&la, &lb, d).separation <= obrastyn::least(&a, &b, d).separation, "{a:?} {b:?} {stays:?}");
        }
    }
}

/// "a pair added after the last raises each .. by at most two", and by two from 0 only.
#[test]
fn a_pair_more() {
    let mut random = Random::new(114);
    let mut twice = [0; 2];
    for _ in 0..2000 {
        let (a, b) = rows(&mut random, 40);
        let d = a[0] - b[0];
        let mut before = [0; 2];
        for n in 1..=a.len() {
            let (a, b) = (&a[..n], &b[..n]);
            let after = [obrastyn::best(a, b, &mut [0; 24]).separation, obrastyn::least(a, b, d).separation];
            for (k, (before, after)) in before.into_iter().zip(after).enumerate() {
                assert!(before <= after && after <= before + if before == 0 { 2 } else { 1 }, "{a:?} {b:?} {d}");
                twice[k] += usize::from(after == before + 2);
            }
            before = after;
        }
    }
    assert!(twice[0] > 0 && twice[1] > 0);
}

/// The largest table, 2,048 by 2,050 places, without every other wire: a place too few, and with one to spare.
#[test]
fn the_largest_table() {
    let a: Vec<i32> = (0..2048).collect();
    let (s, n) = (obrastyn::MOST_TRACKS, a.len());
    let b: Vec<i32> = a.iter().map(|x| x + 9).collect();
    let mut table = vec![0; n * (s + 1)];
    assert_eq!(obrastyn::draw_all(&a, &b, s, 0, &mut table), Numbers::default());
    let stays: Vec<u8> = (0..n).map(|k| [0, 255][k % 2]).collect();
    let places = n / 2 * (s + 1);
    let mut out = vec![-7; places + 1];
    assert_eq!(obrastyn::part_route(&a, &b, &stays, s, 0, &table, &mut out[..places - 1]).refusal, 9);
    assert!(out.iter().all(|&x| x == -7));
    assert_eq!(obrastyn::part_route(&a, &b, &stays, s, 0, &table, &mut out), Numbers::default());
    assert_eq!(out[places], -7);
    assert!(out.chunks_exact(s + 1).zip(table.chunks_exact(s + 1).skip(1).step_by(2)).all(|(new, old)| new == old));
    assert_eq!(obrastyn::check(&left(&a, &stays), &left(&b, &stays), s, 0, &out), Numbers::default());
}
