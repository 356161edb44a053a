//! A small deterministic random generator, and what the tests draw from it: rows of many shapes,
//! damaged rows, separations and offsets at and beyond their limits.

use crate::numbers::*;

/// SplitMix64: the same seed gives the same numbers everywhere.
#[derive(Clone, Debug)]
pub struct Random {
    state: u64,
}

impl Random {
    pub fn new(seed: u64) -> Random {
        Random { state: seed }
    }

    /// The next 64 bits.
    pub fn bits(&mut self) -> u64 {
        self.state = self.state.wrapping_add(0x9E37_79B9_7F4A_7C15);
        let mut z = self.state;
        z = (z ^ (z >> 30)).wrapping_mul(0xBF58_476D_1CE4_E5B9);
        z = (z ^ (z >> 27)).wrapping_mul(0x94D0_49BB_1331_11EB);
        z ^ (z >> 31)
    }

    /// A number from 0 to `limit` - 1. The slight unevenness of the remainder doesn't matter here.
    pub fn below(&mut self, limit: usize) -> usize {
        (self.bits() % limit as u64) as usize
    }

    /// A number from `low` to `high`, both included.
    pub fn between(&mut self, low: i32, high: i32) -> i32 {
        let width = (high as i64 - low as i64 + 1) as u64;
        (low as i64 + (self.bits() % width) as i64) as i32
    }

    /// True once in `times` on the average.
    pub fn once_in(&mut self, times: usize) -> bool {
        self.below(times) == 0
    }

    /// One of the choices.
    pub fn pick<T: Copy>(&mut self, choices: &[T]) -> T {
        choices[self.below(choices.len())]
    }
}

/// The shapes of a row.
#[derive(Clone, Copy, Debug, PartialEq, Eq)]
pub enum Shape {
    /// Every pad next to the one before.
    Packed,
    /// Mostly next to the one before, now and then a small gap.
    Tight,
    /// Gaps of up to about eight.
    Loose,
    /// Packed blocks with wide gaps between.
    Blocks,
    /// Gaps up to as wide as the room allows.
    Wide,
}

/// All shapes.
pub const SHAPES: [Shape; 5] = [
    Shape::Packed,
    Shape::Tight,
    Shape::Loose,
    Shape::Blocks,
    Shape::Wide,
];

/// A row of n columns, accepted for n from 1 to 2,048. It lies right of the datum, left of it or
/// across it, mostly near it, now and then with an end on the first or last column there is.
pub fn row(random: &mut Random, n: usize, shape: Shape) -> Vec<i32> {
    if n == 0 {
        return Vec::new();
    }
    // No gap is wider than this, so that all of them have room.
    let widest = (LAST_COLUMN - FIRST_COLUMN) / (n as i32 - 1).max(1);
    let mut row = vec![0];
    for _ in 1..n {
        let gap = match shape {
            Shape::Packed => 1,
            Shape::Tight => random.pick(&[1, 1, 1, 1, 1, 1, 2, 3]),
            Shape::Loose => random.between(1, 8),
            Shape::Blocks if random.once_in(6) => random.between(2, 60),
            Shape::Blocks => 1,
            Shape::Wide => random.between(1, widest),
        };
        row.push(row[row.len() - 1] + gap.min(widest));
    }
    // Now and then from the first column to the last.
    if n > 1 && matches!(shape, Shape::Wide) && random.once_in(3) {
        row[n - 1] = LAST_COLUMN - FIRST_COLUMN;
    }
    let width = row[n - 1];
    let start = match random.below(9) {
        0 => FIRST_COLUMN,
        1 => LAST_COLUMN - width,
        2 => random.between(FIRST_COLUMN, LAST_COLUMN - width),
        3 | 4 => random.between(0, 12),
        5 | 6 => -width - random.between(0, 12),
        _ => random.between(-2, 2) - row[random.below(n)],
    };
    let start = start.clamp(FIRST_COLUMN, LAST_COLUMN - width);
    row.iter().map(|column| column + start).collect()
}

/// Two accepted rows of one length from 1 to `most`, each of its own random shape; one time in three
/// the top row is the bottom row with single pads moved about, so that small separations occur.
pub fn rows(random: &mut Random, most: usize) -> (Vec<i32>, Vec<i32>) {
    let n = 1 + random.below(most);
    rows_of(random, n)
}

/// The same for a given number of pairs.
pub fn rows_of(random: &mut Random, n: usize) -> (Vec<i32>, Vec<i32>) {
    let shape = random.pick(&SHAPES);
    let a = row(random, n, shape);
    if random.once_in(3) {
        let b = nudged(random, &a);
        return (a, b);
    }
    let shape = random.pick(&SHAPES);
    let b = row(random, n, shape);
    (a, b)
}

/// The row with single pads moved by a column or a few where there is room.
pub fn nudged(random: &mut Random, row: &[i32]) -> Vec<i32> {
    let mut moved = row.to_vec();
    for i in 0..moved.len() {
        let lowest = if i == 0 {
            FIRST_COLUMN
        } else {
            moved[i - 1] + 1
        };
        let highest = if i + 1 == moved.len() {
            LAST_COLUMN
        } else {
            moved[i + 1] - 1
        };
        let to = moved[i] + random.between(-3, 3);
        moved[i] = to.clamp(lowest, highest);
    }
    moved
}

/// Rows 0, 1 .. n-1 and 1, 2 .. n: at offset 0 they need n + 1 tracks, at offset -1 none.
pub fn stairs(n: usize) -> (Vec<i32>, Vec<i32>) {
    ((0..n as i32).collect(), (1..=n as i32).collect())
}

/// The ways to damage two rows.
#[derive(Clone, Copy, Debug, PartialEq, Eq)]
pub enum RowDamage {
    /// A column below -65,535 or above 65,535.
    OutOfRange,
    /// A column not above the one before.
    OutOfOrder,
    /// One row loses or gains pads at its end.
    Unequal,
    /// No pads at all.
    Empty,
    /// 2,049 pads in each row.
    Long,
}

/// All ways.
pub const ROW_DAMAGES: [RowDamage; 5] = [
    RowDamage::OutOfRange,
    RowDamage::OutOfOrder,
    RowDamage::Unequal,
    RowDamage::Empty,
    RowDamage::Long,
];

/// Damages two rows in one way. OutOfOrder needs two pads and does nothing with fewer.
pub fn damage_rows(random: &mut Random, a: &mut Vec<i32>, b: &mut Vec<i32>, how: RowDamage) {
    let top = random.once_in(2);
    let row = if top { &mut *b } else { &mut *a };
    match how {
        RowDamage::OutOfRange => {
            if !row.is_empty() {
                let place = random.below(row.len());
                row[place] = random.pick(&[
                    FIRST_COLUMN - 1,
                    FIRST_COLUMN - 2,
                    LAST_COLUMN + 1,
                    LAST_COLUMN + 2,
                    i32::MIN,
                    i32::MAX,
                ]);
            }
        }
        RowDamage::OutOfOrder => {
            if row.len() > 1 {
                let place = 1 + random.below(row.len() - 1);
                if random.once_in(2) {
                    row[place] = row[place - 1];
                } else {
                    row.swap(place - 1, place);
                }
            }
        }
        RowDamage::Unequal => {
            if random.once_in(2) && !row.is_empty() {
                let long = random.below(row.len());
                row.truncate(long);
            } else {
                let next = row.last().map_or(0, |last| last.saturating_add(1));
                row.push(next);
            }
        }
        RowDamage::Empty => {
            a.clear();
            b.clear();
        }
        RowDamage::Long => {
            *a = (0..MOST_PAIRS as i32 + 1).collect();
            *b = (5..MOST_PAIRS as i32 + 6).collect();
        }
    }
}

/// Rows as a careless caller might hand them in: mostly accepted, one time in three damaged in one
/// or two ways.
pub fn any_rows(random: &mut Random, most: usize) -> (Vec<i32>, Vec<i32>) {
    let (mut a, mut b) = rows(random, most);
    if random.once_in(3) {
        for _ in 0..1 + random.below(2) {
            let how = random.pick(&ROW_DAMAGES);
            damage_rows(random, &mut a, &mut b, how);
        }
    }
    (a, b)
}

/// Which of n pairs stay, a byte each: 0 dropped, anything else kept. At least one stays if there is
/// one; often all but one, one alone, all but a stretch, or all.
pub fn stays(random: &mut Random, n: usize) -> Vec<u8> {
    if n == 0 {
        return Vec::new();
    }
    let (one, other) = (random.below(n), random.below(n));
    let (first, last) = (one.min(other), one.max(other));
    let shape = random.below(8);
    let odds = 1 + random.below(4);
    let mut stays: Vec<u8> = (0..n)
        .map(|i| {
            let stay = match shape {
                0 => i != one,
                1 => i == one,
                2 => i < first || i > last,
                3 => true,
                4 => i + 1 < n,
                _ => random.below(5) >= odds,
            };
            if stay {
                random.pick(&[1, 1, 2, 127, 128, 255])
            } else {
                0
            }
        })
        .collect();
    if stays.iter().all(|&stay| stay == 0) {
        stays[other] = 1;
    }
    stays
}

/// The same as a careless caller might hand it in: now and then of another length or with none kept.
pub fn any_stays(random: &mut Random, n: usize) -> Vec<u8> {
    match random.below(16) {
        0 => stays(random, n + 1),
        1 => stays(random, n.saturating_sub(1)),
        2 => vec![0; n],
        3 => vec![0; n + 1],
        _ => stays(random, n),
    }
}

/// A separation: mostly up to a little over n, often at one of the ends of what the rows may need,
/// now and then at and beyond the limit.
pub fn separation(random: &mut Random, n: usize) -> usize {
    match random.below(10) {
        0 => random.pick(&[0, 1]),
        1 => random.pick(&[MOST_TRACKS - 1, MOST_TRACKS]),
        2 => random.pick(&[MOST_TRACKS + 1, MOST_TRACKS + 2, 65_534, 65_536, usize::MAX]),
        3 => random.pick(&[n, n + 1]),
        _ => random.below(n + 3),
    }
}

/// An offset: mostly where some pair of these rows just fits or just doesn't, now and then at and
/// beyond the limits.
pub fn offset(random: &mut Random, a: &[i32], b: &[i32]) -> i32 {
    let n = a.len().min(b.len());
    match random.below(12) {
        0 => 0,
        1 => random.pick(&[-LAST_OFFSET, 1 - LAST_OFFSET, LAST_OFFSET - 1, LAST_OFFSET]),
        2 => random.pick(&[
            -LAST_OFFSET - 1,
            LAST_OFFSET + 1,
            i32::MIN,
            i32::MIN + 1,
            i32::MAX,
        ]),
        3 => random.between(-LAST_OFFSET, LAST_OFFSET),
        4 => random.between(-8, 8),
        _ if n == 0 => 0,
        _ => {
            let i = random.below(n);
            let j = random.below(n);
            let by_bound = (a[i] as i64 - i as i64) - (b[j] as i64 - j as i64);
            let near = by_bound + random.between(-1, 1) as i64;
            near.clamp(-140_000, 140_000) as i32
        }
    }
}
