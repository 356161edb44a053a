//! Best separation: by trial from 0 upwards, and by the halving rule with its ladder and count.
//!
//! The halving works with numbers at which the rule is read (r here, see [`crate::rule::rule_at`]) at
//! every level, the topmost too, and its ladder and its count are in these numbers. Only the answer
//! of the best call is a separation.

use crate::numbers::*;
use crate::rows::check_rows;
use crate::rule::{offsets, reduced, rule_at, tracks_for};

/// The best separation and its offsets by trying s = 0, 1, 2 .. until some offset fits. Needs
/// accepted rows.
pub fn best_by_trial(a: &[i32], b: &[i32]) -> (usize, Range) {
    let (x, y) = (reduced(a), reduced(b));
    let mut s = 0;
    while offsets(&x, &y, rule_at(s)).is_empty() {
        s += 1;
    }
    (s, offsets(&x, &y, rule_at(s)))
}

/// What the halving rule gives: for each level from n down to 1 its size and its best number (the
/// least r with a nonempty range), and how many differences all trials at all levels read.
#[derive(Clone, Debug, PartialEq, Eq)]
pub struct Halved {
    pub ladder: Vec<(usize, usize)>,
    pub count: usize,
}

impl Halved {
    /// The best number of the topmost level.
    pub fn best(&self) -> usize {
        self.ladder[0].1
    }
}

/// The halving rule on x and y, the differences counted one by one as they are read.
pub fn halve(x: Vec<i32>, y: Vec<i32>) -> Halved {
    let m = x.len();
    if m == 1 {
        return Halved {
            ladder: vec![(1, 0)],
            count: 0,
        };
    }
    let below = halve(even_half(&x), even_half(&y));
    let h = below.best();
    let mut count = below.count;

    let mut taken = None;
    if h >= 1 && trial(&x, &y, 2 * h - 1, &mut count) {
        taken = Some(2 * h - 1);
    }
    if taken.is_none() && trial(&x, &y, 2 * h, &mut count) {
        taken = Some(2 * h);
    }
    let best = taken.unwrap_or(2 * h + 1);

    let mut ladder = vec![(m, best)];
    ladder.extend(below.ladder);
    Halved { ladder, count }
}

/// Entries 0, 2, 4 ..
fn even_half(row: &[i32]) -> Vec<i32> {
    (0..row.len())
        .filter(|i| i % 2 == 0)
        .map(|i| row[i])
        .collect()
}

/// One trial at r: whether the range is nonempty. Reads 2(m - r) differences.
fn trial(x: &[i32], y: &[i32], r: usize, count: &mut usize) -> bool {
    let m = x.len();
    let mut low = Vec::new();
    let mut high = Vec::new();
    for i in 0..m - r {
        low.push(x[i] - y[i + r]);
        *count += 1;
        high.push(x[i + r] - y[i]);
        *count += 1;
    }
    low.iter().max() <= high.iter().min()
}

/// The count as the ladder fixes it: at each level above one pair, 2h-1 was tried if h >= 1, and 2h
/// unless 2h-1 was taken.
pub fn count_of_ladder(ladder: &[(usize, usize)]) -> usize {
    let mut count = 0;
    for pair in ladder.windows(2) {
        let ((m, best), (_, h)) = (pair[0], pair[1]);
        if h >= 1 {
            count += 2 * (m - (2 * h - 1));
        }
        if h == 0 || best != 2 * h - 1 {
            count += 2 * (m - 2 * h);
        }
    }
    count
}

/// Best separation, its offsets and the count, with no ladder handed out. Checks 1 to 5.
pub fn best(a: &[i32], b: &[i32]) -> Numbers {
    flat(try_best(a, b, None))
}

/// Best separation, its offsets and the count; the ladder goes to the lent buffer, size then best
/// number for each level from n down to 1. Checks 1 to 5 and 9. Places beyond are untouched.
pub fn best_with_ladder(a: &[i32], b: &[i32], buffer: &mut [usize]) -> Numbers {
    flat(try_best(a, b, Some(buffer)))
}

fn try_best(a: &[i32], b: &[i32], buffer: Option<&mut [usize]>) -> Result<Numbers, Numbers> {
    check_rows(a, b)?;
    let halved = halve(reduced(a), reduced(b));
    if let Some(buffer) = buffer {
        let flat: Vec<usize> = halved
            .ladder
            .iter()
            .flat_map(|&(size, best)| [size, best])
            .collect();
        if buffer.len() < flat.len() {
            return Err(Numbers::refused(BUFFER));
        }
        buffer[..flat.len()].copy_from_slice(&flat);
    }
    let found = offsets(&reduced(a), &reduced(b), halved.best());
    Ok(Numbers {
        separation: tracks_for(halved.best()),
        lowest: found.lowest,
        highest: found.highest,
        count: halved.count,
        ..Numbers::default()
    })
}
