//! Refusals 1 to 5, and those of a separation and an offset.

use crate::numbers::*;

/// Whether the two rows are accepted: refusal 0, or 1 to 5 with its place.
pub fn accept_rows(a: &[i32], b: &[i32]) -> Numbers {
    match check_rows(a, b) {
        Ok(()) => Numbers::default(),
        Err(refused) => refused,
    }
}

/// Checks 1 to 5. The first three go by number. 4 and 5 are sought together: bottom row, then top
/// row, each from its left, COLUMN before ORDER at each place, the first fault deciding.
pub(crate) fn check_rows(a: &[i32], b: &[i32]) -> Result<(), Numbers> {
    if a.len() != b.len() {
        return Err(Numbers::refused(UNEQUAL));
    }
    let n = a.len();
    if n == 0 {
        return Err(Numbers::refused(EMPTY));
    }
    if n > MOST_PAIRS {
        return Err(Numbers::refused(LONG));
    }
    for (row, before_it) in [(a, 0), (b, n)] {
        for i in 0..n {
            if row[i] < FIRST_COLUMN || row[i] > LAST_COLUMN {
                return Err(Numbers::refused_at(COLUMN, before_it + i, 0));
            }
            if i > 0 && row[i] <= row[i - 1] {
                return Err(Numbers::refused_at(ORDER, before_it + i, 0));
            }
        }
    }
    Ok(())
}

/// Check 6.
pub(crate) fn check_separation(s: usize) -> Result<(), Numbers> {
    if s > MOST_TRACKS {
        Err(Numbers::refused(TRACKS))
    } else {
        Ok(())
    }
}

/// Check 7.
pub(crate) fn check_offset(d: i32) -> Result<(), Numbers> {
    if Range::ALL.holds(d) {
        Ok(())
    } else {
        Err(Numbers::refused(OFFSET))
    }
}
