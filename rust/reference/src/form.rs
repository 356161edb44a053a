//! The form: a table of records over two pools of columns.

use crate::halving::best;
use crate::numbers::*;
use crate::rule::{fit, least, range};

/// What a line asks for.
#[derive(Clone, Copy, Debug, Default, PartialEq, Eq)]
pub struct Wish {
    /// A separation, or None for "least".
    pub separation: Option<usize>,
    /// An offset, or None for "best".
    pub offset: Option<i32>,
}

/// One order line: where its pads start in each pool, their count, its wish and its answer.
#[derive(Clone, Copy, Debug, Default, PartialEq, Eq)]
pub struct Record {
    pub bottom_start: usize,
    pub top_start: usize,
    pub count: usize,
    pub wish: Wish,
    pub answer: Numbers,
}

/// The answer to a wish about two rows.
pub fn answer_wish(a: &[i32], b: &[i32], wish: Wish) -> Numbers {
    match (wish.separation, wish.offset) {
        (Some(s), Some(d)) => fit(a, b, s, d),
        (Some(s), None) => range(a, b, s),
        (None, Some(d)) => least(a, b, d),
        (None, None) => best(a, b),
    }
}

/// Answers line k: writes the answer of record k and nothing else, and returns it too. For k outside
/// the table, or a table over 64, it returns LINE and writes nothing. A start plus count over its
/// pool's length is LINE as well, and is written.
pub fn answer_line(table: &mut [Record], k: usize, bottoms: &[i32], tops: &[i32]) -> Numbers {
    if k >= table.len() || table.len() > MOST_LINES {
        return Numbers::refused(LINE);
    }
    let record = &mut table[k];
    record.answer = answer_record(record, bottoms, tops);
    record.answer
}

fn answer_record(record: &Record, bottoms: &[i32], tops: &[i32]) -> Numbers {
    // In wide numbers, so that no start plus count can wrap.
    let bottom_end = record.bottom_start as u128 + record.count as u128;
    let top_end = record.top_start as u128 + record.count as u128;
    if bottom_end > bottoms.len() as u128 || top_end > tops.len() as u128 {
        return Numbers::refused(LINE);
    }
    let a = &bottoms[record.bottom_start..bottom_end as usize];
    let b = &tops[record.top_start..top_end as usize];
    answer_wish(a, b, record.wish)
}

/// Answers every line, each as if alone. A table over 64 gives LINE and writes nothing; otherwise
/// the numbers returned are all 0, whatever the lines' own answers.
pub fn answer_form(table: &mut [Record], bottoms: &[i32], tops: &[i32]) -> Numbers {
    if table.len() > MOST_LINES {
        return Numbers::refused(LINE);
    }
    for k in 0..table.len() {
        answer_line(table, k, bottoms, tops);
    }
    Numbers::default()
}
