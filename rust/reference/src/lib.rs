//! A reference of the jumper, written from `01-scope.md` and `02-change-requests.md` alone.
//!
//! Everything outside [`baseline`] is meant to be *read against the text*: slow, plain, the
//! definitions as they stand. Nothing here is clever where the text is not. The module
//! [`baseline`] is the opposite: what an ordinary Rust programmer would write for speed, kept for
//! benchmarks and held against the reference by the tests.
//!
//! | Module | What of 01 it holds |
//! |---|---|
//! | [`numbers`] | the limits, the refusal numbers, [`Numbers`], [`Range`] |
//! | [`rows`] | refusals 1 to 5 with their places |
//! | [`rule`] | numbers of the rule; fit and witness, least separation, offset range, stretch at fault |
//! | [`halving`] | best separation: by trial, and by the halving rule with ladder and count |
//! | [`wires`] | drawing, the checker, legality over grid points |
//! | [`parts`] | request 113: whether a part of a jumper still fits, and its route from the old one |
//! | [`search`] | whether a legal wiring exists, found without the rule |
//! | [`form`] | records, one line, all lines |
//! | [`sheet`] | frames and the whole machine |
//! | [`random`] | a small deterministic generator; rows, offsets and separations |
//! | [`sheetmaker`] | whole sheets and damaged ones |
//! | [`longsheets`] | the long sheets of tests/sheets |
//! | [`baseline`] | the same calls written for speed |

pub mod baseline;
pub mod form;
pub mod halving;
pub mod longsheets;
pub mod numbers;
pub mod parts;
pub mod random;
pub mod rows;
pub mod rule;
pub mod search;
pub mod sheet;
pub mod sheetmaker;
pub mod wires;

#[cfg(test)]
mod tests;

pub use form::{answer_form, answer_line, answer_wish, Record, Wish};
pub use halving::{best, best_by_trial, best_with_ladder};
pub use numbers::{Numbers, Range};
pub use parts::{part_route, still_fits};
pub use rows::accept_rows;
pub use rule::{fit, least, range, stretch, stretch_part, Stretch};
pub use sheet::answer_sheet;
pub use wires::{check, draw_all, draw_wire, legal_table, legal_wires};
