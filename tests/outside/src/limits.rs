//! The programs at their limits: the most tuples, the longest files, the longest witness, every withdrawal, the lines of both editions, every
//! refusal, and an input that cannot be read.

mod counts;
mod dead_ends;
mod marks;
mod meetings;
mod refusals;
mod sizes;
mod splits;
mod unreadable;
mod withdrawals;

use crate::bench::Bench;
use crate::random::Random;
use crate::sheet::Sheet;
pub use sizes::{longest_marked_sheet, longest_sheet};

/// A sheet with about 1,024 tuples.
pub fn many_tuples(r: &mut Random) -> Sheet {
    counts::sheet(counts::COUNTS[r.below(counts::COUNTS.len())].0)
}

/// The sheets with about 1,024 tuples.
pub fn most_tuples() -> Vec<Sheet> {
    counts::COUNTS.iter().map(|(seed, _)| counts::sheet(*seed)).collect()
}

/// Those with marks on transitions.
pub fn most_marked_tuples() -> Vec<Sheet> {
    counts::MARKED_COUNTS.iter().map(|(seed, _)| counts::marked_sheet(*seed)).collect()
}

pub fn run(b: &mut Bench) {
    meetings::run(b);
    dead_ends::run(b);
    counts::run(b);
    sizes::run(b);
    marks::run(b);
    splits::run(b);
    withdrawals::run(b);
    refusals::run(b);
    unreadable::run_all(b);
}
