//! Larger automata against Safra's construction: a fixed sample of each size from 10 to 16 states.

use crate::bench::Bench;
use crate::conversion::with_states;
use crate::expected::ROOM;
use crate::random::Random;
use crate::sheet::{write_sheet, Sheet};
use crate::{equal, families, safra, tuples, walks};

/// How many seeds are tried for each size; those whose walks meet or whose tuples are too many are left out.
const SEEDS: u64 = 400;
/// How many of them have to be left.
const LEAST: usize = 200;
/// How many of the seeds are tried with marks on transitions too, and how many of these have to be left.
const MARKED: u64 = 120;
const LEAST_MARKED: usize = 60;
/// The most trees of Safra's automaton, and the most nodes of its product with the tracker.
const TREES: usize = 20_000;
const NODES: usize = 200_000;

/// Does the sheet's tracker accept what Safra's automaton accepts? None where there is no tracker, or one of the two is too large.
pub fn same_as_safra(s: &Sheet) -> Option<bool> {
    if walks::shortest_meeting(s).is_some() {
        return None;
    }
    let t = tuples::build(s, ROOM)?;
    equal::same_sequences(&t, &safra::rabin(&with_states(s), TREES)?, NODES)
}

fn compared(b: &mut Bench, what: &str, s: &Sheet) {
    if let Some(same) = same_as_safra(s) {
        let file = write_sheet(s, false);
        b.expect(&format!("{what}, {} states", s.n), same, &file);
        b.listed(&format!("{what}, listing"), &file);
    }
}

pub fn run(b: &mut Bench) {
    for n in 10..=16 {
        for seed in 0..SEEDS {
            let mut r = Random::new(seed << 8 | n as u64);
            let s = if seed % 2 == 0 { families::sparse(&mut r, n) } else { families::of_size(&mut r, n) };
            if s.n < 10 {
                continue;
            }
            compared(b, "Safra", &s);
            if seed < MARKED {
                compared(b, "Safra with marks", &families::marked(&mut r, &s));
            }
        }
    }
    for n in 10..=16 {
        b.at_least(LEAST, &format!("Safra, {n} states"));
        b.at_least(LEAST_MARKED, &format!("Safra with marks, {n} states"));
    }
}
