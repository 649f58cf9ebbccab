//! As many tuples as the programs have room for, one fewer and one more: 16 states and 8 letters, so that the longest listing is among them.

use crate::bench::Bench;
use crate::conversion::with_marks;
use crate::edition::Edition;
use crate::expected::{self, ROOM};
use crate::families;
use crate::random::Random;
use crate::sheet::{write_plan, write_sheet, Sheet};
use crate::tuples;
use std::collections::BTreeSet;

/// Seeds, found by search, and how many tuples their sheets have.
pub const COUNTS: [(u64, usize); 16] = [
    (32345, 1013),
    (1782, 1014),
    (14761, 1015),
    (46660, 1016),
    (384, 1017),
    (13862, 1018),
    (11885, 1019),
    (10311, 1020),
    (12800, 1021),
    (643, 1022),
    (30370, 1023),
    (34120, 1024),
    (6261, 1024),
    (54944, 1025),
    (26415, 1025),
    (3312, 1026),
];

/// The same of the sheets with marks on transitions.
pub const MARKED_COUNTS: [(u64, usize); 6] = [(2106, 1022), (3247, 1023), (7121, 1024), (8802, 1024), (10422, 1025), (13840, 1025)];

/// The bytes of the longest listing: 1,024 tuples of 16 sets and 8 letters.
const LONGEST: usize = 149_525;

/// Each state has at most one predecessor on a letter, so no walks meet.
pub fn sheet(seed: u64) -> Sheet {
    let (n, k) = (16, 8);
    let mut r = Random::new(seed);
    let (mut initial, mut recurring) = (Vec::new(), Vec::new());
    for _ in 0..n {
        initial.push(r.chance(50));
        recurring.push(r.chance(40));
    }
    let full = 30 + r.below(50);
    let mut next = vec![vec![Vec::new(); k]; n];
    for l in 0..k {
        for t in 0..n {
            if r.chance(full) {
                next[r.below(n)][l].push(t);
            }
        }
    }
    let names = (0..k).map(|l| vec![b'a' + l as u8]).collect();
    Sheet { edition: Edition::States, n, k, initial, recurring, next, marked: BTreeSet::new(), names, withdrawn: Vec::new() }
}

/// The same with marks on some transitions in the place of must-recur states.
pub fn marked_sheet(seed: u64) -> Sheet {
    let mut s = with_marks(&sheet(seed));
    let mut r = Random::new(!seed);
    s.marked = s.transitions().into_iter().filter(|_| r.chance(30)).collect();
    s
}

/// A sheet with one tuple too many.
pub fn too_many() -> Sheet {
    sheet(54944)
}

fn counted(b: &mut Bench, r: &mut Random, s: &Sheet, count: usize) {
    let file = write_sheet(s, false);
    let counted = tuples::build(s, count).map(|t| t.tuples.len());
    b.expect("limit: tuples counted", counted == Some(count), &file);
    b.listed("limit: tuples listed", &file);
    for _ in 0..4 {
        let input = [file.clone(), write_plan(s, &families::plan(r, s.k))].concat();
        b.judged("limit: tuples judged", &input);
    }
    if count == ROOM {
        b.expect("limit: the longest listing", b.run("track", &file).len() == LONGEST, &file);
        // The listing does not fit in a pipe, and the input comes in pieces.
        let got = b.run_in_pieces("track", &file, 100);
        b.compare("limit: input in pieces", "track", &file, expected::listing(&file, ROOM), &got);
    }
}

pub fn run(b: &mut Bench) {
    let mut r = Random::new(1024);
    for (seed, count) in COUNTS {
        counted(b, &mut r, &sheet(seed), count);
    }
    for (seed, count) in MARKED_COUNTS {
        counted(b, &mut r, &marked_sheet(seed), count);
    }
    // In the other edition there are as many.
    for seed in [30370, 34120, 54944] {
        let [one, other] = [sheet(seed), with_marks(&sheet(seed))].map(|s| b.run("track", &write_sheet(&s, false)));
        b.expect("limit: tuples listed in both editions", one == other, &one);
    }
}
