//! Sheets with long ways: on every letter the states go round in circles, and some stop, so that it is long until a tuple comes again.

use super::{empty, shuffled};
use crate::random::Random;
use crate::sheet::Sheet;

pub fn circles(r: &mut Random, n: usize, k: usize) -> Sheet {
    let mut s = empty(r, n, k);
    for l in 0..k {
        let to = shuffled(r, n);
        let full = [70, 85, 100][r.below(3)];
        for q in 0..n {
            if r.chance(full) {
                s.next[q][l].push(to[q]);
            }
        }
    }
    s
}
