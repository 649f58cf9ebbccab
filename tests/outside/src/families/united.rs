//! Rules of which any one is enough, side by side in one sheet: on every word each of them has a reading of its own that goes on, so that the
//! tuples have many sets, and larger colours are the least ones.

use super::{add, empty};
use crate::random::Random;
use crate::sheet::Sheet;

/// So many rules of two or three states each.
pub fn united(r: &mut Random, rules: usize, k: usize) -> Sheet {
    let sizes: Vec<usize> = (0..rules).map(|_| 2 + r.below(2)).collect();
    let mut s = empty(r, sizes.iter().sum(), k);
    s.initial.fill(false);
    let mut start = 0;
    for size in sizes {
        s.initial[start] = true;
        for q in start..start + size {
            s.recurring[q] = r.chance(25);
            for l in 0..k {
                let t = start + r.below(size);
                add(&mut s, q, l, t);
            }
        }
        start += size;
    }
    assert!(s.n <= 16);
    s
}
