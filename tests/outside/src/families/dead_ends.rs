//! Sheets with dead ends, alone and in chains: in most of them walks come together there, and in some also in a state that goes on, often
//! on a longer word.

use super::{add, of_size, perturbed, shuffled};
use crate::cases::longest_word;
use crate::random::Random;
use crate::sheet::Sheet;

pub fn with_dead_ends(r: &mut Random, most: usize) -> Sheet {
    let n = 1 + r.below(most.min(12));
    let s = match r.below(8) {
        0 | 1 => longest_word(2 + r.below(most.min(11))),
        2 | 3 => {
            let s = of_size(r, n);
            perturbed(r, s)
        }
        _ => of_size(r, n),
    };
    let mut s = if r.chance(15) { cut_short(r, s) } else { with_chains(r, s) };
    if r.chance(8) {
        let (q, l) = (r.below(s.n), r.below(s.k));
        add(&mut s, q, l, q);
    }
    renumbered(r, &s)
}

/// Some states stop where they went on.
fn cut_short(r: &mut Random, mut s: Sheet) -> Sheet {
    let often = [20, 40, 60][r.below(3)];
    for row in &mut s.next {
        if r.chance(often) {
            row.iter_mut().for_each(|to| to.clear());
        }
    }
    s
}

/// Up to four states more that are entered only from those before them, so that every path through them ends. Most are entered from some
/// states on one letter, where walks come together at once if two of them are initial.
fn with_chains(r: &mut Random, mut s: Sheet) -> Sheet {
    for t in s.n..s.n + 1 + r.below(4) {
        for _ in 0..r.below(3) {
            let (q, l) = (entrance(r, &s), r.below(s.k));
            add(&mut s, q, l, t);
        }
        if r.chance(85) {
            let l = r.below(s.k);
            for _ in 0..3 {
                let q = entrance(r, &s);
                add(&mut s, q, l, t);
            }
        }
        s.n += 1;
        s.initial.push(r.chance(50));
        s.recurring.push(r.chance(40));
        s.next.push(vec![Vec::new(); s.k]);
    }
    assert!(s.n <= 16);
    s
}

/// Any state, or any initial one.
fn entrance(r: &mut Random, s: &Sheet) -> usize {
    let initial: Vec<usize> = (0..s.n).filter(|q| s.initial[*q]).collect();
    if initial.is_empty() || r.chance(40) {
        return r.below(s.n);
    }
    initial[r.below(initial.len())]
}

/// The same sheet with its states in another order, so that dead ends stand anywhere.
fn renumbered(r: &mut Random, s: &Sheet) -> Sheet {
    let place = shuffled(r, s.n);
    let mut out = s.clone();
    for q in 0..s.n {
        out.initial[place[q]] = s.initial[q];
        out.recurring[place[q]] = s.recurring[q];
        out.next[place[q]] = s.next[q].clone();
    }
    for to in out.next.iter_mut().flatten() {
        to.iter_mut().for_each(|t| *t = place[*t]);
        to.sort();
    }
    out
}
