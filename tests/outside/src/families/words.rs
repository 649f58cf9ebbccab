//! Words to make endless ones of: any letters, and such as some reading gets through, since most words are the end of every reading.

use crate::endless_words::reading;
use crate::endless_words::shapes::{Spelled, ALL};
use crate::random::Random;
use crate::sheet::Sheet;

/// x, y and z.
type Parts = (Vec<usize>, Vec<usize>, Vec<usize>);

/// How many letters some reading gets through before a word counts as one that readings get through.
const LONG: usize = 40;

/// An endless word that never repeats, of a sheet with two letters or more.
pub fn endless_word(r: &mut Random, s: &Sheet) -> Spelled {
    let shape = ALL[r.below(ALL.len())];
    let how = r.below(100);
    let mut word = Spelled { shape, x: Vec::new(), y: vec![0], z: vec![0] };
    for tries in 0.. {
        // There may be no circles, or none that differ, and no reading that gets far.
        let parts = if how < 35 && tries < 4 { circles(r, s) } else { None };
        let (x, y, z) = parts.unwrap_or_else(|| any(r, s.k));
        word = Spelled { shape, x, y, z };
        let far = how >= 80 || tries >= 8 || reading::reached(s, &word.letters(LONG)).contains(&true);
        if far && word.never_repeats() {
            break;
        }
    }
    word
}

/// Some of the letters alone, since each one more ends more readings.
fn any(r: &mut Random, k: usize) -> Parts {
    let few: Vec<usize> = (0..2 + r.below(3)).map(|_| r.below(k)).collect();
    let mut word = |least: usize, more: usize| -> Vec<usize> { (0..least + r.below(more + 1)).map(|_| few[r.below(few.len())]).collect() };
    (word(0, 5), word(1, 3), word(1, 3))
}

/// A way to some state, and two that lead from it back to it.
fn circles(r: &mut Random, s: &Sheet) -> Option<Parts> {
    for _ in 0..8 {
        let initial: Vec<usize> = (0..s.n).filter(|q| s.initial[*q]).collect();
        if initial.is_empty() {
            return None;
        }
        let from = initial[r.below(initial.len())];
        let (x, q) = wander(r, s, from, 5);
        let mut circle = || {
            let (out, end) = wander(r, s, q, 3);
            way(s, end, q, out.is_empty()).map(|back| [out, back].concat())
        };
        if let (Some(y), Some(z)) = (circle(), circle()) {
            return Some((x, y, z));
        }
    }
    None
}

/// At most so many transitions from a state: their letters, and the state behind them.
fn wander(r: &mut Random, s: &Sheet, from: usize, most: usize) -> (Vec<usize>, usize) {
    let (mut word, mut at) = (Vec::new(), from);
    for _ in 0..r.below(most + 1) {
        let onward: Vec<(usize, usize)> = (0..s.k).flat_map(|l| s.next[at][l].iter().map(move |t| (l, *t))).collect();
        if onward.is_empty() {
            break;
        }
        let (l, t) = onward[r.below(onward.len())];
        word.push(l);
        at = t;
    }
    (word, at)
}

/// The letters of a way from one state to another; where it is asked, of one letter or more.
fn way(s: &Sheet, from: usize, to: usize, some: bool) -> Option<Vec<usize>> {
    if from == to && !some {
        return Some(Vec::new());
    }
    let mut found = vec![(from, Vec::new())];
    let mut seen = vec![false; s.n];
    let mut i = 0;
    while i < found.len() {
        let (q, word) = found[i].clone();
        for l in 0..s.k {
            for &t in &s.next[q][l] {
                let longer = [&word[..], &[l]].concat();
                if t == to {
                    return Some(longer);
                }
                if !std::mem::replace(&mut seen[t], true) {
                    found.push((t, longer));
                }
            }
        }
        i += 1;
    }
    None
}
