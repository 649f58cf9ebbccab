//! Words from the first tuple to the others. The way back is read off the next numbers; which words are shortest, and which of those comes
//! first, is found by bettering what is known until nothing gets better, so that no order of the tuples goes into it.

use crate::sheet::Sheet;
use crate::tuples::{self, Tracker};

/// The tuple and the letter that each tuple was first found from: tuple by tuple, letters ascending. The first tuple has 0 and 0.
pub fn found_from(t: &Tracker) -> Vec<(usize, usize)> {
    let mut out = vec![None; t.tuples.len()];
    out[0] = Some((0, 0));
    for (u, row) in t.next.iter().enumerate() {
        for (l, to) in row.iter().enumerate() {
            out[*to].get_or_insert((u, l));
        }
    }
    out.into_iter().map(|x| x.expect("a tuple that is found")).collect()
}

/// The word to a tuple, spelled from its end on the way back.
pub fn spelled(from: &[(usize, usize)], tuple: usize) -> Vec<usize> {
    let (mut word, mut at) = (Vec::new(), tuple);
    while at != 0 {
        word.push(from[at].1);
        at = from[at].0;
    }
    word.reverse();
    word
}

/// The length of a shortest word to each tuple: one letter more than to some tuple before it.
pub fn lengths(t: &Tracker) -> Vec<usize> {
    let mut out = vec![usize::MAX; t.tuples.len()];
    out[0] = 0;
    loop {
        let known = out.clone();
        for (u, row) in t.next.iter().enumerate() {
            row.iter().for_each(|to| out[*to] = out[*to].min(known[u].saturating_add(1)));
        }
        if out == known {
            return out;
        }
    }
}

/// The first in alphabetical order of the shortest words to each tuple: a word that comes first is still first with a letter more.
pub fn first_words(t: &Tracker) -> Vec<Vec<usize>> {
    let mut out: Vec<Option<Vec<usize>>> = vec![None; t.tuples.len()];
    out[0] = Some(Vec::new());
    let mut better = true;
    while better {
        better = false;
        for (u, row) in t.next.iter().enumerate() {
            let Some(word) = out[u].clone() else { continue };
            for (l, to) in row.iter().enumerate() {
                let longer = [&word[..], &[l]].concat();
                if out[*to].as_ref().map_or(true, |x| (longer.len(), &longer) < (x.len(), x)) {
                    out[*to] = Some(longer);
                    better = true;
                }
            }
        }
    }
    out.into_iter().map(|x| x.expect("a tuple that is reached")).collect()
}

/// Does the word lead from the first tuple to this one?
pub fn leads(s: &Sheet, t: &Tracker, word: &[usize], tuple: usize) -> bool {
    word.iter().all(|l| *l < s.k) && word.iter().fold(tuples::first(s), |u, l| tuples::step(s, &u, *l)) == t.tuples[tuple]
}
