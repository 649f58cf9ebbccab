//! Meeting walks, by counting walks: on each word, how many walks end in each state (0, 1 or more). They meet only in a state from which
//! transitions go on without end; elsewhere, in a dead end, two walks to one state are harmless.

use crate::sheet::Sheet;
use std::collections::HashSet;

type Counts = Vec<u8>;

fn step(s: &Sheet, counts: &Counts, l: usize) -> Counts {
    let mut out = vec![0u8; s.n];
    for q in 0..s.n {
        for &r in &s.next[q][l] {
            out[r] = (out[r] + counts[q]).min(2);
        }
    }
    out
}

/// The states that begin some endless path of transitions, over any letters: those from which a path leads to a circle. Paths are found
/// through no state in between, then through the first, then through the first two and so on.
pub fn endless(s: &Sheet) -> Vec<bool> {
    let mut leads = vec![vec![false; s.n]; s.n];
    for q in 0..s.n {
        s.next[q].iter().flatten().for_each(|r| leads[q][*r] = true);
    }
    for between in 0..s.n {
        let onward = leads[between].clone();
        for q in (0..s.n).filter(|q| leads[*q][between]).collect::<Vec<_>>() {
            leads[q].iter_mut().zip(&onward).for_each(|(x, y)| *x |= *y);
        }
    }
    (0..s.n).map(|q| (0..s.n).any(|c| leads[q][c] && leads[c][c])).collect()
}

/// The length of a shortest word with two walks to one of these states, or None where there is no such word.
fn shortest_to(s: &Sheet, ends: &[bool]) -> Option<usize> {
    let start: Counts = s.initial.iter().map(|i| *i as u8).collect();
    let mut seen = HashSet::from([start.clone()]);
    let mut layer = vec![start];
    let mut length = 0;
    while !layer.is_empty() {
        length += 1;
        let mut fresh = Vec::new();
        for counts in &layer {
            for l in 0..s.k {
                let next = step(s, counts, l);
                if (0..s.n).any(|q| ends[q] && next[q] == 2) {
                    return Some(length);
                }
                if seen.insert(next.clone()) {
                    fresh.push(next);
                }
            }
        }
        layer = fresh;
    }
    None
}

/// The length of a shortest word on which two walks meet, or None where there is no such word.
pub fn shortest_meeting(s: &Sheet) -> Option<usize> {
    shortest_to(s, &endless(s))
}

/// The same, where two walks to a dead end would meet too.
pub fn shortest_meeting_anywhere(s: &Sheet) -> Option<usize> {
    shortest_to(s, &vec![true; s.n])
}

/// Do these two walks meet on this word?
pub fn meets(s: &Sheet, word: &[usize], one: &[usize], other: &[usize]) -> bool {
    let walk = |x: &[usize]| {
        x.len() == word.len() + 1
            && x[0] < s.n
            && s.initial[x[0]]
            && word.iter().enumerate().all(|(t, l)| *l < s.k && s.next[x[t]][*l].contains(&x[t + 1]))
    };
    walk(one) && walk(other) && one != other && one.last() == other.last() && one.last().map_or(false, |q| endless(s)[*q])
}
