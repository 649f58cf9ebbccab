//! Rules that watch a run for some states: again and again one of them, and from some job on none of them. They tell apart words that are made of
//! the same parts, and on every endless word one of the two is met and the other is not.

use super::empty;
use crate::random::Random;
use crate::sheet::Sheet;

/// Both rules about one run through n states; the second has each of them twice.
pub fn watched(r: &mut Random, n: usize, k: usize) -> [Sheet; 2] {
    let mut again = empty(r, n, k);
    again.initial = (0..n).map(|q| q == 0).collect();
    again.recurring = vec![false; n];
    if r.chance(30) {
        again.recurring[r.below(n)] = true;
        again.next.iter_mut().flatten().for_each(|to| to.push(r.below(n)));
    } else {
        // A few letters on end: the state tells how many of them have come, and the last one that all have.
        let pattern: Vec<usize> = (1..n).map(|_| r.below(k)).collect();
        again.recurring[n - 1] = true;
        for q in 0..n {
            for l in 0..k {
                let come = [&pattern[..q], &[l]].concat();
                let kept = (0..n).rev().find(|i| come.ends_with(&pattern[..*i])).unwrap();
                again.next[q][l].push(kept);
            }
        }
    }
    let never = from_some_job_on(r, &again);
    [again, never]
}

/// State n+q stands for q, with no watched state to come: it is entered with the last of them, or at the start if there is none.
fn from_some_job_on(r: &mut Random, again: &Sheet) -> Sheet {
    let (n, k) = (again.n, again.k);
    let mut never = empty(r, 2 * n, k);
    never.initial = [&again.initial[..], &again.initial].concat();
    never.recurring = (0..2 * n).map(|q| q >= n).collect();
    for (q, l, t) in again.transitions() {
        never.next[q][l].push(t);
        let guessed = if again.recurring[t] { q } else { n + q };
        never.next[guessed][l].push(n + t);
    }
    never
}
