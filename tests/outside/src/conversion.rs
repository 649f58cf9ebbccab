//! Sheets of one edition told in the other.

use crate::edition::Edition;
use crate::sheet::Sheet;
use std::borrow::Cow;
use std::collections::BTreeSet;

/// The sheet with a mark on every transition into a must-recur state, and no must-recur states.
pub fn with_marks(s: &Sheet) -> Sheet {
    let marked = s.transitions().into_iter().filter(|(_, _, t)| s.recurring[*t]).collect();
    Sheet { edition: Edition::Marks, recurring: vec![false; s.n], marked, ..s.clone() }
}

/// A sheet with must-recur states that has the same readings, each with marks where the other has must-recur states. A sheet with marks has
/// each state twice for it: state n+q stands for q, entered over a mark. So there may be 32 states.
pub fn with_states(s: &Sheet) -> Cow<'_, Sheet> {
    if s.edition == Edition::States {
        return Cow::Borrowed(s);
    }
    let entered = |q: usize, l: usize, t: usize| if s.marked.contains(&(q, l, t)) { s.n + t } else { t };
    let to = |q: usize, l: usize| {
        let mut to: Vec<usize> = s.next[q][l].iter().map(|t| entered(q, l, *t)).collect();
        to.sort();
        to
    };
    let next: Vec<Vec<Vec<usize>>> = (0..s.n).map(|q| (0..s.k).map(|l| to(q, l)).collect()).collect();
    Cow::Owned(Sheet {
        edition: Edition::States,
        n: 2 * s.n,
        initial: (0..2 * s.n).map(|q| q < s.n && s.initial[q]).collect(),
        recurring: (0..2 * s.n).map(|q| q >= s.n).collect(),
        next: [next.clone(), next].concat(),
        marked: BTreeSet::new(),
        ..s.clone()
    })
}
