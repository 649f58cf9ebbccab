//! A sheet as numbers, and the questions on it: 4, 7 and 8.

use crate::edition::Edition;
use crate::sheet::{No, Sheet};

#[derive(Clone, PartialEq, Debug)]
pub struct Numbers {
    pub edition: usize,
    pub n: usize,
    pub k: usize,
    pub initial: u16,
    pub recurring: u16,
    pub sets: Vec<u16>,
    /// The sets of marked successors.
    pub marks: Vec<u16>,
}

/// The set as a number.
pub fn mask(states: impl Iterator<Item = usize>) -> u16 {
    states.map(|q| 1u16 << q).sum()
}

fn members(set: u16) -> Vec<usize> {
    (0..16).filter(|q| set & (1 << q) != 0).collect()
}

impl Numbers {
    pub fn of(s: &Sheet) -> Self {
        let (mut sets, mut marks) = (vec![0; 128], vec![0; 128]);
        for (q, l, t) in s.transitions() {
            sets[8 * q + l] |= 1 << t;
        }
        for (q, l, t) in &s.marked {
            marks[8 * q + l] |= 1 << t;
        }
        let set = |flags: &[bool]| mask((0..s.n).filter(|q| flags[*q]));
        Numbers { edition: s.edition.number(), n: s.n, k: s.k, initial: set(&s.initial), recurring: set(&s.recurring), sets, marks }
    }

    pub fn edition(&self) -> Edition {
        Edition::of_number(self.edition)
    }

    /// Questions 4, 7 and 8. The names and the withdrawals are left out.
    pub fn sheet(&self) -> Result<Sheet, No> {
        let (edition, n, k) = (self.edition(), self.n, self.k);
        if n < 1 || n > 16 || k < 1 || k > 8 {
            return Err((4, 0));
        }
        let beyond = |set: u16| members(set).iter().any(|q| *q >= n);
        if beyond(self.initial) || beyond(self.recurring) {
            return Err((7, 0));
        }
        if edition == Edition::Marks && self.recurring != 0 {
            return Err((7, 0));
        }
        for (i, set) in self.sets.iter().enumerate() {
            let inside = i / 8 < n && i % 8 < k;
            if if inside { beyond(*set) } else { *set != 0 } {
                return Err((8, 0));
            }
        }
        for (i, set) in self.marks.iter().enumerate() {
            let allowed = match edition {
                Edition::States => Vec::new(),
                Edition::Marks => members(self.sets.get(i).copied().unwrap_or(0)),
            };
            if members(*set).iter().any(|q| !allowed.contains(q)) {
                return Err((8, 0));
            }
        }
        let flags = |set: u16| (0..n).map(|q| members(set).contains(&q)).collect();
        let next = (0..n).map(|q| (0..k).map(|l| members(self.sets[8 * q + l])).collect()).collect();
        let marks = |q: usize, l: usize| members(self.marks[8 * q + l]).into_iter().map(move |t| (q, l, t));
        let marked = (0..n).flat_map(|q| (0..k).flat_map(move |l| marks(q, l))).collect();
        let (initial, recurring) = (flags(self.initial), flags(self.recurring));
        Ok(Sheet { edition, n, k, initial, recurring, next, marked, names: Vec::new(), withdrawn: Vec::new() })
    }
}
