//! The sheet's side: between which states a stretch of letters has a path, and whether one of them takes a recurrent transition. A must-recur
//! state counts with the transition into it, so each is counted once, and none is lost where one stretch ends and the next begins.

use super::{Stretch, Word};
use crate::edition::Edition;
use crate::graph::Graph;
use crate::sheet::Sheet;
use std::ops::Range;

#[derive(Clone, Copy, PartialEq, Eq, PartialOrd, Ord)]
enum Path {
    None,
    Plain,
    Recurrent,
}

/// The best path from each state to each state.
#[derive(Clone, PartialEq)]
pub struct Profile(Vec<Vec<Path>>);

impl Stretch for Profile {
    fn then(&self, next: &Self) -> Self {
        let from = |row: &Vec<Path>| {
            let mut out = vec![Path::None; row.len()];
            for (middle, one) in row.iter().enumerate().filter(|(_, one)| **one != Path::None) {
                for (t, other) in next.0[middle].iter().enumerate().filter(|(_, other)| **other != Path::None) {
                    out[t] = out[t].max(*one).max(*other);
                }
            }
            out
        };
        Profile(self.0.iter().map(from).collect())
    }
}

/// The profiles of the single letters.
pub fn profiles(s: &Sheet) -> Vec<Profile> {
    let mut out = vec![Profile(vec![vec![Path::None; s.n]; s.n]); s.k];
    for (q, l, t) in s.transitions() {
        let recurrent = match s.edition {
            Edition::States => s.recurring[t],
            Edition::Marks => s.marked.contains(&(q, l, t)),
        };
        out[l].0[q][t] = if recurrent { Path::Recurrent } else { Path::Plain };
    }
    out
}

/// The states that walks on these letters come to.
pub fn reached(s: &Sheet, letters: &[usize]) -> Vec<bool> {
    letters.iter().fold(s.initial.clone(), |from, l| after(s, &from, *l))
}

/// The states that transitions on a letter lead to from these.
pub fn after(s: &Sheet, from: &[bool], l: usize) -> Vec<bool> {
    let mut to = vec![false; s.n];
    for q in (0..s.n).filter(|q| from[*q]) {
        s.next[q][l].iter().for_each(|t| to[*t] = true);
    }
    to
}

/// What is known of the endless readings of a word.
pub struct Readings {
    /// Are there any?
    pub some: bool,
    /// Does one take recurrent transitions without end?
    pub passes: bool,
    /// The numbers of the blocks that come again and again.
    pub round: Range<usize>,
}

/// An endless reading goes round in a circle of the blocks, and recurs if it comes again and again over one that has a recurrent transition.
pub fn readings(s: &Sheet, letters: &[Profile], word: &Word) -> Option<Readings> {
    let blocks = word.blocks(letters)?;
    let node = |block: usize, q: usize| block * s.n + q;
    let mut edges = vec![Vec::new(); blocks.each.len() * s.n];
    let mut recurrent = Vec::new();
    for (i, block) in blocks.each.iter().enumerate() {
        for q in 0..s.n {
            for t in (0..s.n).filter(|t| block.0[q][*t] != Path::None) {
                let (x, y) = (node(i, q), node(blocks.after(i), t));
                edges[x].push(y);
                if block.0[q][t] == Path::Recurrent {
                    recurrent.push((x, y));
                }
            }
        }
    }
    let start = reached(s, &word.lead);
    let mut found = vec![false; edges.len()];
    let mut todo: Vec<usize> = (0..s.n).filter(|q| start[*q]).map(|q| node(0, q)).collect();
    while let Some(x) = todo.pop() {
        if !std::mem::replace(&mut found[x], true) {
            todo.extend(&edges[x]);
        }
    }
    let alive: Vec<usize> = (0..edges.len()).filter(|x| found[*x]).collect();
    let mut circle = vec![None; edges.len()];
    for (i, part) in Graph::new(edges).components(&alive).iter().enumerate() {
        part.iter().for_each(|x| circle[*x] = Some(i));
    }
    let some = circle.iter().any(|x| x.is_some());
    let passes = recurrent.iter().any(|(x, y)| circle[*x].is_some() && circle[*x] == circle[*y]);
    Some(Readings { some, passes, round: blocks.again..blocks.each.len() })
}
