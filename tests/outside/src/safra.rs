//! Safra's construction, as section 3 of document 002 (named in docs/ARCHITECTURE.md) states it: a deterministic Rabin automaton.
//! Labels are masks of states, so that it is quick for 32, which a sheet of 16 with marks has once its states are doubled.

use crate::sheet::Sheet;
use std::collections::HashMap;

#[derive(Clone, PartialEq, Eq, Hash)]
struct Node {
    label: u32,
    marked: bool,
    /// Names of the children, oldest first.
    children: Vec<usize>,
}

/// The nodes by their names; the root is 0.
type Tree = Vec<Option<Node>>;

pub struct Rabin {
    pub next: Vec<Vec<usize>>,
    /// For each name: the trees in which that node is marked, and those without it.
    pub pairs: Vec<(Vec<bool>, Vec<bool>)>,
}

/// A sheet as masks.
struct Masks {
    recurring: u32,
    next: Vec<Vec<u32>>,
}

fn mask(states: impl Iterator<Item = usize>) -> u32 {
    states.fold(0, |m, q| m | 1 << q)
}

impl Masks {
    fn of(s: &Sheet) -> Self {
        Masks {
            recurring: mask((0..s.n).filter(|q| s.recurring[*q])),
            next: s.next.iter().map(|row| row.iter().map(|to| mask(to.iter().copied())).collect()).collect(),
        }
    }

    fn successors(&self, label: u32, l: usize) -> u32 {
        (0..self.next.len()).filter(|q| label >> q & 1 == 1).fold(0, |m, q| m | self.next[q][l])
    }
}

fn node(t: &mut Tree, name: usize) -> &mut Node {
    t[name].as_mut().unwrap()
}

fn names(t: &Tree) -> Vec<usize> {
    (0..t.len()).filter(|x| t[*x].is_some()).collect()
}

fn remove(t: &mut Tree, name: usize) {
    if let Some(node) = t[name].take() {
        node.children.iter().for_each(|c| remove(t, *c));
    }
}

fn take_out(t: &mut Tree, name: usize, gone: u32) {
    node(t, name).label &= !gone;
    for c in node(t, name).children.clone() {
        take_out(t, c, gone);
    }
}

fn successor(m: &Masks, tree: &Tree, l: usize) -> Tree {
    let mut t = tree.clone();
    // 1. Unmark
    t.iter_mut().flatten().for_each(|n| n.marked = false);
    // 2. Branch accepting
    for name in names(&t) {
        let label = node(&mut t, name).label & m.recurring;
        if label != 0 {
            let fresh = t.iter().position(|x| x.is_none()).expect("an unused name");
            t[fresh] = Some(Node { label, marked: false, children: Vec::new() });
            node(&mut t, name).children.push(fresh);
        }
    }
    // 3. Powerset
    t.iter_mut().flatten().for_each(|n| n.label = m.successors(n.label, l));
    // 4. Normalize siblings
    for name in names(&t) {
        let mut older = 0;
        for c in node(&mut t, name).children.clone() {
            take_out(&mut t, c, older);
            older |= node(&mut t, c).label;
        }
    }
    // 5. Remove empty
    let empty: Vec<usize> = names(&t).into_iter().filter(|x| node(&mut t, *x).label == 0).collect();
    for x in &empty {
        remove(&mut t, *x);
    }
    t.iter_mut().flatten().for_each(|n| n.children.retain(|c| !empty.contains(c)));
    // 6. Mark
    for name in names(&t) {
        let Some(here) = &t[name] else { continue };
        let children = here.children.clone();
        let label = here.label;
        let union = children.iter().fold(0, |u, c| u | node(&mut t, *c).label);
        if union == label {
            children.iter().for_each(|c| remove(&mut t, *c));
            node(&mut t, name).children.clear();
            node(&mut t, name).marked = true;
        }
    }
    t
}

/// The automaton, or None where it has more than `room` trees.
pub fn rabin(s: &Sheet, room: usize) -> Option<Rabin> {
    let m = Masks::of(s);
    let label = mask((0..s.n).filter(|q| s.initial[*q]));
    let mut first: Tree = vec![None; 2 * s.n];
    if label != 0 {
        first[0] = Some(Node { label, marked: false, children: Vec::new() });
    }
    let mut trees = vec![first.clone()];
    let mut number = HashMap::from([(first, 0)]);
    let mut next: Vec<Vec<usize>> = Vec::new();
    while next.len() < trees.len() {
        let mut row = Vec::new();
        for l in 0..s.k {
            let t = successor(&m, &trees[next.len()], l);
            let fresh = trees.len();
            let i = *number.entry(t.clone()).or_insert(fresh);
            if i == fresh {
                if fresh == room {
                    return None;
                }
                trees.push(t);
            }
            row.push(i);
        }
        next.push(row);
    }
    let pairs = (0..2 * s.n)
        .map(|x| {
            let marked = trees.iter().map(|t| t[x].as_ref().map_or(false, |n| n.marked)).collect();
            let absent = trees.iter().map(|t| t[x].is_none()).collect();
            (marked, absent)
        })
        .collect();
    Some(Rabin { next, pairs })
}
