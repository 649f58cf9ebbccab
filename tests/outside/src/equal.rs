//! Do a tracker and a Rabin automaton accept the same endless sequences? Decided on their product, not by samples.

use crate::graph::Graph;
use crate::safra::Rabin;
use crate::tuples::Tracker;
use std::collections::HashMap;

struct Product<'a> {
    graph: Graph,
    /// Of each node: the colour of its tuple, which is entered with it, and its tree.
    colour: Vec<usize>,
    tree: Vec<usize>,
    rabin: &'a Rabin,
}

/// The reachable pairs of tuple and tree, or None where there are more than `room`.
fn product<'a>(t: &Tracker, r: &'a Rabin, room: usize) -> Option<Product<'a>> {
    let mut nodes = vec![(0, 0)];
    let mut number = HashMap::from([((0, 0), 0)]);
    let mut edges: Vec<Vec<usize>> = Vec::new();
    while edges.len() < nodes.len() {
        let (x, y) = nodes[edges.len()];
        let mut row = Vec::new();
        for l in 0..t.next[x].len() {
            let to = (t.next[x][l], r.next[y][l]);
            let fresh = nodes.len();
            let i = *number.entry(to).or_insert(fresh);
            if i == fresh {
                nodes.push(to);
            }
            row.push(i);
        }
        edges.push(row);
        if nodes.len() > room {
            return None;
        }
    }
    let colour = nodes.iter().map(|x| t.tuples[x.0].colour).collect();
    let tree = nodes.iter().map(|x| x.1).collect();
    Some(Product { graph: Graph::new(edges), colour, tree, rabin: r })
}

impl Product<'_> {
    fn least(&self, part: &[usize]) -> usize {
        part.iter().map(|x| self.colour[*x]).min().unwrap()
    }

    fn without_colour(&self, part: &[usize], c: usize) -> Vec<usize> {
        part.iter().copied().filter(|x| self.colour[*x] != c).collect()
    }

    /// The pairs by which a loop through all of these nodes is accepted: marked somewhere and nowhere absent.
    fn accepting(&self, part: &[usize]) -> Vec<usize> {
        let trees: Vec<usize> = part.iter().map(|x| self.tree[*x]).collect();
        let good = |(marked, absent): &(Vec<bool>, Vec<bool>)| trees.iter().any(|y| marked[*y]) && !trees.iter().any(|y| absent[*y]);
        (0..self.rabin.pairs.len()).filter(|p| good(&self.rabin.pairs[*p])).collect()
    }

    /// Is there a loop in these nodes with an even least colour that Rabin rejects?
    fn wrongly_passed(&mut self, nodes: &[usize]) -> bool {
        for part in self.graph.components(nodes) {
            let c = self.least(&part);
            let rest = if c % 2 == 1 {
                // A loop with an even least colour avoids this one.
                self.without_colour(&part, c)
            } else {
                let accepting = self.accepting(&part);
                if accepting.is_empty() {
                    return true;
                }
                // A rejected loop avoids every tree in which such a pair is marked.
                let marked = |x: usize| accepting.iter().any(|p| self.rabin.pairs[*p].0[self.tree[x]]);
                part.iter().copied().filter(|x| !marked(*x)).collect()
            };
            if self.wrongly_passed(&rest) {
                return true;
            }
        }
        false
    }

    /// Is there a loop in these nodes with an odd least colour, in which pair p is marked? (It is absent in none of the nodes.)
    fn wrongly_refused(&mut self, nodes: &[usize], p: usize) -> bool {
        for part in self.graph.components(nodes) {
            if !part.iter().any(|x| self.rabin.pairs[p].0[self.tree[*x]]) {
                continue;
            }
            let c = self.least(&part);
            if c % 2 == 1 || self.wrongly_refused(&self.without_colour(&part, c), p) {
                return true;
            }
        }
        false
    }
}

/// None where the product has more than `room` nodes.
pub fn same_sequences(t: &Tracker, r: &Rabin, room: usize) -> Option<bool> {
    let mut p = product(t, r, room)?;
    let all: Vec<usize> = (0..p.tree.len()).collect();
    if p.wrongly_passed(&all) {
        return Some(false);
    }
    for (i, (marked, absent)) in r.pairs.iter().enumerate() {
        if !marked.contains(&true) {
            continue;
        }
        let present: Vec<usize> = all.iter().copied().filter(|x| !absent[p.tree[*x]]).collect();
        if p.wrongly_refused(&present, i) {
            return Some(false);
        }
    }
    Some(true)
}
