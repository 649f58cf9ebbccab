//! The verdict without tuples: a cycle through a must-recur state, or over a marked transition, in the product of sheet and plan.

use crate::edition::Edition;
use crate::graph::Graph;
use crate::sheet::{Plan, Sheet};

/// Has some endless reading of the plan must-recur states, or marked transitions, without end?
pub fn passes(s: &Sheet, p: &Plan) -> bool {
    let letters: Vec<usize> = p.lead.iter().chain(&p.cycle).copied().collect();
    let after = |t: usize| if t + 1 == letters.len() { p.lead.len() } else { t + 1 };
    let node = |t: usize, q: usize| t * s.n + q;
    let mut edges = vec![Vec::new(); letters.len() * s.n];
    let mut marked = Vec::new();
    for (t, l) in letters.iter().copied().enumerate() {
        for q in 0..s.n {
            edges[node(t, q)] = s.next[q][l].iter().map(|r| node(after(t), *r)).collect();
            marked.extend(s.next[q][l].iter().filter(|r| s.marked.contains(&(q, l, **r))).map(|r| (node(t, q), node(after(t), *r))));
        }
    }
    let mut reached = vec![false; edges.len()];
    let mut todo: Vec<usize> = (0..s.n).filter(|q| s.initial[*q]).map(|q| node(0, q)).collect();
    while let Some(x) = todo.pop() {
        if !std::mem::replace(&mut reached[x], true) {
            todo.extend(&edges[x]);
        }
    }
    let alive: Vec<usize> = (0..edges.len()).filter(|x| reached[*x]).collect();
    let circles = Graph::new(edges).components(&alive);
    match s.edition {
        Edition::States => circles.iter().flatten().any(|x| s.recurring[x % s.n]),
        // A transition is taken again and again where it leads back into its own component.
        Edition::Marks => {
            let mut circle = vec![None; reached.len()];
            for (i, c) in circles.iter().enumerate() {
                c.iter().for_each(|x| circle[*x] = Some(i));
            }
            marked.iter().any(|(x, y)| circle[*x].is_some() && circle[*x] == circle[*y])
        }
    }
}
