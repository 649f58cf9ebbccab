//! The tracker by the requirements' text, on sets of states as sorted lists: to compare the listing, cell by cell.

use crate::edition::Edition;
use crate::sheet::{Plan, Sheet};
use std::collections::{BTreeSet, HashMap};

type Set = BTreeSet<usize>;

#[derive(Clone, PartialEq, Eq, Hash, Debug)]
pub struct Tuple {
    pub sets: Vec<Set>,
    pub colour: usize,
}

pub struct Tracker {
    pub tuples: Vec<Tuple>,
    pub next: Vec<Vec<usize>>,
}

fn successors(s: &Sheet, set: &Set, l: usize) -> Set {
    set.iter().flat_map(|q| s.next[*q][l].iter().copied()).collect()
}

/// The states reached from a set over a marked transition.
fn reached_by_marks(s: &Sheet, set: &Set, l: usize) -> Set {
    set.iter().flat_map(|q| s.next[*q][l].iter().copied().filter(|t| s.marked.contains(&(*q, l, *t)))).collect()
}

pub fn first(s: &Sheet) -> Tuple {
    let mut sets = vec![Set::new(); s.n];
    sets[0] = (0..s.n).filter(|q| s.initial[*q]).collect();
    Tuple { sets, colour: 2 * s.n + 1 }
}

pub fn step(s: &Sheet, u: &Tuple, l: usize) -> Tuple {
    let before = u.sets.iter().filter(|x| !x.is_empty()).count();
    let mut sets: Vec<Set> = u.sets.iter().map(|x| successors(s, x, l)).collect();
    sets.push(Set::new());
    sets[before] = match s.edition {
        Edition::States => sets[0].iter().copied().filter(|q| s.recurring[*q]).collect(),
        // From set 0 as it was before the step.
        Edition::Marks => reached_by_marks(s, &u.sets[0], l),
    };
    let mut colours = vec![2 * s.n + 1];
    for i in 0..sets.len() {
        let here = sets[i].clone();
        let later: Set = sets[i + 1..].iter().flatten().copied().collect();
        if !here.is_empty() && here.is_subset(&later) {
            colours.push(2 * i + 2);
            for x in &mut sets[i + 1..] {
                x.retain(|q| !here.contains(q));
            }
        }
    }
    for i in 0..s.n {
        if !u.sets[i].is_empty() && sets[i].is_empty() {
            colours.push(2 * i + 1);
        }
    }
    if sets[0].is_empty() {
        colours.push(1);
    }
    sets.retain(|x| !x.is_empty());
    assert!(sets.len() <= s.n, "more than n sets");
    sets.resize(s.n, Set::new());
    Tuple { sets, colour: *colours.iter().min().unwrap() }
}

/// All reachable tuples, numbered as found, or None where there are more than `room`.
pub fn build(s: &Sheet, room: usize) -> Option<Tracker> {
    let mut tuples = vec![first(s)];
    let mut number = HashMap::from([(tuples[0].clone(), 0)]);
    let mut next: Vec<Vec<usize>> = Vec::new();
    while next.len() < tuples.len() {
        let here = tuples[next.len()].clone();
        let mut row = Vec::new();
        for l in 0..s.k {
            let u = step(s, &here, l);
            let fresh = tuples.len();
            let i = *number.entry(u.clone()).or_insert(fresh);
            if i == fresh {
                if fresh == room {
                    return None;
                }
                tuples.push(u);
            }
            row.push(i);
        }
        next.push(row);
    }
    Some(Tracker { tuples, next })
}

fn mask(x: &Set) -> usize {
    x.iter().map(|q| 1 << q).sum()
}

pub fn listing(s: &Sheet, t: &Tracker) -> String {
    let mut out = format!("TRACK{:3}{:3}{:5}\n", s.n, s.k, t.tuples.len());
    for (i, u) in t.tuples.iter().enumerate() {
        out += &format!("Q{:5}{:3}", i, u.colour);
        u.sets.iter().for_each(|x| out += &format!("{:6}", mask(x)));
        t.next[i].iter().for_each(|x| out += &format!("{x:5}"));
        out += "\n";
    }
    out + "END\n"
}

/// Answer, least colour and passes.
pub fn verdict(t: &Tracker, p: &Plan) -> (bool, usize, usize) {
    let mut at = p.lead.iter().fold(0, |x, l| t.next[x][*l]);
    let mut ends = vec![at];
    let mut least = Vec::new();
    loop {
        let mut low = usize::MAX;
        for l in &p.cycle {
            at = t.next[at][*l];
            low = low.min(t.tuples[at].colour);
        }
        least.push(low);
        if let Some(a) = ends.iter().position(|x| *x == at) {
            let c = *least[a..].iter().min().unwrap();
            return (c % 2 == 0, c, least.len());
        }
        ends.push(at);
    }
}
