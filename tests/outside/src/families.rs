//! Sheets of many families. Most have no meeting walks, by the way they are made; some are then perturbed.

mod circles;
mod dead_ends;
mod edition_damage;
mod marks;
mod united;
mod watched;
mod words;

use crate::edition::Edition;
use crate::random::Random;
use crate::sheet::{Plan, Sheet};
pub use circles::circles;
pub use dead_ends::with_dead_ends;
pub use edition_damage::edition_damaged;
pub use marks::marked;
pub use united::united;
pub use watched::watched;
pub use words::endless_word;
use std::collections::BTreeSet;

fn names(r: &mut Random, k: usize) -> Vec<Vec<u8>> {
    const PARTS: [&str; 12] = ["a", "B", "7", "~", "ä", "Ö", "ß", "u\u{308}", "A\u{308}", "o\u{308}", "-", "x"];
    let mut out: Vec<Vec<u8>> = Vec::new();
    while out.len() < k {
        let mut name = String::new();
        let long = if r.chance(10) { 24 } else { 6 };
        loop {
            let part = PARTS[r.below(PARTS.len())];
            if name.len() + part.len() > long || (!name.is_empty() && r.chance(30)) {
                break;
            }
            name += part;
        }
        if r.chance(3) {
            name = "END".to_string();
        }
        let same = |x: &Vec<u8>| crate::names::characters(x) == crate::names::characters(name.as_bytes());
        if !name.is_empty() && !out.iter().any(same) {
            out.push(name.into_bytes());
        }
    }
    out
}

fn empty(r: &mut Random, n: usize, k: usize) -> Sheet {
    let some = [20, 50, 80][r.below(3)];
    Sheet {
        edition: Edition::States,
        n,
        k,
        initial: (0..n).map(|_| r.chance(some)).collect(),
        recurring: (0..n).map(|_| r.chance(40)).collect(),
        next: vec![vec![Vec::new(); k]; n],
        marked: BTreeSet::new(),
        names: names(r, k),
        withdrawn: Vec::new(),
    }
}

/// The numbers below n in any order.
fn shuffled(r: &mut Random, n: usize) -> Vec<usize> {
    let mut out: Vec<usize> = (0..n).collect();
    for i in 1..n {
        out.swap(i, r.below(i + 1));
    }
    out
}

fn add(s: &mut Sheet, q: usize, l: usize, t: usize) {
    let to = &mut s.next[q][l];
    if !to.contains(&t) {
        to.push(t);
        to.sort();
    }
}

/// Each state has at most one predecessor on a letter: walks to one state are equal, read backwards.
fn one_predecessor(r: &mut Random, mut s: Sheet, full: usize) -> Sheet {
    for l in 0..s.k {
        for t in 0..s.n {
            if r.chance(full) {
                let q = r.below(s.n);
                add(&mut s, q, l, t);
            }
        }
    }
    s
}

fn reverse_deterministic(r: &mut Random, n: usize, k: usize) -> Sheet {
    let s = empty(r, n, k);
    let full = [60, 80, 95, 100][r.below(4)];
    one_predecessor(r, s, full)
}

/// One initial state, at most one successor on a letter.
fn deterministic(r: &mut Random, n: usize, k: usize) -> Sheet {
    let mut s = empty(r, n, k);
    s.initial = (0..n).map(|q| q == 0).collect();
    for q in 0..n {
        for l in 0..k {
            if r.chance(85) {
                let t = r.below(n);
                add(&mut s, q, l, t);
            }
        }
    }
    s
}

/// A state foretells the next letter.
fn look_ahead(r: &mut Random, n: usize, k: usize) -> Sheet {
    let k = k.min(n);
    let mut s = empty(r, n, k);
    s.initial = (0..n).map(|q| q < k).collect();
    // States q and q + k foretell letter q % k; only one of them is entered from each state.
    for q in 0..n {
        let l = q % k;
        for next in 0..k {
            let copies: Vec<usize> = (0..n).filter(|t| t % k == next).collect();
            let t = copies[(q / k + l) % copies.len()];
            if r.chance(90) {
                add(&mut s, q, l, t);
            }
        }
    }
    s
}

/// The product of two sheets over the same letters.
fn product(r: &mut Random, n: usize, k: usize) -> Sheet {
    let a = 2 + r.below(3);
    let b = (n / a).max(1);
    let x = reverse_deterministic(r, a, k);
    let y = if r.chance(50) { deterministic(r, b, k) } else { reverse_deterministic(r, b, k) };
    let mut s = empty(r, a * b, k);
    s.initial = (0..a * b).map(|q| x.initial[q / b] && y.initial[q % b]).collect();
    for q in 0..a * b {
        for l in 0..k {
            for t in &x.next[q / b][l] {
                for u in &y.next[q % b][l] {
                    add(&mut s, q, l, t * b + u);
                }
            }
        }
    }
    s
}

/// "From some job on only .." and "again and again ..": a guess of the moment from which letters are forbidden.
fn from_some_on(r: &mut Random, n: usize, k: usize) -> Sheet {
    let half = (n / 2).max(1);
    let base = deterministic(r, half, k);
    let mut s = empty(r, half * 2, k);
    s.initial = (0..half * 2).map(|q| q % half == 0).collect();
    s.recurring = (0..half * 2).map(|q| q >= half).collect();
    let forbidden = r.below(k);
    for q in 0..half {
        for l in 0..k {
            for &t in &base.next[q][l] {
                add(&mut s, q, l, t);
                if l == forbidden {
                    add(&mut s, q, l, half + t);
                } else {
                    add(&mut s, half + q, l, half + t);
                }
            }
        }
    }
    s
}

fn anything(r: &mut Random, n: usize, k: usize) -> Sheet {
    let mut s = empty(r, n, k);
    for _ in 0..r.below(2 * n * k + 1) {
        let (q, l, t) = (r.below(n), r.below(k), r.below(n));
        add(&mut s, q, l, t);
    }
    s
}

/// Some transitions more or fewer.
fn perturbed(r: &mut Random, mut s: Sheet) -> Sheet {
    for _ in 0..1 + r.below(2) {
        let (q, l, t) = (r.below(s.n), r.below(s.k), r.below(s.n));
        if r.chance(50) {
            s.next[q][l].pop();
        } else {
            add(&mut s, q, l, t);
        }
    }
    s
}

pub fn sheet(r: &mut Random, most: usize) -> Sheet {
    let n = 1 + r.below(most);
    of_size(r, n)
}

/// A sheet of n states, or a few fewer where its family says so.
pub fn of_size(r: &mut Random, n: usize) -> Sheet {
    let k = 1 + r.below(8);
    let s = match r.below(8) {
        0 | 1 => reverse_deterministic(r, n, k),
        2 => deterministic(r, n, k),
        3 => look_ahead(r, n, k),
        4 => product(r, n.max(2), k),
        5 => from_some_on(r, n, k),
        6 => anything(r, n, k),
        _ => {
            let kind = r.below(2);
            let s = if kind == 0 { reverse_deterministic(r, n, k) } else { from_some_on(r, n, k) };
            perturbed(r, s)
        }
    };
    assert!(s.n <= 16);
    s
}

/// The sheet with k letters: those behind are dropped, those that are missing have no transitions.
pub fn with_letters(s: &Sheet, k: usize) -> Sheet {
    let mut out = s.clone();
    out.k = k;
    out.next.iter_mut().for_each(|row| row.resize(k, Vec::new()));
    out.names.resize(k, Vec::new());
    out.marked.retain(|(_, l, _)| *l < k);
    out
}

/// The sheet with letters withdrawn, up to all but the last, in chains or not; their transitions go. Now and then one of them has a
/// transition again, which is 16.
pub fn withdrawn(r: &mut Random, mut s: Sheet) -> Sheet {
    let often = [20, 50, 80, 100][r.below(4)];
    let next_one = [0, 50, 100][r.below(3)];
    for l in 0..s.k - 1 {
        if r.chance(often) {
            let by = if r.chance(next_one) { l + 1 } else { l + 1 + r.below(s.k - 1 - l) };
            s.withdrawn.push((l, by));
            s.next.iter_mut().for_each(|row| row[l].clear());
        }
    }
    if !s.withdrawn.is_empty() && r.chance(12) {
        let (q, l, t) = (r.below(s.n), s.withdrawn[r.below(s.withdrawn.len())].0, r.below(s.n));
        add(&mut s, q, l, t);
    }
    s
}

/// As many transitions as give some hundred tuples.
pub fn sparse(r: &mut Random, n: usize) -> Sheet {
    let k = 1 + r.below(8);
    let s = empty(r, n, k);
    let full = 30 + r.below(50);
    one_predecessor(r, s, full)
}

pub fn plan(r: &mut Random, k: usize) -> Plan {
    let long = if r.chance(5) { 200 } else { 6 };
    let lead = r.below(long + 1);
    let cycle = 1 + r.below(long);
    Plan { lead: (0..lead).map(|_| r.below(k)).collect(), cycle: (0..cycle).map(|_| r.below(k)).collect() }
}

/// A file damaged in one place.
pub fn damaged(r: &mut Random, file: &[u8]) -> Vec<u8> {
    if file.is_empty() {
        return b"\n".to_vec();
    }
    let mut out = file.to_vec();
    let at = r.below(out.len());
    const BYTES: &[u8] = b"0123456789 ABCENSTPLXa\n\r\x00\xc3\xcc\x88\xa4~!\x7f";
    let lines = |x: &[u8]| x.split_inclusive(|b| *b == b'\n').map(|l| l.to_vec()).collect::<Vec<_>>();
    match r.below(9) {
        0 | 1 => out[at] = BYTES[r.below(BYTES.len())],
        2 => {
            out.remove(at);
        }
        3 => out.insert(at, BYTES[r.below(BYTES.len())]),
        4 => out.truncate(at),
        5 => {
            let mut all = lines(&out);
            let i = r.below(all.len());
            let line = all[i].clone();
            all.insert(i, line);
            out = all.concat();
        }
        6 => {
            let mut all = lines(&out);
            all.remove(r.below(all.len()));
            out = all.concat();
        }
        7 => {
            let mut all = lines(&out);
            let (i, j) = (r.below(all.len()), r.below(all.len()));
            all.swap(i, j);
            out = all.concat();
        }
        _ => out.extend(BYTES[r.below(BYTES.len())..].iter().take(1 + r.below(3))),
    }
    out
}

/// A file with one of its withdrawal lines changed, or with one more: mostly behind the names, now and then in another place.
pub fn withdrawal_damaged(r: &mut Random, file: &[u8]) -> Vec<u8> {
    let mut all: Vec<Vec<u8>> = file.split_inclusive(|b| *b == b'\n').map(|l| l.to_vec()).collect();
    let own: Vec<usize> = (0..all.len()).filter(|i| all[*i].starts_with(b"W")).collect();
    let old = r.below(9);
    let new = if r.chance(50) { old + 1 + r.below(3) } else { r.below(9) };
    let line = match r.below(12) {
        0..=5 => format!("W{old:3}{new:3}\n"),
        6 => format!("w{old:3}{new:3}\n"),
        7 => format!("W{old:3}{new:3}"),
        8 => format!("W{old:3}{new:3} \n"),
        9 => format!("W{old:03}{new:3}\n"),
        10 => format!("W{old:3}\n"),
        _ => "W".to_string(),
    };
    if own.is_empty() || r.chance(40) {
        let behind_names = all.iter().rposition(|l| l.starts_with(b"N")).map_or(0, |i| i + 1);
        let at = if r.chance(50) { behind_names } else { r.below(all.len() + 1) };
        all.insert(at, line.into_bytes());
        return all.concat();
    }
    let at = own[r.below(own.len())];
    match r.below(4) {
        0 | 1 => all[at] = line.into_bytes(),
        2 => {
            let byte = r.below(all[at].len());
            all[at][byte] = b"0123456789 WwNST\n\r"[r.below(18)];
        }
        _ => {
            // The file ends in the line.
            let left = r.below(all[at].len());
            all[at].truncate(left);
            all.truncate(at + 1);
        }
    }
    all.concat()
}
