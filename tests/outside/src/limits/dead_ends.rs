//! Walks that come together in a state that stops, and the same sheets with a transition more, by which it goes on; each sheet in both editions.

use crate::bench::Bench;
use crate::cases::sheet_of;
use crate::conversion::with_marks;
use crate::families;
use crate::random::Random;
use crate::sheet::{write_plan, write_sheet, Sheet};

type Edges = Vec<(usize, usize, usize)>;

fn with(edges: &Edges, more: (usize, usize, usize)) -> Edges {
    [&edges[..], &[more]].concat()
}

fn through(b: &mut Bench, what: &str, s: &Sheet) {
    let plan = write_plan(s, &families::plan(&mut Random::new(s.n as u64), s.k));
    for (what, s) in [(what.to_string(), s), (format!("{what}, with marks"), &with_marks(s))] {
        let file = write_sheet(s, false);
        b.listed(&format!("{what} listed"), &file);
        b.rewritten(&format!("{what} written"), &file);
        b.judged(&format!("{what} judged"), &[&file[..], &plan].concat());
    }
}

/// States 0 and 1 both go to 2: the request's own case, byte for byte.
fn own_case(b: &mut Bench) {
    let edges = vec![(0, 0, 2), (1, 0, 2)];
    let file = write_sheet(&sheet_of(3, 1, &[0, 1], &[], &edges), false);
    let listing: &[u8] = b"TRACK  3  1    3\nQ    0  7     3     0     0    1\nQ    1  7     4     0     0    2\nQ    2  1     0     0     0    2\nEND\n";
    b.expect("limit: 2 stops", b.run("track", &file) == listing, &file);
    let file = write_sheet(&sheet_of(3, 1, &[0, 1], &[], &with(&edges, (2, 0, 2))), false);
    b.expect("limit: 2 has a loop", b.run("track", &file) == b"REF 10    0\n", &file);
    let printed = b.run("rewrite", &file);
    let either = [["0 2", "1 2"], ["1 2", "0 2"]].map(|[one, other]| format!("REF 10    0\nWORD 0\nWALK {one}\nWALK {other}\n"));
    b.expect("limit: 2 has a loop", either.iter().any(|x| printed == x.as_bytes()), &file);
}

/// States 0 and 1 both go to 2, and from there a chain goes on to the last state; then from each state of the chain a transition on another
/// letter to each state.
fn chains(b: &mut Bench) {
    for n in [3, 4, 5, 16] {
        let edges: Edges = [(0, 0, 2), (1, 0, 2)].into_iter().chain((3..n).map(|t| (t - 1, 0, t))).collect();
        through(b, "limit: a chain that stops", &sheet_of(n, 2, &[0, 1], &[2], &edges));
        for q in 2..n {
            for t in 0..n {
                through(b, "limit: a chain with a transition more", &sheet_of(n, 2, &[0, 1], &[2], &with(&edges, (q, 1, t))));
            }
        }
    }
}

/// Every transition to a later state, and every state initial: no path is endless. Then with a loop in each state.
fn nothing_goes_on(b: &mut Bench) {
    for (n, k) in [(3, 1), (4, 2), (16, 1), (16, 2), (16, 8)] {
        let later = |q: usize| (0..k).flat_map(move |l| (q + 1..n).map(move |t| (q, l, t)));
        let edges: Edges = (0..n).flat_map(later).collect();
        let all: Vec<usize> = (0..n).collect();
        through(b, "limit: nothing goes on", &sheet_of(n, k, &all, &[n / 2], &edges));
        for q in 0..n {
            through(b, "limit: one state goes on", &sheet_of(n, k, &all, &[n / 2], &with(&edges, (q, 0, q))));
        }
    }
}

/// Walks come together on the letter that is withdrawn or on the other, in a state that stops or goes on by the one or the other: 16 is asked
/// before 10.
fn withdrawn_letter(b: &mut Bench) {
    for meeting in [0, 1] {
        let edges = vec![(0, meeting, 2), (1, meeting, 2)];
        for edges in [edges.clone(), with(&edges, (2, 0, 2)), with(&edges, (2, 1, 2))] {
            let mut s = sheet_of(3, 2, &[0, 1], &[], &edges);
            s.withdrawn = vec![(0, 1)];
            through(b, "limit: a dead end and a withdrawn letter", &s);
        }
    }
}

pub fn run(b: &mut Bench) {
    own_case(b);
    chains(b);
    nothing_goes_on(b);
    withdrawn_letter(b);
}
