//! Withdrawal lines: every pair of letters, every two lines, every way to withdraw, every place in the file, every cut.

use super::sizes::{longest_marked_sheet, longest_sheet};
use crate::bench::Bench;
use crate::cases::sheet_of;
use crate::conversion::with_marks;
use crate::sheet::{write_plan, write_sheet, Plan, Sheet};

/// Letter l turns the first l+1 of k states round, so a cycle of one letter takes as many passes: the passes tell the letter.
fn turning(k: usize, withdrawn: &[(usize, usize)]) -> Sheet {
    let turned = |l: usize, q: usize| if q > l { q } else { (q + 1) % (l + 1) };
    let mut edges = Vec::new();
    for q in 0..k {
        for l in (0..k).filter(|l| withdrawn.iter().all(|w| w.0 != *l)) {
            edges.push((q, l, turned(l, q)));
        }
    }
    let mut s = sheet_of(k, k, &[0], &[0], &edges);
    s.withdrawn = withdrawn.to_vec();
    s
}

/// The sheet through every program, with a plan of each name alone and one of all names.
fn through(b: &mut Bench, what: &str, s: &Sheet) {
    let file = write_sheet(s, false);
    b.listed(&format!("{what} listed"), &file);
    b.rewritten(&format!("{what} written"), &file);
    for l in 0..s.k {
        let plan = write_plan(s, &Plan { lead: Vec::new(), cycle: vec![l] });
        b.judged(&format!("{what} judged"), &[&file[..], &plan].concat());
    }
    let all: Vec<usize> = (0..s.k).collect();
    let plan = write_plan(s, &Plan { lead: all.clone(), cycle: all });
    b.judged(&format!("{what} judged"), &[&file[..], &plan].concat());
}

/// One line, of every two numbers below 10 and the first that have two and three digits.
fn pairs(b: &mut Bench) {
    for old in (0..=9).chain([10, 100]) {
        for new in (0..=9).chain([10, 100]) {
            let file = write_sheet(&turning(8, &[(old, new)]), false);
            b.rewritten("limit: a withdrawal", &file);
            b.judged("limit: a withdrawal judged", &[&file[..], b"PLAN  1  1\na\nb\nEND\n"].concat());
        }
    }
}

/// Two lines, each of every two numbers.
fn two_lines(b: &mut Bench) {
    let each: Vec<(usize, usize)> = (0..4).flat_map(|old| (0..5).map(move |new| (old, new))).collect();
    for one in &each {
        for other in &each {
            let file = write_sheet(&turning(4, &[*one, *other]), false);
            b.judged("limit: two withdrawals judged", &[&file[..], b"PLAN  1  1\na\nb\nEND\n"].concat());
        }
    }
}

/// Every way to withdraw letters of five, then chains and stars over all eight.
fn ways(b: &mut Bench) {
    let mut all: Vec<Vec<(usize, usize)>> = vec![Vec::new()];
    for old in 0..4 {
        let more: Vec<_> = all.iter().flat_map(|way| (old + 1..5).map(move |new| [&way[..], &[(old, new)]].concat())).collect();
        all.extend(more);
    }
    b.expect("limit: ways to withdraw", all.len() == 120, b"");
    for way in &all {
        through(b, "limit: each way to withdraw", &turning(5, way));
        through(b, "limit: each way to withdraw, with marks", &with_marks(&turning(5, way)));
    }
    for k in 1..=8 {
        let chain: Vec<_> = (0..k - 1).map(|l| (l, l + 1)).collect();
        let star: Vec<_> = (0..k - 1).map(|l| (l, k - 1)).collect();
        through(b, "limit: a chain", &turning(k, &chain));
        through(b, "limit: all but the last", &turning(k, &star));
        for short in 1..k.min(4) {
            through(b, "limit: a short chain", &turning(k, &chain[..short]));
            through(b, "limit: a short chain", &turning(k, &chain[k - 1 - short..]));
        }
    }
}

/// A line of each form in each place of a sheet, added and instead of the one there; and the file cut behind each byte.
fn places(b: &mut Bench) {
    let plan = b"PLAN  1  1\na\nb\nEND\n";
    for withdrawn in [&[][..], &[(0, 1)], &[(0, 2), (1, 2)]] {
        let file = write_sheet(&turning(3, withdrawn), false);
        let lines: Vec<&[u8]> = file.split_inclusive(|x| *x == b'\n').collect();
        for line in [
            "W  0  1\n", "W  0  2\n", "W  1  2\n", "W  2  1\n", "W  1  1\n", "W  2  3\n", "W  0  3\n", "W  3  4\n", "W\n", "W", "W  0  1", "W  0  1 \n", "W  0  1\r\n",
            "W 0  1\n", "W 00  1\n", "W  0 01\n", "W000001\n", "W  x  1\n", "W  0   \n", "W     1\n", "W  0 -1\n", "W  0  1  2\n", "w  0  1\n", " W  0  1\n", "WW 0  1\n",
        ] {
            for i in 0..=lines.len() {
                let added = [&lines[..i].concat()[..], line.as_bytes(), &lines[i..].concat()].concat();
                b.listed("limit: a withdrawal line in each place", &added);
                let instead = [&lines[..i].concat()[..], line.as_bytes(), &lines[(i + 1).min(lines.len())..].concat()].concat();
                b.judged("limit: a withdrawal line in each place judged", &[&instead[..], plan].concat());
            }
        }
        for end in 0..file.len() {
            b.listed("limit: withdrawals cut", &file[..end]);
        }
    }
}

/// A transition on a withdrawn letter, with a fault of its own line, of an earlier or of a later one.
fn transitions(b: &mut Bench) {
    let good = write_sheet(&turning(3, &[(1, 2)]), false);
    let lines: Vec<&[u8]> = good.split_inclusive(|x| *x == b'\n').collect();
    let first = lines.iter().position(|l| l.starts_with(b"T")).unwrap();
    for i in first..=lines.len() {
        for used in ["T  0  1  0\n", "T  0  1  2\n", "T  1  1  1\n", "T  2  1  2\n", "T  2  1  3\n", "T  3  1  0\n", "T  2  1  2", "T  2  1  2 \n"] {
            for other in ["", "T  0  0  0\n", "T  2  2  2\n", "T  3  0  0\n", "T\n", "S  0  0  0\n", "W  0  1\n", "END\n"] {
                for two in [[used, other], [other, used]] {
                    let file = [&lines[..i].concat()[..], two.concat().as_bytes(), &lines[i..].concat()].concat();
                    b.listed("limit: a transition on a withdrawn letter", &file);
                }
            }
        }
    }
}

/// The longest sheet of each edition with letters withdrawn: with their transitions, which is 16, and without.
fn longest(b: &mut Bench) {
    for sheet in [longest_sheet, longest_marked_sheet] {
        for count in 1..8 {
            let mut s = sheet(false);
            s.withdrawn = (0..count).map(|l| (l, l + 1)).collect();
            through(b, "limit: the longest sheet with withdrawals", &s);
            s.next.iter_mut().for_each(|row| row[..count].iter_mut().for_each(|to| to.clear()));
            s.marked.retain(|(_, l, _)| *l >= count);
            through(b, "limit: the longest sheet with withdrawals", &s);
        }
    }
}

pub fn run(b: &mut Bench) {
    pairs(b);
    two_lines(b);
    ways(b);
    places(b);
    transitions(b);
    longest(b);
}
