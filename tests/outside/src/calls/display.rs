//! A tracker's table as a display follows it, read from the lent cells, and what the display may rely on.

use super::lent::{Tables, COLOUR, NEXTS, TUPLE};
use crate::bench::Bench;
use crate::endless_words::reading;
use crate::endless_words::run::Table;
use crate::sheet::Sheet;

/// The colour of the tuple that is entered when no walk is left.
const LOST: usize = 1;

/// The counted tuples' next numbers on the sheet's letters, and their colours; None where one of them is out of its range.
pub fn table(b: &mut Bench, s: &Sheet, after: &Tables, file: &[u8]) -> Option<Table> {
    let (tuples, nexts, count) = (after.tuples.inside(), after.nexts.inside(), after.answer.inside()[6]);
    let next = |t: usize| (0..s.k).map(|l| nexts[NEXTS * t + l] as usize).collect();
    let next: Vec<Vec<usize>> = (0..count).map(next).collect();
    let colour: Vec<usize> = (0..count).map(|t| tuples[TUPLE * t + COLOUR] as usize).collect();
    let below = next.iter().flatten().all(|to| *to < count);
    b.expect("display: next numbers are below the count", below, file);
    let coloured = colour.iter().all(|c| (1..=2 * s.n + 1).contains(c));
    b.expect("display: colours are from 1 to 2n+1", coloured, file);
    (below && coloured).then_some(Table { next, colour })
}

/// Is colour 1 entered on a letter exactly if no walk is left? Each tuple is held to one set of states that walks have come to, so what is
/// found on some word to it holds on every word.
fn tells_who_is_lost(s: &Sheet, t: &Table) -> bool {
    let mut left: Vec<Option<Vec<bool>>> = vec![None; t.next.len()];
    left[0] = Some(s.initial.clone());
    let mut todo = vec![0];
    while let Some(u) = todo.pop() {
        for (l, to) in t.next[u].iter().enumerate() {
            let states = reading::after(s, left[u].as_ref().unwrap(), l);
            if (t.colour[*to] == LOST) == states.contains(&true) {
                return false;
            }
            match &left[*to] {
                Some(known) if *known != states => return false,
                Some(_) => {}
                None => {
                    left[*to] = Some(states);
                    todo.push(*to);
                }
            }
        }
    }
    true
}

pub fn promises(b: &mut Bench, s: &Sheet, t: &Table, file: &[u8]) {
    b.expect("display: colour 1 tells that no walk is left", tells_who_is_lost(s, t), file);
    let stays = (0..t.next.len()).filter(|u| t.colour[*u] == LOST).all(|u| t.next[u].iter().all(|to| *to == u));
    b.expect("display: the tuple of colour 1 leads to itself", stays, file);
}

/// Of a sheet file: numbers know no withdrawn letters.
pub fn withdrawn(b: &mut Bench, s: &Sheet, t: &Table, file: &[u8]) {
    for l in (0..s.k).filter(|l| s.withdraws(*l)) {
        let lost = t.next.iter().all(|row| t.colour[row[l]] == LOST);
        b.expect("display: a withdrawn letter leads to colour 1", lost, file);
    }
}
