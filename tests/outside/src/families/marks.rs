//! Sheets with marks on transitions: those of the other families, with marks of many kinds in the place of must-recur states.

use crate::conversion;
use crate::random::Random;
use crate::sheet::Sheet;

pub fn marked(r: &mut Random, s: &Sheet) -> Sheet {
    let mut out = conversion::with_marks(s);
    let all = s.transitions();
    let often = [5, 20, 50, 80][r.below(4)];
    let (letter, state) = (r.below(s.k), r.below(s.n));
    match r.below(10) {
        // Those into must-recur states, and now and then a few others or fewer.
        0 => {}
        1 => {
            for _ in 0..(1 + r.below(3)).min(all.len()) {
                let one = all[r.below(all.len())];
                if !out.marked.remove(&one) {
                    out.marked.insert(one);
                }
            }
        }
        2 => out.marked = all.into_iter().filter(|t| t.1 == letter).collect(),
        3 => out.marked = all.into_iter().filter(|t| t.0 == state).collect(),
        4 => {
            let from: Vec<bool> = (0..s.n).map(|_| r.chance(often)).collect();
            out.marked = all.into_iter().filter(|t| from[t.0]).collect();
        }
        // One of the transitions out of a state on a letter, so that what is reached there is reached over a mark or not.
        5 => out.marked = all.into_iter().filter(|t| (t.0 + t.1 + t.2) % 2 == 0).collect(),
        6 if r.chance(30) => out.marked = if r.chance(50) { all.into_iter().collect() } else { Default::default() },
        _ => out.marked = all.into_iter().filter(|_| r.chance(often)).collect(),
    }
    out
}
