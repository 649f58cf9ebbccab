//! The longest witness: the bound n(n+1)/2 on a shortest meeting word is reached for every n, and with a dead end that walks come together in
//! much earlier, for as many states as go on. Marks change nothing of it.

use crate::bench::Bench;
use crate::cases::{longest_word, with_early_dead_end};
use crate::conversion::with_marks;
use crate::sheet::write_sheet;
use crate::walks;

pub fn run(b: &mut Bench) {
    for n in 2..=16 {
        let s = longest_word(n);
        let file = write_sheet(&s, false);
        b.expect("bound reached", walks::shortest_meeting(&s) == Some(n * (n + 1) / 2), &file);
        b.rewritten("longest word", &file);
        b.rewritten("longest word with marks", &write_sheet(&with_marks(&s), false));
    }
    for going in 3..=15 {
        let s = with_early_dead_end(going);
        let file = write_sheet(&s, false);
        b.expect("bound reached: dead end", walks::shortest_meeting_anywhere(&s) == Some(going + 1), &file);
        b.expect("bound reached: dead end", walks::shortest_meeting(&s) == Some(going * (going + 1) / 2), &file);
        b.rewritten("longest word: dead end", &file);
        b.rewritten("longest word with marks: dead end", &write_sheet(&with_marks(&s), false));
    }
}
