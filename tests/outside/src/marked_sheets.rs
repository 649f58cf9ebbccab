//! Random sheets with marks on transitions through every program.

use crate::bench::Bench;
use crate::conversion::with_marks;
use crate::families;
use crate::larger;
use crate::random::Random;
use crate::sheet::{write_plan, write_sheet, Sheet};

/// A sheet of any family, with must-recur states.
fn any_family(r: &mut Random, most: usize) -> Sheet {
    match r.below(3) {
        0 => families::sheet(r, most),
        1 => {
            let plain = families::sheet(r, most);
            families::withdrawn(r, plain)
        }
        _ => families::with_dead_ends(r, most),
    }
}

/// Whole, damaged, and with something of the other edition.
fn with_any_marks(b: &mut Bench, r: &mut Random, plain: &Sheet) {
    let s = families::marked(r, plain);
    let file = write_sheet(&s, false);
    b.listed("marks: listing", &file);
    b.rewritten("marks: written", &file);
    let mut plan = Vec::new();
    for _ in 0..2 {
        plan = write_plan(&s, &families::plan(r, s.k));
        b.judged("marks: verdict", &[&file[..], &plan].concat());
    }
    b.judged("marks: damaged input", &families::damaged(r, &[&file[..], &plan].concat()));
    b.listed("marks: damaged sheet", &families::damaged(r, &file));
    let either = if r.chance(70) { file.clone() } else { write_sheet(plain, false) };
    b.listed("marks: of another edition listed", &families::edition_damaged(r, &either));
    b.rewritten("marks: of another edition written", &families::edition_damaged(r, &either));
    b.judged("marks: of another edition judged", &[&families::edition_damaged(r, &either)[..], &plan].concat());
    if let Some(same) = larger::same_as_safra(&s) {
        b.expect("marks: Safra", same, &file);
    }
}

/// With a mark on every transition into a must-recur state the programs print the very same.
fn in_both_editions(b: &mut Bench, r: &mut Random, plain: &Sheet) {
    let [one, other] = [write_sheet(plain, false), write_sheet(&with_marks(plain), false)];
    b.expect("marks: the same listing", b.run("track", &one) == b.run("track", &other), &one);
    let plan = write_plan(plain, &families::plan(r, plain.k));
    let judged = [one, other].map(|file| b.run("verdict", &[&file[..], &plan].concat()));
    b.expect("marks: the same verdict", judged[0] == judged[1], &plan);
}

pub fn run(b: &mut Bench, r: &mut Random, most: usize) {
    let plain = any_family(r, most);
    with_any_marks(b, r, &plain);
    in_both_editions(b, r, &plain);
}
