//! The blocks themselves put to the test, where that is cheap: the word is spelled by its formula, and gone through letter by letter.

use super::reading::Readings;
use super::run::Table;
use super::shapes::Spelled;
use crate::product;
use crate::sheet::{Plan, Sheet};
use std::ops::Range;

/// The most letters that are gone through step by step, and the most of a plan.
const STEPS: usize = 4000;
const PLAN: usize = 400;

/// Where the blocks of a round begin, those of the next round, and those behind it. None where that is behind so many letters.
fn two_rounds(w: &Spelled, round: &Range<usize>, most: usize) -> Option<[usize; 3]> {
    let behind = 2 * round.end - round.start;
    let places = w.word().beginnings(behind);
    (places[behind] <= most).then(|| [places[round.start], places[round.end], places[behind]])
}

/// Is this the least colour of one round, of the next, and of a long stretch, step by step?
pub fn step_by_step(t: &Table, w: &Spelled, least: usize, round: &Range<usize>) -> Option<bool> {
    let [one, next, behind] = two_rounds(w, round, STEPS)?;
    let colours = t.colours(&w.letters(STEPS));
    Some([one..next, next..behind, one..STEPS].into_iter().all(|places| colours[places].iter().min() == Some(&least)))
}

/// Is this the answer on the plans that go round in the blocks of one round, and in those of the next? Readings of these get as far as those of the word.
pub fn as_plans(s: &Sheet, w: &Spelled, readings: &Readings) -> Option<bool> {
    let [one, next, behind] = two_rounds(w, &readings.round, PLAN)?;
    let letters = w.letters(PLAN);
    let plan = |cycle: Range<usize>| Plan { lead: letters[..cycle.start].to_vec(), cycle: letters[cycle].to_vec() };
    Some([one..next, next..behind].into_iter().all(|cycle| product::passes(s, &plan(cycle)) == readings.passes))
}
