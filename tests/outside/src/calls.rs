//! The public calls of the library, each with random, damaged and extreme arguments: the answer and every cell of every table against
//! a model of the call.

mod arguments;
pub mod both_editions;
mod call;
mod compare;
mod display;
pub mod every_tuple;
pub mod every_word;
mod facts;
mod foreign;
mod kinds;
mod lent;
mod model;
mod number_damage;
mod numbers;
mod scenario;
pub mod small_sheets;

use crate::bench::Bench;
use crate::edition::EDITIONS;
use crate::effect::Effect;
use crate::random::Random;
use arguments::Arguments;
use call::{Call, ALL};
use kinds::{BY_FILE, HARMLESS, LATE, LONGER};
use lent::Tables;
use model::Want;
use scenario::{Family, Scenario};

/// How many sheets, with their numbers and plans, the calls are tried on.
const SCENARIOS: u64 = 4000;
/// How many more of them there are with withdrawn letters.
const WITHDRAWN: u64 = 2000;
/// How many more of them there are with dead ends.
const DEAD_ENDS: u64 = 1500;
/// How many more of them there are with marks on transitions.
const MARKS: u64 = 2000;
/// How often each call is tried on each of them.
const TIMES: usize = 4;

pub fn run(b: &mut Bench) {
    for seed in 0..SCENARIOS + WITHDRAWN + DEAD_ENDS + MARKS {
        let mut r = Random::new(seed << 20 | 0xca11);
        let family = if seed < SCENARIOS {
            Family::Any
        } else if seed < SCENARIOS + WITHDRAWN {
            Family::Withdrawn
        } else if seed < SCENARIOS + WITHDRAWN + DEAD_ENDS {
            Family::DeadEnds
        } else {
            Family::Marks
        };
        let s = Scenario::new(&mut r, seed, family);
        for call in ALL {
            // The listing program clears 149,525 bytes each time.
            let times = if call == Call::Track { 1 } else { TIMES };
            for _ in 0..times {
                one(b, &mut r, &s, call);
            }
        }
    }
    for edition in EDITIONS {
        for call in ALL {
            for number in call.refusals(edition) {
                b.has_refused("refusals of each call", call.name(), edition, number);
            }
        }
    }
    b.at_least(100_000, "call ");
}

/// One call with arguments of any kind.
fn one(b: &mut Bench, r: &mut Random, s: &Scenario, call: Call) {
    let (a, before) = arguments::of(r, s, call);
    let (want, after, good) = compared(b, call.name(), s, call, a, before);
    // A short table for the answer may not tell which refusal it was.
    let told = call.program().is_some() || after.answer.len() >= 4;
    if good && told {
        let mut kinds = want.kinds.clone();
        if !kinds.contains(&LATE) && !kinds.contains(&BY_FILE) {
            kinds.push(want.number);
        }
        if kinds.contains(&0) && s.facts(call).effect == Effect::Accepted {
            kinds.push(HARMLESS);
        }
        if want.meeting.map_or(false, |(sheet, length)| Effect::on(sheet, Some(length)) == Effect::LongerWord) {
            kinds.push(LONGER);
        }
        for kind in kinds {
            b.refuses_edition(call.name(), s.edition(call), kind);
        }
    }
}

/// A call with these arguments, compared with its model: what was wanted, the tables after it, and whether they are as they should be.
fn compared<'a>(b: &mut Bench, what: &str, s: &'a Scenario, call: Call, a: Arguments, before: Tables) -> (Want<'a>, Tables, bool) {
    let want = model::want(call, s, &a, &before);
    let (mut after, mut used) = (before.clone(), a.clone());
    let returned = foreign::call(call, &mut used, &mut after);
    let difference = compare::difference(&want, returned, &after).or_else(|| (used != a).then(|| "an argument that is only read".to_string()));
    let text = difference.as_ref().map_or(String::new(), |what| format!("{what}\n{a:?}\n{}", before.lengths()));
    b.count(what, want.number, difference.is_none(), text.as_bytes());
    (want, after, difference.is_none())
}
