//! Every sheet of two states and two letters and every sheet of three states and one letter through the calls: question 10 with its witness,
//! the listing, the way to every tuple, and the verdict on short plans, which is held to the product of sheet and plan too. Of the sheets of
//! three states and two letters and of four states and one letter question 10 alone: in the former a state goes on by another letter than the
//! one that it is met on, and the latter are the smallest in which a dead end makes the word longer. With marks on transitions there are many
//! more: every sheet of one state and two letters and of two states and one letter, and, but for the order of states and of letters, those of
//! two states and two letters.

use super::arguments;
use super::call::Call;
use super::compared;
use super::every_tuple;
use super::lent::Tables;
use super::numbers::Numbers;
use super::scenario::Scenario;
use crate::bench::Bench;
use crate::cases::sheet_of;
use crate::conversion::with_marks;
use crate::effect::Effect;
use crate::product;
use crate::random::Random;
use crate::sheet::{write_plan, write_sheet, Plan, Sheet};
use std::collections::BTreeSet;

/// The sheet of a number, whose bits are the initial set, the must-recur set and the successor sets.
pub fn sheet(n: usize, k: usize, number: usize) -> Sheet {
    let set = |i: usize| (0..n).filter(move |q| number >> (i * n + q) & 1 == 1);
    let mut edges = Vec::new();
    for q in 0..n {
        for l in 0..k {
            edges.extend(set(2 + q * k + l).map(|t| (q, l, t)));
        }
    }
    sheet_of(n, k, &set(0).collect::<Vec<_>>(), &set(1).collect::<Vec<_>>(), &edges)
}

fn words(k: usize, length: u32) -> Vec<Vec<usize>> {
    (0..k.pow(length)).map(|x| (0..length).map(|i| x / k.pow(i) % k).collect()).collect()
}

/// The plans with a lead-in of at most one letter and a cycle of one or two.
fn plans(k: usize) -> Vec<Plan> {
    let cycles = [words(k, 1), words(k, 2)].concat();
    let leads = [words(k, 0), words(k, 1)].concat();
    leads.iter().flat_map(|lead| cycles.iter().map(|cycle| Plan { lead: lead.clone(), cycle: cycle.clone() })).collect()
}

fn tried(b: &mut Bench, r: &mut Random, what: &str, s: &Scenario, call: Call) -> Tables {
    let (a, before) = arguments::exact(r, s, call);
    compared(b, what, s, call, a, before).1
}

fn kind(n: usize, k: usize, effect: Effect, what: &str) -> String {
    format!("each sheet with n {n} and k {k}, {}: {what}", effect.name())
}

/// Every question of a sheet.
fn questions(b: &mut Bench, r: &mut Random, kind: &dyn Fn(Effect, &str) -> String, plans: &[Plan], sheet: &Sheet) {
    let mut s = Scenario::of(write_sheet(sheet, false), Numbers::of(sheet), Vec::new());
    let effect = s.of_numbers.effect;
    tried(b, r, &kind(effect, "check"), &s, Call::Check);
    tried(b, r, &kind(effect, "listing"), &s, Call::ListNumbers);
    every_tuple::through(b, r, &kind(effect, "ways"), &s);
    // A refused sheet gives the same answer for every plan.
    let count = if s.of_file.meeting.is_some() { 1 } else { plans.len() };
    for plan in &plans[..count] {
        s = s.with_plan(write_plan(sheet, plan));
        let after = tried(b, r, &kind(effect, "verdict"), &s, Call::Verdict);
        if s.of_file.meeting.is_none() {
            let yes = after.answer.inside()[0] == 1;
            b.expect(&kind(effect, "product"), yes == product::passes(sheet, plan), &s.input);
        }
    }
}

/// Every question of every sheet of this size.
fn whole(b: &mut Bench, n: usize, k: usize) {
    let mut r = Random::new((n << 8 | k) as u64);
    let plans = plans(k);
    for number in 0..1 << n * (2 + n * k) {
        questions(b, &mut r, &|effect, what| kind(n, k, effect, what), &plans, &sheet(n, k, number));
    }
}

/// The sheet with marks on transitions of a number: its bits are the initial set, then it has a digit for each transition, which is not
/// there, there, or marked.
pub fn marked_sheet(n: usize, k: usize, number: usize) -> Sheet {
    let (initial, mut digits) = (number % (1 << n), number >> n);
    let mut edges = Vec::new();
    let mut marked = BTreeSet::new();
    for place in 0..n * k * n {
        let edge = (place / n / k, place / n % k, place % n);
        if digits % 3 > 0 {
            edges.push(edge);
        }
        if digits % 3 == 2 {
            marked.insert(edge);
        }
        digits /= 3;
    }
    let initial: Vec<usize> = (0..n).filter(|q| initial >> q & 1 == 1).collect();
    Sheet { marked, ..with_marks(&sheet_of(n, k, &initial, &[], &edges)) }
}

/// Is the sheet the one that stands for those with its states or its letters in another order? The initial states come first in it, and the
/// letters stand by what their transitions are.
pub fn stands_for_others(s: &Sheet) -> bool {
    let on = |l: usize| -> Vec<(usize, usize, bool)> {
        s.transitions().into_iter().filter(|t| t.1 == l).map(|t| (t.0, t.2, s.marked.contains(&t))).collect()
    };
    s.initial.windows(2).all(|two| two[0] || !two[1]) && (1..s.k).all(|l| on(l - 1) <= on(l))
}

/// The same of every sheet of this size with marks on transitions; where it is asked, but for the order of states and of letters.
fn whole_with_marks(b: &mut Bench, n: usize, k: usize, any_order: bool) {
    let mut r = Random::new((n << 8 | k) as u64);
    let plans = plans(k);
    for number in 0..3usize.pow((n * k * n) as u32) << n {
        let sheet = marked_sheet(n, k, number);
        if any_order || stands_for_others(&sheet) {
            questions(b, &mut r, &|effect, what| format!("marks, {}", kind(n, k, effect, what)), &plans, &sheet);
        }
    }
}

/// Question 10 of every sheet of this size with an initial state, but for the order of states and of letters. Must-recur states do not matter.
fn of_walks(b: &mut Bench, n: usize, k: usize) {
    let mut r = Random::new((n << 8 | k) as u64);
    for table in 0..1 << n * n * k {
        for initial in 1..=n {
            // The first states are initial.
            let sheet = sheet(n, k, table << 2 * n | (1 << initial) - 1);
            let on = |l: usize| sheet.next.iter().map(move |row| &row[l]);
            if (1..k).any(|l| on(l - 1).gt(on(l))) {
                continue;
            }
            let s = Scenario::of_walks(Vec::new(), Numbers::of(&sheet));
            tried(b, &mut r, &kind(n, k, s.of_numbers.effect, "check"), &s, Call::Check);
        }
    }
}

pub fn run(b: &mut Bench) {
    whole(b, 2, 2);
    whole(b, 3, 1);
    of_walks(b, 3, 2);
    of_walks(b, 4, 1);
    whole_with_marks(b, 1, 2, true);
    whole_with_marks(b, 2, 1, true);
    whole_with_marks(b, 2, 2, false);
    for (n, k) in [(3, 1), (3, 2), (4, 1)] {
        b.at_least(1, &kind(n, k, Effect::Accepted, "check"));
    }
    b.at_least(1, &kind(4, 1, Effect::LongerWord, "check"));
}
