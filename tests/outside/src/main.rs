//! Tries the proved programs and the library's public calls against programs that share nothing with them: a reader of its own, walks
//! by counting, verdicts on the product of sheet and plan, tuples by the requirements' text, Safra's construction, shortest words by
//! bettering longer ones, and endless words that never repeat, block by block.
//!
//! outside PROGRAMS [COUNT]: PROGRAMS is the folder of the built programs `track`, `verdict` and `rewrite`; COUNT (4,000) is how many
//! sheets are made, with half as many beside them that have withdrawn letters, half as many that have dead ends, and a quarter as many that
//! have marks on transitions. A line tells how many comparisons of each kind there were; the last one is `outside: N passed, M failed`.
//! outside cases FOLDER INPUTS: writes the case files of crates/cases and their answers; INPUTS is bench/inputs.

mod bench;
mod calls;
mod cases;
mod conversion;
mod edition;
mod effect;
mod endless_words;
mod equal;
mod expected;
mod families;
mod graph;
#[cfg(test)]
mod known;
mod larger;
mod limits;
mod marked_sheets;
mod names;
mod product;
mod random;
mod safra;
mod sheet;
mod tuples;
mod walks;
mod ways;

use bench::Bench;
use effect::Effect;
use expected::ROOM;
use random::Random;
use sheet::{write_plan, write_sheet};
use std::ops::Range;
use std::path::PathBuf;

/// A random sheet through every program, whole and damaged, and against Safra's construction.
fn random_sheet(b: &mut Bench, r: &mut Random, most: usize) {
    let s = families::sheet(r, most);
    let file = write_sheet(&s, false);
    b.listed("listing", &file);
    b.rewritten("written", &file);
    for _ in 0..2 {
        let p = families::plan(r, s.k);
        let input = [file.clone(), write_plan(&s, &p)].concat();
        b.judged("verdict", &input);
        b.judged("damaged input", &families::damaged(r, &input));
    }
    for _ in 0..2 {
        b.listed("damaged sheet", &families::damaged(r, &file));
    }
    b.rewritten("damaged sheet written", &families::damaged(r, &file));
    if let Some(same) = larger::same_as_safra(&s) {
        b.expect("Safra", same, &file);
    }
}

/// A random sheet with withdrawn letters through every program: whole, damaged, and with damaged withdrawal lines.
fn withdrawn_sheet(b: &mut Bench, r: &mut Random, most: usize) {
    let plain = families::sheet(r, most);
    let s = families::withdrawn(r, plain);
    let file = write_sheet(&s, false);
    b.listed("withdrawn: listing", &file);
    b.rewritten("withdrawn: written", &file);
    let mut plan = Vec::new();
    for _ in 0..2 {
        plan = write_plan(&s, &families::plan(r, s.k));
        let input = [&file[..], &plan].concat();
        b.judged("withdrawn: verdict", &input);
        b.judged("withdrawn: damaged input", &families::damaged(r, &input));
    }
    let faulty = families::withdrawal_damaged(r, &file);
    b.listed("withdrawn: damaged lines listed", &faulty);
    b.rewritten("withdrawn: damaged lines written", &families::withdrawal_damaged(r, &file));
    b.judged("withdrawn: damaged lines judged", &[families::withdrawal_damaged(r, &file), plan].concat());
    if let Some(same) = larger::same_as_safra(&s) {
        b.expect("withdrawn: Safra", same, &file);
    }
}

/// A random sheet with dead ends through every program, whole and damaged; the kinds of comparisons tell what its dead ends change.
fn dead_end_sheet(b: &mut Bench, r: &mut Random, most: usize) {
    let s = families::with_dead_ends(r, most);
    let file = write_sheet(&s, false);
    let effect = Effect::of(&s);
    let kind = |what: &str| dead_end_kind(effect, what);
    b.listed(&kind("listing"), &file);
    b.rewritten(&kind("written"), &file);
    for _ in 0..2 {
        let plan = write_plan(&s, &families::plan(r, s.k));
        b.judged(&kind("verdict"), &[&file[..], &plan].concat());
    }
    b.listed(&kind("damaged sheet"), &families::damaged(r, &file));
    b.rewritten(&kind("damaged sheet written"), &families::damaged(r, &file));
    if let Some(same) = larger::same_as_safra(&s) {
        b.expect(&kind("Safra"), same, &file);
    }
}

fn dead_end_kind(effect: Effect, what: &str) -> String {
    format!("dead ends, {}: {what}", effect.name())
}

fn main() {
    let mut args = std::env::args().skip(1).peekable();
    if args.peek().map_or(false, |x| x == "cases") {
        let folders: Vec<PathBuf> = args.skip(1).map(PathBuf::from).collect();
        return cases::write(&folders[0], &folders[1]);
    }
    let programs = PathBuf::from(args.next().expect("the folder of the programs"));
    let count: usize = args.next().map_or(4000, |x| x.parse().expect("a count"));
    let of_limits = |b: &mut Bench| {
        limits::run(b);
        larger::run(b);
    };
    let of_seeds = |b: &mut Bench, seeds: Range<usize>| {
        for seed in seeds {
            let most = [3, 5, 8, 16][seed % 4];
            random_sheet(b, &mut Random::new(seed as u64), most);
            if seed % 8 < 4 {
                withdrawn_sheet(b, &mut Random::new(1 << 32 | seed as u64), most);
            } else {
                dead_end_sheet(b, &mut Random::new(1 << 33 | seed as u64), most);
            }
            if seed / 4 % 4 == 0 {
                marked_sheets::run(b, &mut Random::new(1 << 34 | seed as u64), most);
            }
        }
    };
    let first_half = |b: &mut Bench| of_seeds(b, 0..count / 2);
    let second_half = |b: &mut Bench| of_seeds(b, count / 2..count);
    let mut b = Bench::side_by_side(
        programs,
        &[
            &of_limits,
            &calls::run,
            &calls::small_sheets::run,
            &calls::every_tuple::run,
            &calls::every_word::run,
            &calls::both_editions::run,
            &first_half,
            &second_half,
        ],
    );
    // Random sheets come upon what harmless dead ends change.
    b.at_least(count / 20, &dead_end_kind(Effect::Accepted, "listing"));
    b.at_least(count / 40, &dead_end_kind(Effect::LongerWord, "listing"));
    b.at_least(count / 8, "marks: Safra");
    b.report();
    println!("outside: {} passed, {} failed", b.passed, b.failed);
    if b.failed > 0 {
        std::process::exit(1);
    }
}
