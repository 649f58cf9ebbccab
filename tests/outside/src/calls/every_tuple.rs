//! The way to every tuple of many sheets. Each word that the call gives is run letter by letter, and its length is held to that of the shortest
//! words, which are found by other means; so is the way back in the lent table of tuples.

use super::arguments;
use super::call::Call;
use super::compared;
use super::lent::{Tables, BY, FROM, TUPLE};
use super::numbers::Numbers;
use super::scenario::Scenario;
use crate::bench::Bench;
use crate::expected::ROOM;
use crate::random::Random;
use crate::sheet::{read_sheet, write_sheet, Sheet};
use crate::tuples::{self, Tracker};
use crate::{families, limits, ways};

/// How many random sheets of each family there are.
const SHEETS: usize = 400;
/// How many there are of each size from 10 states on.
const LARGER: usize = 12;
/// How many words there have to be in each family, and where there are about 1,024 tuples.
const LEAST: usize = 1000;
const LEAST_OF_MOST: usize = 10_000;

/// Seeds, found by search, with the numbers of states and letters, and how long the longest of the shortest words are.
const LONG: [(u64, usize, usize, usize); 4] = [(369_337, 16, 1, 630), (0, 14, 2, 185), (881, 13, 3, 90), (391, 7, 4, 56)];

/// The tuple and the letter that a tuple of the table was first found from.
fn back(table: &[u16], tuple: usize) -> (usize, usize) {
    (table[TUPLE * tuple + FROM] as usize, table[TUPLE * tuple + BY] as usize)
}

/// Is a tuple of the table entered by its way back? The first is where every way begins.
fn entered(s: &Sheet, t: &Tracker, table: &[u16], tuple: usize) -> bool {
    let (from, letter) = back(table, tuple);
    if tuple == 0 {
        return (from, letter) == (0, 0);
    }
    from < t.tuples.len() && letter < s.k && t.tuples[tuple] == tuples::step(s, &t.tuples[from], letter)
}

/// How many steps back it is from a tuple of the table to the first, where it is fewer than there are tuples.
fn steps_back(t: &Tracker, table: &[u16], tuple: usize) -> Option<usize> {
    let (mut at, mut steps) = (tuple, 0);
    while at != 0 {
        (at, steps) = (back(table, at).0, steps + 1);
        if at.max(steps) >= t.tuples.len() {
            return None;
        }
    }
    Some(steps)
}

/// The word that the call has told.
fn told(after: &Tables) -> Vec<usize> {
    let length = after.answer.inside()[1].min(after.letters.len());
    after.letters.inside()[..length].iter().map(|l| *l as usize).collect()
}

fn tried(b: &mut Bench, r: &mut Random, what: &str, s: &Scenario, call: Call, tuple: usize) -> Tables {
    let (mut a, before) = arguments::exact(r, s, call);
    a.tuple = tuple;
    compared(b, what, s, call, a, before).1
}

/// The call for each tuple and for the number behind the last; where the sheet is refused, for tuple 0.
pub fn through(b: &mut Bench, r: &mut Random, what: &str, s: &Scenario) {
    let kind = |which: &str| format!("{what}: {which}");
    let behind = s.of_file.tracker.as_ref().map_or(0, |t| t.tuples.len());
    tried(b, r, &kind("behind the last"), s, Call::Way, behind);
    let (Some(t), Ok(sheet)) = (&s.of_file.tracker, &s.of_file.sheet) else { return };
    let table = tried(b, r, &kind("built"), s, Call::Build, 0).tuples;
    let (lengths, firsts) = (ways::lengths(t), ways::first_words(t));
    for i in 0..t.tuples.len() {
        let word = told(&tried(b, r, &kind("each tuple"), s, Call::Way, i));
        b.expect(&kind("leads there"), ways::leads(sheet, t, &word, i), &s.file);
        b.expect(&kind("shortest"), word.len() == lengths[i] && word.len() < t.tuples.len(), &s.file);
        b.expect(&kind("first in alphabetical order"), word == firsts[i], &s.file);
        let table = table.inside();
        b.expect(&kind("way back"), entered(sheet, t, table, i) && steps_back(t, table, i) == Some(lengths[i]), &s.file);
    }
}

fn of_sheet(b: &mut Bench, r: &mut Random, what: &str, sheet: &Sheet) {
    let s = Scenario::of(write_sheet(sheet, false), Numbers::of(sheet), Vec::new());
    through(b, r, what, &s);
}

/// The guide's example: the words that it shows for the rows of a tracker.
fn guide(b: &mut Bench) {
    let mut r = Random::new(3);
    let sheet = read_sheet(include_bytes!("../../../../examples/03-clean-then-hard.sheet")).unwrap();
    let s = Scenario::of(write_sheet(&sheet, false), Numbers::of(&sheet), Vec::new());
    let shown: Vec<&str> = include_str!("../../../../docs/GUIDE.md").lines().filter_map(|x| x.strip_prefix("    row ")).collect();
    for (i, line) in shown.iter().enumerate() {
        let (number, jobs) = line.split_once(':').unwrap();
        let after = tried(b, &mut r, "ways, the guide", &s, Call::Way, i);
        let names = |word: Vec<usize>| word.into_iter().map(|l| format!(" {}", String::from_utf8_lossy(&sheet.names[l]))).collect::<String>();
        let answer = if after.answer.inside()[0] == 1 { names(told(&after)) } else { " no such row".to_string() };
        b.expect("ways, the guide: as shown", number == i.to_string() && jobs == answer, line.as_bytes());
    }
    b.at_least(6, "ways, the guide: as shown");
}

pub fn run(b: &mut Bench) {
    guide(b);
    let mut r = Random::new(7);
    for seed in 0..SHEETS {
        let most = [3, 5, 8, 16][seed % 4];
        let plain = families::sheet(&mut r, most);
        of_sheet(b, &mut r, "ways, random sheets", &plain);
        let withdrawn = families::withdrawn(&mut r, plain.clone());
        of_sheet(b, &mut r, "ways, withdrawn letters", &withdrawn);
        let dead_ends = families::with_dead_ends(&mut r, most);
        of_sheet(b, &mut r, "ways, dead ends", &dead_ends);
        let (n, k) = (1 + r.below(most.min(8)), 1 + r.below(3));
        let circles = families::circles(&mut r, n, k);
        of_sheet(b, &mut r, "ways, circles", &circles);
        let any = [&plain, &withdrawn, &dead_ends, &circles][r.below(4)];
        let marked = families::marked(&mut r, any);
        of_sheet(b, &mut r, "ways, marks", &marked);
    }
    for n in 10..=16 {
        for seed in 0..LARGER {
            let s = if seed % 2 == 0 { families::sparse(&mut r, n) } else { families::of_size(&mut r, n) };
            of_sheet(b, &mut r, "ways, larger sheets", &s);
        }
    }
    for (seed, n, k, longest) in LONG {
        let s = families::circles(&mut Random::new(seed), n, k);
        let found = tuples::build(&s, ROOM).and_then(|t| ways::lengths(&t).into_iter().max());
        b.expect("ways, long words: as long as is known", found == Some(longest), &write_sheet(&s, false));
        of_sheet(b, &mut r, "ways, long words", &s);
    }
    for s in limits::most_tuples() {
        of_sheet(b, &mut r, "ways, most tuples", &s);
    }
    for s in &limits::most_marked_tuples()[1..3] {
        of_sheet(b, &mut r, "ways, most tuples with marks", s);
    }
    for family in ["random sheets", "withdrawn letters", "dead ends", "circles", "marks", "larger sheets", "long words"] {
        b.at_least(LEAST, &format!("ways, {family}: shortest"));
    }
    b.at_least(LEAST_OF_MOST, "ways, most tuples: shortest");
    b.at_least(LEAST, "ways, most tuples with marks: shortest");
}
