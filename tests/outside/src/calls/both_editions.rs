//! Sheets of both editions through the calls: one sheet told in both has the same tracker, listing and verdict; and what is written is read as
//! the sheet that it was written from, also with the names of a file of the other edition.

use super::arguments;
use super::call::Call;
use super::compared;
use super::lent::Tables;
use super::numbers::Numbers;
use super::scenario::Scenario;
use crate::bench::Bench;
use crate::cases::sheet_b;
use crate::conversion::with_marks;
use crate::families;
use crate::random::Random;
use crate::sheet::{write_plan, write_sheet, Sheet};

/// How many random sheets there are.
const SHEETS: usize = 1000;

fn tried(b: &mut Bench, r: &mut Random, what: &str, s: &Scenario, call: Call) -> Tables {
    let (a, before) = arguments::exact(r, s, call);
    compared(b, &format!("editions: {what}"), s, call, a, before).1
}

/// A sheet with must-recur states, and with a mark on every transition into one of them.
fn told_twice(b: &mut Bench, r: &mut Random, sheet: &Sheet) {
    let plan = write_plan(sheet, &families::plan(r, sheet.k));
    let [one, other] = [sheet.clone(), with_marks(sheet)].map(|x| Scenario::of(write_sheet(&x, false), Numbers::of(&x), plan.clone()));
    for call in [Call::Build, Call::BuildNumbers] {
        let [x, y] = [&one, &other].map(|s| tried(b, r, "built", s, call));
        b.expect("editions: the same tracker", x.tuples.inside() == y.tuples.inside() && x.nexts.inside() == y.nexts.inside(), &one.file);
    }
    for call in [Call::List, Call::ListNumbers] {
        let [x, y] = [&one, &other].map(|s| tried(b, r, "listed", s, call));
        b.expect("editions: the same listing", x.out.inside() == y.out.inside() && x.answer.inside() == y.answer.inside(), &one.file);
    }
    let [x, y] = [&one, &other].map(|s| tried(b, r, "judged", s, Call::Verdict));
    b.expect("editions: the same verdict", x.answer.inside() == y.answer.inside(), &one.input);
}

/// What a file is read as: the cells of the answer, the successor sets and the marks.
fn read(b: &mut Bench, r: &mut Random, file: &[u8]) -> (Vec<usize>, Vec<u16>, Vec<u16>) {
    let s = Scenario::of_walks(file.to_vec(), Numbers::of(&sheet_b()));
    let after = tried(b, r, "read", &s, Call::ReadSheet);
    (after.answer.inside().to_vec(), after.sets.inside().to_vec(), after.marks.inside().to_vec())
}

/// A file written anew, and the numbers of one sheet with the names of another, where both are accepted.
fn round_trip(b: &mut Bench, r: &mut Random, sheet: &Sheet, names: &Sheet) {
    let s = Scenario::of_walks(write_sheet(names, false), Numbers::of(sheet));
    let written = tried(b, r, "file written", &s, Call::Write);
    if written.answer.inside()[0] == 1 {
        let [before, after] = [&s.file[..], written.out.inside()].map(|file| read(b, r, file));
        b.expect("editions: a file read back", before == after, &s.file);
    }
    let written = tried(b, r, "numbers written", &s, Call::WriteNumbers);
    if written.answer.inside()[0] == 1 {
        let (cells, sets, marks) = read(b, r, written.out.inside());
        let Numbers { edition, n, k, initial, recurring, .. } = s.numbers;
        let same = cells[..6] == [1, edition, n, k, initial as usize, recurring as usize] && sets == s.numbers.sets && marks == s.numbers.marks;
        let kind = if sheet.edition == names.edition { "numbers read back" } else { "numbers read back, names of the other edition" };
        b.expect(&format!("editions: {kind}"), same, &s.file);
    }
}

pub fn run(b: &mut Bench) {
    let mut r = Random::new(9);
    for seed in 0..SHEETS {
        let most = [3, 5, 8, 16][seed % 4];
        let mut sheet = if seed % 3 == 0 { families::with_dead_ends(&mut r, most) } else { families::sheet(&mut r, most) };
        if r.chance(30) {
            sheet = families::withdrawn(&mut r, sheet);
        }
        told_twice(b, &mut r, &sheet);
        let marked = families::marked(&mut r, &sheet);
        let other = families::with_letters(&families::sheet(&mut r, most), sheet.k);
        let told = if r.chance(50) { families::marked(&mut r, &other) } else { other };
        for (numbers, names) in [(&sheet, &marked), (&marked, &sheet), (&told, &marked)] {
            round_trip(b, &mut r, numbers, names);
        }
    }
    b.at_least(SHEETS, "editions: the same listing");
    b.at_least(SHEETS / 2, "editions: a file read back");
    b.at_least(SHEETS / 2, "editions: numbers read back, names of the other edition");
}
