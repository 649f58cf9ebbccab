//! The case files of crates/cases, and the lines that the proved library has to answer them with.
//!
//! A case file is a line `ROOM` with five digits, then a sheet and a plan as `verdict` reads them. An answer is the case's number, the
//! verdict, the length and a sum of the listing, of the sheet written out, and of the way to one of the first 16 tuples, by the case's number;
//! or a refusal in the place of each.

mod marks;

use super::*;
use edition::Edition;
use expected::{accepted, refusal, split};
use sheet::{read_sheet, No, Plan, Sheet};
use std::collections::BTreeSet;

const A16: &str = "abcdefghijklmnop";

struct Cases {
    all: Vec<(usize, Vec<u8>)>,
}

/// How many tuples the cases ask the way to, in turn.
const TUPLES: usize = 16;

/// A sum that tells a text from its neighbours.
fn sum(text: &[u8]) -> usize {
    text.iter().fold(0, |s, b| (s * 31 + *b as usize) % 65_521)
}

fn answer(number: usize, room: usize, input: &[u8]) -> String {
    let no = |no: No| refusal(no).trim_end().to_string();
    let counted = |word: &str, text: &[u8]| format!("{word}{:7}{:6}", text.len(), sum(text));
    let (file, _) = split(input);
    let in_room = (1..=ROOM).contains(&room);
    let verdict = if in_room { expected::verdict(input, room) } else { Err((1, 0)) };
    let listing = if in_room { expected::listing(file, room) } else { Err((1, 0)) };
    let copy = accepted(file).map(|s| write_sheet(&s, true));
    let way = if in_room { expected::way(file, room, number % TUPLES) } else { Err((1, 0)) };
    let word = |letters: Vec<usize>| counted("WAY ", &letters.iter().map(|l| *l as u8).collect::<Vec<_>>());
    format!(
        "{} {} {} {}",
        verdict.map_or_else(no, |x| x.trim_end_matches('\n').to_string()),
        listing.map_or_else(no, |x| counted("LIST", x.as_bytes())),
        copy.map_or_else(no, |x| counted("COPY", &x)),
        way.map_or_else(no, |x| x.map_or("NONE".to_string(), word)),
    )
}

pub fn sheet_of(n: usize, k: usize, initial: &[usize], recurring: &[usize], edges: &[(usize, usize, usize)]) -> Sheet {
    let mut next = vec![vec![Vec::new(); k]; n];
    edges.iter().for_each(|(q, l, r)| next[*q][*l].push(*r));
    next.iter_mut().flatten().for_each(|x| x.sort());
    Sheet {
        edition: Edition::States,
        n,
        k,
        initial: (0..n).map(|q| initial.contains(&q)).collect(),
        recurring: (0..n).map(|q| recurring.contains(&q)).collect(),
        next,
        marked: BTreeSet::new(),
        names: (0..k).map(|l| vec![A16.as_bytes()[l]]).collect(),
        withdrawn: Vec::new(),
    }
}

pub fn sheet_b() -> Sheet {
    sheet_of(2, 2, &[0, 1], &[1], &[(0, 0, 0), (0, 1, 0), (0, 1, 1), (1, 0, 1)])
}

fn longest_word_edges(n: usize) -> Vec<(usize, usize, usize)> {
    let mut edges = Vec::new();
    for q in 0..n {
        edges.push((q, 0, (q + 1) % n));
        edges.push((q, 1, if q == n - 1 { 0 } else { q }));
    }
    edges.push((n - 1, 2, 0));
    edges.push((n - 1, 2, n / 2));
    edges
}

/// The sheet whose shortest meeting word has n(n+1)/2 letters.
pub fn longest_word(n: usize) -> Sheet {
    sheet_of(n, 3, &[0], &[0], &longest_word_edges(n))
}

/// The same with a dead end, to which every state goes on a letter of its own: any two walks come together there.
pub fn with_early_dead_end(going: usize) -> Sheet {
    let mut edges = longest_word_edges(going);
    edges.extend((0..going).map(|q| (q, 3, going)));
    sheet_of(going + 1, 4, &[0], &[0], &edges)
}

/// A counter of n states: as many tuples, and a cycle of one letter needs as many passes.
fn counter(n: usize) -> Sheet {
    sheet_of(n, 1, &[0], &[], &(0..n).map(|q| (q, 0, (q + 1) % n)).collect::<Vec<_>>())
}

impl Cases {
    fn add(&mut self, room: usize, input: Vec<u8>) {
        self.all.push((room, input));
    }

    fn judged(&mut self, room: usize, s: &Sheet, lead: &[usize], cycle: &[usize]) {
        let plan = write_plan(s, &Plan { lead: lead.to_vec(), cycle: cycle.to_vec() });
        self.add(room, [write_sheet(s, false), plan].concat());
    }

    fn text(&mut self, sheet: &[u8], plan: &[u8]) {
        self.add(ROOM, [sheet, plan].concat());
    }

    fn known(&mut self) {
        let b = sheet_b();
        self.judged(ROOM, &b, &[1], &[0]);
        self.judged(ROOM, &b, &[], &[0, 1]);
        for room in [0, 1, 2, 3, 4, 5, 1023, 1024, 1025, 99_999] {
            self.judged(room, &b, &[1], &[0]);
        }
        for (initial, recurring) in [(vec![0], vec![0]), (vec![0], vec![]), (vec![], vec![0]), (vec![], vec![])] {
            self.judged(ROOM, &sheet_of(1, 1, &initial, &recurring, &[(0, 0, 0)]), &[], &[0]);
            self.judged(ROOM, &sheet_of(1, 1, &initial, &recurring, &[]), &[0], &[0]);
        }
        self.judged(ROOM, &sheet_of(2, 2, &[0], &[], &[(0, 0, 0), (0, 1, 0), (0, 0, 1), (1, 0, 1)]), &[], &[0]);
        self.judged(ROOM, &sheet_of(3, 1, &[0, 1], &[], &[(0, 0, 2), (1, 0, 2)]), &[], &[0]);
        for n in 2..=16 {
            self.judged(ROOM, &longest_word(n), &[], &[0]);
            self.judged(ROOM, &counter(n), &[], &[0]);
            self.judged(n, &counter(n), &[0; 3], &[0; 5]);
            self.judged(n - 1, &counter(n), &[], &[0]);
        }
    }

    /// The first line, names, states, transitions and END, each in every way it can be wrong.
    fn lines(&mut self) {
        let plan = b"PLAN  1  1\nb\na\nEND\n";
        let file = String::from_utf8(write_sheet(&sheet_b(), false)).unwrap();
        let whole: Vec<&str> = file.split_inclusive('\n').collect();
        let with = |i: usize, line: &str| {
            let mut all: Vec<String> = whole.iter().map(|x| x.to_string()).collect();
            all[i] = line.to_string();
            all.concat().into_bytes()
        };
        for head in [
            "", "\n", "SHEET\n", "SHEET  2  2", "SHEET  2  2 \n", "SHEET 2  2\n", "SHEET  0  2\n", "SHEET  2  0\n", "SHEET 17  2\n", "SHEET  2  9\n",
            "SHEET999999\n", "SHEET017  2\n", "SHEET 02  2\n", "SHEET2    2\n", "SHEET     2\n", "SHEET  2  2\r\n", "sheet  2  2\n", "SHEEP  2  2\n",
            "SHEET -2  2\n", "SHEET  x  2\n", "SHEET  2  x\n", "SHEET 16  8\n", "SHEET  1  1\n", "TRACK  2  2\n", "SHEET  3  2\n", "SHEET  2  3\n",
        ] {
            self.text(&with(0, head), plan);
        }
        for name in [
            "", "\n", "N  0\n", "N  0 \n", "N  0  a\n", "N  1 a\n", "N 0  a\n", "N000 a\n", "n  0 a\n", "N  0 a", "N  0 a\r\n", "N  0 a b\n", "N  0 \u{7f}\n",
            "N  0 ~!\n", "N  0 b\n", "N  0 aaaaaaaaaaaaaaaaaaaaaaaa\n", "N  0 aaaaaaaaaaaaaaaaaaaaaaaaa\n", "N  0 aaaaaaaaaaaaaaaaaaaaaaä\n",
            "N  0 aaaaaaaaaaaaaaaaaaaaaaaä\n", "N  0 Stück\n", "N  0 Stu\u{308}ck\n", "N  0 e\u{308}\n", "N  0 \u{308}a\n", "N  0 a\u{308}\u{308}\n",
            "N  0 ä\u{308}\n", "N  0 é\n", "N  0 END\n", "N  0 äöüÄÖÜß\n", "N  0 a\u{308}o\u{308}u\u{308}A\u{308}O\u{308}U\u{308}ß\n",
        ] {
            self.text(&with(1, name), plan);
        }
        for (one, other) in [("Stück", "Stu\u{308}ck"), ("Stu\u{308}ck", "Stück"), ("Stück", "Stuck"), ("a", "a"), ("ß", "ss"), ("Ü", "U\u{308}")] {
            let file = with(1, &format!("N  0 {one}\n"));
            let text = String::from_utf8(file).unwrap().replace("N  1 b\n", &format!("N  1 {other}\n"));
            self.text(text.as_bytes(), format!("PLAN  0  1\n{one}\nEND\n").as_bytes());
            self.text(text.as_bytes(), format!("PLAN  1  1\n{other}\n{one}\nEND\n").as_bytes());
        }
        let mut raw = with(1, "N  0 a\n");
        for bytes in [&[0xc3u8][..], &[0xc3, 0x28], &[0xcc, 0x88], &[b'a', 0xcc], &[b'a', 0xcc, 0x87], &[0], &[0xff], &[b'a', 0xc3, 0xa4, 0xcc, 0x88]] {
            let mut line = b"N  0 ".to_vec();
            line.extend(bytes);
            line.push(b'\n');
            raw.splice(12..19, line.iter().copied());
            self.text(&raw, plan);
            raw = with(1, "N  0 a\n");
        }
        for state in [
            "", "\n", "S  0  1\n", "S  0  1  0 \n", "S  1  1  0\n", "S  0  2  0\n", "S  0  1  2\n", "S  0  1  x\n", "S  0     0\n", "S  0 01  0\n", "s  0  1  0\n",
            "S  0  1  0", "S  0  1  0\r\n", "S 00  1  0\n", "S  0  0  0\n", "S  0  1  1\n", "T  0  1  0\n", "S  0 10  0\n",
        ] {
            self.text(&with(3, state), plan);
        }
        for line in [
            "", "\n", "T  0  0\n", "T  0  0  0 \n", "T  2  0  0\n", "T  0  2  0\n", "T  0  0  2\n", "T  0  0  1\n", "T  0  1  0\n", "T  0  1  1\n", "T  1  1  1\n",
            "T  0  0  x\n", "T 00  0  0\n", "T  0  0  0\r\n", "t  0  0  0\n", "S  0  0  0\n", "T\n", "T", " T  0  0  0\n", "END \n", "T  0  0  0", "T999999999\n",
        ] {
            self.text(&with(5, line), plan);
            self.text(&with(8, line), plan);
        }
        for end in ["", "E", "EN", "END", "END ", "END\r\n", "end\n", "\nEND\n", "END\nEND\n", "END\n\n", "END\nx", "T", "T\n", "N"] {
            self.text(&with(9, end), b"");
            self.text(&with(9, end), plan);
        }
        for i in 0..whole.len() {
            self.text(whole[..i].concat().as_bytes(), b"");
            let mut all = whole.clone();
            all.remove(i);
            self.text(all.concat().as_bytes(), plan);
        }
        for size in [24_575, 24_576, 24_577, 24_600, 36_864, 36_865, 40_000] {
            self.text(&vec![b'x'; size], b"");
            let mut long = with(9, "");
            long.resize(size - 4, b'T');
            long.extend(b"\nEND");
            self.text(&long, b"\n");
        }
    }

    fn plans(&mut self) {
        let b = sheet_b();
        let file = write_sheet(&b, false);
        for plan in [
            "", "\n", "PLAN\n", "PLAN  1  1", "PLAN  1  1\n", "PLAN  1  1\nb\n", "PLAN  1  1\nb\na\n", "PLAN  1  1\nb\na\nEND", "PLAN  1  1\nb\na\nEND\n",
            "PLAN  1  1\nb\na\nEND\n\n", "PLAN  1  1\nb\na\nEND\nx", "PLAN  1  1\nb\nEND\n", "PLAN  1  1\nb\na\na\nEND\n", "PLAN  1  0\nb\nEND\n", "PLAN  0  0\nEND\n",
            "PLAN  0  1\na\nEND\n", "PLAN  0  1\n\nEND\n", "PLAN  0  1\nc\nEND\n", "PLAN  0  1\na b\nEND\n", "PLAN  0  1\ne\u{308}\nEND\n", "PLAN201  1\n",
            "PLAN  1201\n", "PLAN200200\n", "PLAN 01  1\nb\na\nEND\n", "PLAN 1  1\nb\na\nEND\n", "plan  1  1\nb\na\nEND\n", "PLAN  1  1\nB\na\nEND\n",
            "PLAN  1  1\nb\na\nend\n", "PLAN  1  1\nb\na \nEND\n", "PLAN  0  1\naaaaaaaaaaaaaaaaaaaaaaaaa\nEND\n", "PLAN  0  1\naaaaaaaaaaaaaaaaaaaaaaaa\nEND\n",
            "PLAN  0  2\nc\n\nEND\n", "PLAN  0  2\n\nc\nEND\n", "PLAN999999\n", "PLAN  1  1\r\nb\na\nEND\n", "PLAN  x  1\nb\na\nEND\n", "PLAN  1   \nb\na\nEND\n",
        ] {
            self.text(&file, plan.as_bytes());
        }
        let mut named = sheet_b();
        named.names = vec![b"END".to_vec(), b"PLAN".to_vec()];
        for plan in ["PLAN  1  1\nPLAN\nEND\nEND\n", "PLAN  0  1\nEND\n", "PLAN  0  2\nEND\nEND\nEND\n", "PLAN  0  2\nEND\nPLAN\n"] {
            let file = write_sheet(&named, false);
            self.text(&file, plan.as_bytes());
        }
        for (lead, cycle) in [(0, 1), (200, 1), (0, 200), (200, 200), (199, 199)] {
            let letters: Vec<usize> = (0..lead + cycle).map(|i| (i * i / 3) % 2).collect();
            self.judged(ROOM, &b, &letters[..lead], &letters[lead..]);
        }
        let mut long = b"PLAN  0  1\n".to_vec();
        long.resize(12_288, b'a');
        self.text(&file, &long);
        long.push(b'a');
        self.text(&file, &long);
        self.text(b"SHEET", &long);
    }

    /// Withdrawn grades: old names in plans, the withdrawal lines in every way they can be wrong, transitions on withdrawn letters.
    fn withdrawals(&mut self, inputs: &std::path::Path) {
        let mut s = sheet_of(2, 4, &[0], &[1], &[(0, 2, 1), (0, 3, 0), (1, 3, 0)]);
        s.names = ["St37", "Fe360", "S235", "neutral"].map(|x| x.as_bytes().to_vec()).to_vec();
        s.withdrawn = vec![(0, 1), (1, 2)];
        for l in 0..4 {
            self.judged(ROOM, &s, &[], &[l, 3]);
            self.judged(ROOM, &s, &[l], &[3]);
            self.judged(ROOM, &s, &[3], &[l, 2, 3]);
        }
        for room in [0, 1, 2, 3, 4, 5] {
            self.judged(room, &s, &[], &[0, 3]);
        }
        self.judged(ROOM, &s, &[3, 0].repeat(100), &[3, 0, 3, 1, 3, 2, 3, 0].repeat(25));
        let plan = b"PLAN  1  2\nFe360\nneutral\nSt37\nEND\n";
        let file = String::from_utf8(write_sheet(&s, false)).unwrap();
        self.text(file.as_bytes(), b"PLAN  0  2\nSt37\nSt52\nEND\n");
        let with = |old: &str, new: &str| file.replacen(old, new, 1).into_bytes();
        for line in [
            "", "\n", "W\n", "W", "W  0\n", "W  0  1", "W  0  1 \n", "W  0  1\r\n", "W 0  1\n", "W 00  1\n", "W  0 01\n", "W000001\n", "W  x  1\n", "W  0  x\n",
            "W     1\n", "W  0   \n", "W  0 -1\n", "W  0  1  2\n", "W  0  0\n", "W  1  0\n", "W  1  1\n", "W  0  3\n", "W  0  4\n", "W  3  4\n", "W  4  5\n", "W  0  9\n",
            "W999999\n", "w  0  1\n", " W  0  1\n", "WW 0  1\n", "S  0  1  0\n", "T  0  2  1\n", "N  4 x\n", "END\n",
        ] {
            self.text(&with("W  0  1\n", line), plan);
        }
        for line in ["W  0  1\n", "W  0  2\n", "W  1  1\n", "W  1  3\n", "W  1  4\n", "W  2  3\n", "W  1  2\nW  2  3\n", "W  1  2\nW  1  3\n", "W  1  2\nW  3  3\n"] {
            self.text(&with("W  1  2\n", line), plan);
        }
        let whole: Vec<&str> = file.split_inclusive('\n').collect();
        for i in 0..=whole.len() {
            self.text([&whole[..i], &["W  2  3\n"], &whole[i..]].concat().concat().as_bytes(), plan);
            self.text(whole[..i].concat().as_bytes(), b"");
        }
        for (old, new) in [
            ("T  0  2  1\n", "T  0  0  1\nT  0  2  1\n"),
            ("T  0  2  1\n", "T  0  1  1\nT  0  2  1\n"),
            ("T  0  2  1\nT  0  3  0\n", "T  0  1  1\nT  0  3  2\n"),
            ("T  0  2  1\nT  0  3  0\n", "T  0  2  2\nT  1  1  0\n"),
            ("T  0  2  1\n", "T  0  1  2\n"),
            ("T  0  2  1\n", "T  0  1  1 \n"),
            ("T  1  3  0\n", "T  0  1  1\n"),
            ("T  1  3  0\n", "T  1  1  0\nx\n"),
            ("T  1  3  0\n", "x\nT  1  1  0\n"),
            ("T  1  3  0\nEND\n", "T  1  1  0"),
            ("T  1  3  0\nEND\n", "T  1  1  0\n"),
        ] {
            self.text(&with(old, new), plan);
        }
        // Walks that come together on a withdrawn letter are 16, and on another they are harmless where they stop.
        for letter in [0, 1] {
            let mut meeting = sheet_of(3, 2, &[0, 1], &[], &[(0, letter, 2), (1, letter, 2)]);
            meeting.withdrawn = vec![(0, 1)];
            self.judged(ROOM, &meeting, &[], &[0]);
        }
        // An old name is spelled in two ways, one is called END, and one is that of a letter in force with a dot more.
        s.names = ["Stück", "END", "Stuck", "Stück."].map(|x| x.as_bytes().to_vec()).to_vec();
        let file = write_sheet(&s, false);
        for name in ["Stück", "Stu\u{308}ck", "END", "Stuck", "Stück.", "Stu\u{308}ck."] {
            self.text(&file, format!("PLAN  0  2\n{name}\nStück.\nEND\n").as_bytes());
        }
        // As many withdrawn letters as there can be: in a chain, in two, and each superseded by the last.
        let last = |k: usize| sheet_of(2, k, &[0], &[1], &[(0, k - 1, 1), (1, k - 1, 0)]);
        for k in [1, 2, 3, 8] {
            let mut s = last(k);
            let all: Vec<usize> = (0..k).collect();
            for step in [1, 2, k] {
                s.withdrawn = (0..k - 1).map(|l| (l, (l + step).min(k - 1))).collect();
                self.judged(ROOM, &s, &all, &[0]);
            }
            s.withdrawn = vec![(k - 1, k)];
            self.judged(ROOM, &s, &[], &[0]);
        }
        self.add(ROOM, std::fs::read(inputs.join("old-names.input")).unwrap());
        let mut r = Random::new(20_261_116);
        for _ in 0..60 {
            let plain = families::sheet(&mut r, 16);
            let s = families::withdrawn(&mut r, plain);
            let file = write_sheet(&s, false);
            let file = if r.chance(30) { families::withdrawal_damaged(&mut r, &file) } else { file };
            let plan = write_plan(&s, &families::plan(&mut r, s.k));
            self.text(&file, &plan);
        }
    }

    /// Walks that come together in dead ends, in states that go on, and in both.
    fn dead_ends(&mut self) {
        let two_to_one = [(0, 0, 2), (1, 0, 2)];
        let with = |more: &[(usize, usize, usize)]| [&two_to_one[..], more].concat();
        for room in [0, 2, 3, ROOM] {
            self.judged(room, &sheet_of(3, 1, &[0, 1], &[2], &two_to_one), &[], &[0]);
        }
        for room in [0, 1, ROOM] {
            self.judged(room, &sheet_of(3, 1, &[0, 1], &[2], &with(&[(2, 0, 2)])), &[], &[0]);
        }
        // State 2 goes on by another letter, by way of another state, or back to where it was entered from.
        for more in [&[(2, 1, 2)][..], &[(2, 1, 3), (3, 0, 3)], &[(2, 0, 3), (3, 1, 3)], &[(2, 1, 0)]] {
            self.judged(ROOM, &sheet_of(4, 2, &[0, 1], &[2, 3], &with(more)), &[0], &[0, 1]);
        }
        // It stops one state later, or another state goes on that it does not lead to.
        for more in [&[(2, 1, 3)][..], &[(2, 0, 3), (2, 1, 3)], &[(3, 0, 3)], &[(3, 0, 2), (3, 1, 3)]] {
            self.judged(ROOM, &sheet_of(4, 2, &[0, 1], &[2, 3], &with(more)), &[0], &[0, 1]);
        }
        // Beside it 0 and 1 go on by themselves, and a plan passes that stays with 0; or they meet, but on a longer word.
        for cycle in [0, 1] {
            self.judged(ROOM, &sheet_of(3, 2, &[0, 1], &[0], &with(&[(0, 1, 0), (1, 1, 1)])), &[], &[cycle]);
        }
        self.judged(ROOM, &sheet_of(4, 2, &[0, 1], &[3], &with(&[(0, 1, 1), (1, 1, 3), (3, 1, 3)])), &[], &[1]);
        for going in [3, 4, 15] {
            self.judged(ROOM, &with_early_dead_end(going), &[], &[0]);
        }
        // A withdrawn letter is 16 before walks are asked for: where they come together on it, and where the state goes on by it.
        for (meeting, going_on) in [(0, 1), (1, 0), (1, 1)] {
            let mut s = sheet_of(3, 2, &[0, 1], &[], &[(0, meeting, 2), (1, meeting, 2), (2, going_on, 2)]);
            s.withdrawn = vec![(0, 1)];
            self.judged(ROOM, &s, &[], &[0]);
        }
        // Sheets that dead ends change something for, with a plan that passes where one of some does.
        let mut r = Random::new(20_261_117);
        let mut count = 0;
        while count < 24 {
            let s = families::with_dead_ends(&mut r, 12);
            if Effect::of(&s) == Effect::Nothing {
                continue;
            }
            let plans: Vec<Plan> = (0..30).map(|_| families::plan(&mut r, s.k)).collect();
            let plan = plans.iter().find(|p| product::passes(&s, p)).unwrap_or(&plans[0]);
            self.judged(ROOM, &s, &plan.lead, &plan.cycle);
            count += 1;
        }
    }

    fn tuples(&mut self, inputs: &std::path::Path) {
        for (name, rooms) in [("tuples-1024.sheet", vec![1022, 1023, 1024]), ("tuples-1025.sheet", vec![1024]), ("longest.sheet", vec![1024])] {
            let file = std::fs::read(inputs.join(name)).unwrap();
            let first = read_sheet(&file).unwrap().names[0].clone();
            for room in rooms {
                self.add(room, [&file[..], b"PLAN  0  1\n", &first, b"\nEND\n"].concat());
            }
        }
        self.add(ROOM, std::fs::read(inputs.join("many-passes.input")).unwrap());
    }

    fn random(&mut self, count: usize) {
        let mut r = Random::new(20_261_115);
        while self.all.len() < count {
            let s = families::sheet(&mut r, 16);
            let p = families::plan(&mut r, s.k);
            let input = [write_sheet(&s, false), write_plan(&s, &p)].concat();
            self.add(ROOM, if r.chance(40) { families::damaged(&mut r, &input) } else { input });
        }
    }
}

/// Writes the case files to `folder`/data and their answers to `folder`/stdout.
pub fn write(folder: &std::path::Path, inputs: &std::path::Path) {
    let mut c = Cases { all: Vec::new() };
    c.known();
    c.lines();
    c.plans();
    c.tuples(inputs);
    c.random(640);
    c.withdrawals(inputs);
    c.dead_ends();
    // Cases that stand stay as they are: new ones come behind them.
    c.marks(inputs);
    let data = folder.join("data");
    std::fs::create_dir_all(&data).unwrap();
    let mut out = String::new();
    for (i, (room, input)) in c.all.iter().enumerate() {
        std::fs::write(data.join(format!("{i:03}")), [format!("ROOM{room:05}\n").as_bytes(), input].concat()).unwrap();
        out += &format!("{i:03} {}\n", answer(i, *room, input));
    }
    std::fs::write(folder.join("stdout"), out).unwrap();
    println!("{} cases", c.all.len());
}
