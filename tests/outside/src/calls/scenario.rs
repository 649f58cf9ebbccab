//! A sheet file, a sheet as numbers and a plan file: right, damaged or extreme, with what the questions say of them.

use super::call::Call;
use super::facts::Facts;
use super::number_damage::{damage_marks, damage_numbers};
use super::numbers::Numbers;
use crate::edition::Edition;
use crate::expected::{self, refusal, ROOM};
use crate::names::characters;
use crate::random::Random;
use crate::sheet::{read_plan, read_sheet, write_plan, write_sheet, No, Plan, Sheet, PLAN_BYTES, SHEET_BYTES};
use crate::{families, limits, tuples};

pub struct Scenario {
    pub file: Vec<u8>,
    pub of_file: Facts,
    pub numbers: Numbers,
    pub of_numbers: Facts,
    pub plan: Vec<u8>,
    /// What the program `verdict` reads, and what it prints.
    pub input: Vec<u8>,
    pub printed: Result<String, No>,
}

/// Of which family a sheet is made.
#[derive(Clone, Copy, PartialEq)]
pub enum Family {
    Any,
    Withdrawn,
    DeadEnds,
    /// Any of them, with marks on transitions: the file, the numbers or both.
    Marks,
}

impl Family {
    fn sheet(self, r: &mut Random, most: usize) -> Sheet {
        match self {
            Family::DeadEnds => families::with_dead_ends(r, most),
            Family::Marks if r.chance(40) => families::with_dead_ends(r, most),
            _ => families::sheet(r, most),
        }
    }

    fn withdraws(self, r: &mut Random) -> bool {
        match self {
            Family::Any => false,
            Family::Withdrawn => true,
            Family::DeadEnds => r.chance(15),
            Family::Marks => r.chance(35),
        }
    }

    /// The sheet in the edition that it is tried in.
    fn told(self, r: &mut Random, s: Sheet) -> Sheet {
        if self == Family::Marks && r.chance(80) {
            return families::marked(r, &s);
        }
        s
    }
}

impl Scenario {
    pub fn new(r: &mut Random, seed: u64, family: Family) -> Self {
        let large = seed % 64 == 0 && family != Family::DeadEnds;
        let mut s = if large { limits::many_tuples(r) } else { family.sheet(r, [3, 5, 8, 16][seed as usize % 4]) };
        let withdrawn = family.withdraws(r);
        if withdrawn {
            s = families::withdrawn(r, s);
        }
        let told = family.told(r, s.clone());
        let mut file = sheet_file(r, &told);
        if withdrawn && r.chance(20) {
            file = families::withdrawal_damaged(r, &file);
        }
        if family == Family::Marks && r.chance(20) && !file.is_empty() {
            file = families::edition_damaged(r, &file);
        }
        let mut numbers = Numbers::of(&told);
        if r.chance(40) {
            let other = family.sheet(r, [3, 5, 8][seed as usize % 3]);
            let other = if r.chance(70) { families::with_letters(&other, s.k) } else { other };
            numbers = Numbers::of(&family.told(r, other));
        } else if r.chance(40) {
            numbers = Numbers::of(&family.told(r, s.clone()));
        }
        damage_numbers(r, &mut numbers);
        damage_marks(r, &mut numbers, if family == Family::Marks { 50 } else { 15 });
        let plan = plan_file(r, &s);
        Scenario::of(file, numbers, plan)
    }

    pub fn of(file: Vec<u8>, numbers: Numbers, plan: Vec<u8>) -> Self {
        let (of_file, of_numbers) = (Facts::of_file(&file), Facts::of_numbers(&numbers));
        Scenario { file, of_file, numbers, of_numbers, plan: Vec::new(), input: Vec::new(), printed: Err((3, 1)) }.with_plan(plan)
    }

    /// A file and numbers that no more than question 10 is asked of; the plan is empty.
    pub fn of_walks(file: Vec<u8>, numbers: Numbers) -> Self {
        let (of_file, of_numbers) = (Facts::of_walks(read_sheet(&file)), Facts::of_walks(numbers.sheet()));
        Scenario { file, of_file, numbers, of_numbers, plan: Vec::new(), input: Vec::new(), printed: Err((3, 1)) }
    }

    /// The same sheet with another plan.
    pub fn with_plan(self, plan: Vec<u8>) -> Self {
        let input = [&self.file[..], &plan].concat();
        let printed = printed(&input, &self.file, &self.of_file);
        Scenario { plan, input, printed, ..self }
    }

    /// The edition of the sheet that a call is about; a file that opens with neither word counts as one of the first edition.
    pub fn edition(&self, call: Call) -> Edition {
        if call.takes_numbers() {
            return self.numbers.edition();
        }
        Edition::opening(&self.file).unwrap_or(Edition::States)
    }

    /// What is known of the sheet that a call is about.
    pub fn facts(&self, call: Call) -> &Facts {
        if call.takes_numbers() {
            &self.of_numbers
        } else {
            &self.of_file
        }
    }
}

/// As the program `verdict` prints it; what is known of the sheet file is used where it is the input's sheet.
fn printed(input: &[u8], file: &[u8], of_file: &Facts) -> Result<String, No> {
    let (sheet, plan) = expected::split(input);
    match &of_file.tracker {
        Some(t) if sheet == file && plan.len() <= PLAN_BYTES => {
            let p = read_plan(plan, of_file.sheet.as_ref().unwrap())?;
            let (yes, least, passes) = tuples::verdict(t, &p);
            Ok(format!("{}{least:3}{passes:5}\n", if yes { "YES" } else { " NO" }))
        }
        _ => expected::verdict(input, ROOM),
    }
}

/// What a program prints.
pub fn print(printed: &Result<String, No>) -> Vec<u8> {
    printed.clone().unwrap_or_else(refusal).into_bytes()
}

/// A name spelled with composed or decomposed letters.
pub fn respelled(r: &mut Random, name: &[u8]) -> Vec<u8> {
    let Some(chars) = characters(name) else { return name.to_vec() };
    let mut out = String::new();
    for c in chars {
        let plain = "äaöoüuÄAÖOÜU".chars().skip_while(|x| *x != c).nth(1).filter(|_| "äöüÄÖÜ".contains(c));
        match plain {
            Some(p) if r.chance(50) => out.extend([p, '\u{308}']),
            _ => out.push(c),
        }
    }
    out.into_bytes()
}

/// A file filled to a size, with END as its last line or without.
fn filled(r: &mut Random, file: &[u8], size: usize) -> Vec<u8> {
    let mut out = file.to_vec();
    if r.chance(50) {
        out.truncate(out.len() - 4);
    }
    let fill = b"T\nx "[r.below(4)];
    out.resize(size, fill);
    if r.chance(50) {
        out.truncate(size - 5);
        out.extend(b"\nEND\n");
    }
    out
}

fn sheet_file(r: &mut Random, s: &Sheet) -> Vec<u8> {
    let file = write_sheet(s, false);
    match r.below(20) {
        0..=11 => file,
        12..=14 => families::damaged(r, &file),
        15 => {
            let once = families::damaged(r, &file);
            families::damaged(r, &once)
        }
        16 => same_names(r, s),
        17 => {
            let size = [24_577, SHEET_BYTES - 1, SHEET_BYTES, SHEET_BYTES + 1, SHEET_BYTES + 2, 100_000][r.below(6)];
            filled(r, &file, size)
        }
        18 => {
            let text = String::from_utf8(file).unwrap();
            let sizes = ["  0", " 17", " 16", "999", "  9", "  8", "  1"];
            let (n, k) = (sizes[r.below(7)], sizes[r.below(7)]);
            format!("{}{n}{k}{}", &text[..5], &text[11..]).into_bytes()
        }
        _ => {
            if r.chance(20) {
                let longest = if s.edition == Edition::Marks { limits::longest_marked_sheet } else { limits::longest_sheet };
                return write_sheet(&longest(r.chance(30)), false);
            }
            const BYTES: &[u8] = b"SHEET  1N\nD\xc3\xa4";
            let (size, word) = (r.below(40), s.edition.word().as_bytes());
            let bytes = (0..size).map(|_| BYTES[r.below(BYTES.len())]);
            if s.edition == Edition::Marks { word.iter().copied().chain(bytes).collect() } else { bytes.collect() }
        }
    }
}

/// Two letters of one name, spelled alike or not.
fn same_names(r: &mut Random, s: &Sheet) -> Vec<u8> {
    let mut s = s.clone();
    if s.k > 1 {
        let (one, other) = (r.below(s.k), r.below(s.k));
        s.names[one] = respelled(r, &s.names[other]);
    }
    write_sheet(&s, false)
}

fn plan_file(r: &mut Random, s: &Sheet) -> Vec<u8> {
    let p = families::plan(r, s.k);
    let mut spelled = s.clone();
    spelled.names = s.names.iter().map(|name| respelled(r, name)).collect();
    let file = write_plan(&spelled, &p);
    match r.below(20) {
        0..=12 => file,
        13..=15 => families::damaged(r, &file),
        16 => {
            let lengths = ["  0", "  1", "200", "201", "999"];
            let (lead, cycle) = (lengths[r.below(5)], lengths[r.below(5)]);
            [format!("PLAN{lead}{cycle}\n").as_bytes(), &file[11..]].concat()
        }
        17 => {
            let size = [PLAN_BYTES - 1, PLAN_BYTES, PLAN_BYTES + 1, 20_000][r.below(4)];
            filled(r, &file, size)
        }
        18 => {
            let all = Plan { lead: vec![0; 200], cycle: (0..200).map(|i| i % s.k).collect() };
            write_plan(s, &all)
        }
        _ => Vec::new(),
    }
}
