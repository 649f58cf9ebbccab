//! A sheet and a plan, read by a reader of its own: lines are split at LF, and each is judged by itself.

use crate::edition::Edition;
use crate::names::characters;
use std::collections::BTreeSet;

/// A refusal: the question's number and the line.
pub type No = (u32, usize);

/// The most bytes of a sheet file, of either edition, and of a plan file.
pub const SHEET_BYTES: usize = 32_768;
pub const PLAN_BYTES: usize = 12_288;

#[derive(Clone, PartialEq, Eq, Debug)]
pub struct Sheet {
    pub edition: Edition,
    pub n: usize,
    pub k: usize,
    pub initial: Vec<bool>,
    /// None of them where transitions are marked.
    pub recurring: Vec<bool>,
    /// The states that state q may go to on letter l: `next[q][l]`.
    pub next: Vec<Vec<Vec<usize>>>,
    /// The marked transitions, by state, letter and state. There are none where states must recur.
    pub marked: BTreeSet<(usize, usize, usize)>,
    /// Names as they are spelled.
    pub names: Vec<Vec<u8>>,
    /// Withdrawn letters, each with its superseding letter, as their lines stand.
    pub withdrawn: Vec<(usize, usize)>,
}

impl Sheet {
    /// The transitions by state, letter and state, in the order of their lines.
    pub fn transitions(&self) -> Vec<(usize, usize, usize)> {
        let on = |q: usize, l: usize| self.next[q][l].iter().map(move |t| (q, l, *t));
        (0..self.n).flat_map(|q| (0..self.k).flat_map(move |l| on(q, l))).collect()
    }

    pub fn withdraws(&self, letter: usize) -> bool {
        self.withdrawn.iter().any(|(old, _)| *old == letter)
    }

    /// The letter that finally stands for a letter: line by line from the top, the old one is replaced by the new one. One pass is enough,
    /// since a superseding letter is larger and is withdrawn further down, if at all.
    pub fn standing(&self, letter: usize) -> usize {
        self.withdrawn.iter().fold(letter, |l, (old, new)| if l == *old { *new } else { l })
    }
}

#[derive(Clone, Debug)]
pub struct Plan {
    pub lead: Vec<usize>,
    pub cycle: Vec<usize>,
}

/// The lines of a file: the whole ones, and what stands behind the last LF.
fn lines(bytes: &[u8]) -> (Vec<&[u8]>, &[u8]) {
    let mut parts: Vec<&[u8]> = bytes.split(|b| *b == b'\n').collect();
    let rest = parts.pop().unwrap_or(&[]);
    (parts, rest)
}

/// A decimal number, right-justified in its columns.
fn number(columns: &[u8]) -> Option<usize> {
    let text = std::str::from_utf8(columns).ok()?;
    let digits = text.trim_start_matches(' ');
    if digits.is_empty() || !digits.bytes().all(|b| b.is_ascii_digit()) {
        return None;
    }
    if digits.len() > 1 && digits.starts_with('0') {
        return None;
    }
    digits.parse().ok()
}

/// 0 or 1.
fn flag(columns: &[u8]) -> Option<bool> {
    match number(columns) {
        Some(0) => Some(false),
        Some(1) => Some(true),
        _ => None,
    }
}

pub fn read_sheet(bytes: &[u8]) -> Result<Sheet, No> {
    if bytes.len() > SHEET_BYTES {
        return Err((2, 0));
    }
    let (whole, rest) = lines(bytes);
    let line = |i: usize| whole.get(i - 1).copied();
    // Of the line behind the whole ones, too.
    let opens = |i: usize, byte: u8| line(i).map_or(rest.first(), |t| t.first()) == Some(&byte);
    let head = line(1).filter(|l| l.len() == 11).ok_or((3, 1))?;
    let edition = Edition::opening(head).ok_or((3, 1))?;
    let n = number(&head[5..8]).ok_or((3, 1))?;
    let k = number(&head[8..11]).ok_or((3, 1))?;
    if !(1..=16).contains(&n) || !(1..=8).contains(&k) {
        return Err((4, 1));
    }
    let mut at = 2;
    let mut names: Vec<Vec<u8>> = Vec::new();
    let mut known: Vec<Vec<char>> = Vec::new();
    for l in 0..k {
        let text = line(at)
            .filter(|t| t.len() > 5 && t[0] == b'N' && t[4] == b' ' && number(&t[1..4]) == Some(l))
            .ok_or((5, at))?;
        let chars = characters(&text[5..]).ok_or((5, at))?;
        if known.contains(&chars) {
            return Err((6, at));
        }
        known.push(chars);
        names.push(text[5..].to_vec());
        at += 1;
    }
    let mut withdrawn: Vec<(usize, usize)> = Vec::new();
    while opens(at, b'W') {
        let text = line(at).filter(|t| t.len() == 7).ok_or((15, at))?;
        let (old, new) = (number(&text[1..4]).ok_or((15, at))?, number(&text[4..7]).ok_or((15, at))?);
        if old >= k || new >= k || new <= old || withdrawn.last().map_or(false, |w| old <= w.0) {
            return Err((15, at));
        }
        withdrawn.push((old, new));
        at += 1;
    }
    let (mut initial, mut recurring) = (Vec::new(), Vec::new());
    // One edition has a third number on the state lines, the other a fourth on the transition lines.
    let (state_line, transition_line) = match edition {
        Edition::States => (10, 10),
        Edition::Marks => (7, 13),
    };
    for q in 0..n {
        let text = line(at)
            .filter(|t| t.len() == state_line && t[0] == b'S' && number(&t[1..4]) == Some(q))
            .ok_or((7, at))?;
        initial.push(flag(&text[4..7]).ok_or((7, at))?);
        recurring.push(edition == Edition::States && flag(&text[7..10]).ok_or((7, at))?);
        at += 1;
    }
    let mut next = vec![vec![Vec::new(); k]; n];
    let mut marked = BTreeSet::new();
    let mut last: Option<(usize, usize, usize)> = None;
    while opens(at, b'T') {
        let text = line(at).filter(|t| t.len() == transition_line).ok_or((8, at))?;
        let part = |a: usize| number(&text[a..a + 3]).ok_or((8, at));
        let t = (part(1)?, part(4)?, part(7)?);
        if edition == Edition::Marks && flag(&text[10..13]).ok_or((8, at))? {
            marked.insert(t);
        }
        if t.0 >= n || t.1 >= k || t.2 >= n || last.map_or(false, |u| t <= u) {
            return Err((8, at));
        }
        if withdrawn.iter().any(|w| w.0 == t.1) {
            return Err((16, at));
        }
        next[t.0][t.1].push(t.2);
        last = Some(t);
        at += 1;
    }
    if line(at) != Some(b"END") {
        return Err((9, at));
    }
    if at < whole.len() || !rest.is_empty() {
        return Err((9, at + 1));
    }
    Ok(Sheet { edition, n, k, initial, recurring, next, marked, names, withdrawn })
}

pub fn read_plan(bytes: &[u8], sheet: &Sheet) -> Result<Plan, No> {
    let (whole, rest) = lines(bytes);
    let line = |i: usize| whole.get(i - 1).copied();
    let head = line(1).filter(|l| l.len() == 10 && l.starts_with(b"PLAN")).ok_or((12, 1))?;
    let lead = number(&head[4..7]).ok_or((12, 1))?;
    let cycle = number(&head[7..10]).ok_or((12, 1))?;
    if lead > 200 || !(1..=200).contains(&cycle) {
        return Err((13, 1));
    }
    let known: Vec<_> = sheet.names.iter().map(|x| characters(x)).collect();
    let mut letters = Vec::new();
    for i in 0..lead + cycle {
        let at = i + 2;
        let chars = line(at).and_then(characters).ok_or((12, at))?;
        let named = known.iter().position(|x| x.as_ref() == Some(&chars)).ok_or((14, at))?;
        letters.push(sheet.standing(named));
    }
    let at = lead + cycle + 2;
    if line(at) != Some(b"END") {
        return Err((12, at));
    }
    if at < whole.len() || !rest.is_empty() {
        return Err((12, at + 1));
    }
    let cycle = letters.split_off(lead);
    Ok(Plan { lead: letters, cycle })
}

/// The sheet's file, with its names as they are spelled or composed.
pub fn write_sheet(s: &Sheet, composed: bool) -> Vec<u8> {
    let mut out = format!("{}{:3}{:3}\n", s.edition.word(), s.n, s.k).into_bytes();
    for (l, name) in s.names.iter().enumerate() {
        out.extend(format!("N{l:3} ").bytes());
        if composed {
            out.extend(characters(name).unwrap().iter().collect::<String>().bytes());
        } else {
            out.extend(name);
        }
        out.push(b'\n');
    }
    for (old, new) in &s.withdrawn {
        out.extend(format!("W{old:3}{new:3}\n").bytes());
    }
    for q in 0..s.n {
        let initial = s.initial[q] as u8;
        let line = match s.edition {
            Edition::States => format!("S{q:3}{initial:3}{:3}\n", s.recurring[q] as u8),
            Edition::Marks => format!("S{q:3}{initial:3}\n"),
        };
        out.extend(line.bytes());
    }
    for (q, l, t) in s.transitions() {
        let line = match s.edition {
            Edition::States => format!("T{q:3}{l:3}{t:3}\n"),
            Edition::Marks => format!("T{q:3}{l:3}{t:3}{:3}\n", s.marked.contains(&(q, l, t)) as u8),
        };
        out.extend(line.bytes());
    }
    out.extend(b"END\n");
    out
}

/// The plan's file: each letter by its own name, withdrawn or not.
pub fn write_plan(s: &Sheet, p: &Plan) -> Vec<u8> {
    let mut out = format!("PLAN{:3}{:3}\n", p.lead.len(), p.cycle.len()).into_bytes();
    for l in p.lead.iter().chain(&p.cycle) {
        out.extend(&s.names[*l]);
        out.push(b'\n');
    }
    out.extend(b"END\n");
    out
}
