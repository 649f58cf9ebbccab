//! A plain fast version of the same job, to compare speed with: masks, hashing, a heap.

use std::collections::HashMap;
use std::hash::{BuildHasherDefault, Hasher};

pub type No = (u32, usize);
pub type Row = [u16; 17];

/// A multiplying hash of the row's words, as fast hash maps use it.
#[derive(Default)]
pub struct Mix(u64);

impl Hasher for Mix {
    fn finish(&self) -> u64 {
        self.0 ^ (self.0 >> 29)
    }
    fn write(&mut self, bytes: &[u8]) {
        for part in bytes.chunks(8) {
            let mut word = [0u8; 8];
            word[..part.len()].copy_from_slice(part);
            self.0 = (self.0.rotate_left(5) ^ u64::from_le_bytes(word)).wrapping_mul(0x517c_c1b7_2722_0a95);
        }
    }
    fn write_usize(&mut self, _: usize) {}
}

pub struct Sheet {
    /// Are transitions marked (SHT-2), or must states recur (SHEET)?
    pub marked: bool,
    pub n: usize,
    pub k: usize,
    pub initial: u16,
    pub recurring: u16,
    pub next: [u16; 128],
    /// The marked ones among the successors.
    pub marks: [u16; 128],
    pub names: Vec<Vec<u8>>,
    /// The letter that finally stands for each letter.
    pub standing: [usize; 8],
}

fn number(b: &[u8]) -> Option<usize> {
    let digit = |x: u8| x.wrapping_sub(b'0') as usize;
    match (b[0], b[1], b[2]) {
        (b' ', b' ', c) if digit(c) < 10 => Some(digit(c)),
        (b' ', d, c) if digit(d) < 10 && d != b'0' && digit(c) < 10 => Some(10 * digit(d) + digit(c)),
        (e, d, c) if digit(e) < 10 && e != b'0' && digit(d) < 10 && digit(c) < 10 => Some(100 * digit(e) + 10 * digit(d) + digit(c)),
        _ => None,
    }
}

fn composed(name: &[u8]) -> Option<Vec<u8>> {
    if name.is_empty() || name.len() > 24 {
        return None;
    }
    let mut out: Vec<u8> = Vec::with_capacity(24);
    let (mut i, mut vowel) = (0, false);
    while i < name.len() {
        match name[i] {
            0xc3 => {
                let c = *name.get(i + 1)?;
                if ![0xa4, 0xb6, 0xbc, 0x84, 0x96, 0x9c, 0x9f].contains(&c) {
                    return None;
                }
                out.extend([0xc3, c]);
                i += 2;
                vowel = false;
            }
            0xcc => {
                if !vowel || name.get(i + 1) != Some(&0x88) {
                    return None;
                }
                let c = match out.pop()? {
                    b'a' => 0xa4,
                    b'o' => 0xb6,
                    b'u' => 0xbc,
                    b'A' => 0x84,
                    b'O' => 0x96,
                    _ => 0x9c,
                };
                out.extend([0xc3, c]);
                i += 2;
                vowel = false;
            }
            b @ 0x21..=0x7e => {
                out.push(b);
                vowel = b"aouAOU".contains(&b);
                i += 1;
            }
            _ => return None,
        }
    }
    Some(out)
}

pub fn read_sheet(s: &[u8]) -> Result<Sheet, No> {
    if s.len() > 32_768 {
        return Err((2, 0));
    }
    if s.len() < 12 || s[11] != b'\n' {
        return Err((3, 1));
    }
    let marked = match &s[..5] {
        b"SHEET" => false,
        b"SHT-2" => true,
        _ => return Err((3, 1)),
    };
    let (n, k) = (number(&s[5..8]).ok_or((3, 1))?, number(&s[8..11]).ok_or((3, 1))?);
    if n < 1 || n > 16 || k < 1 || k > 8 {
        return Err((4, 1));
    }
    let (mut at, mut line) = (12, 2);
    let mut names: Vec<Vec<u8>> = Vec::with_capacity(k);
    for l in 0..k {
        if s.len() < at + 6 || s[at] != b'N' || number(&s[at + 1..at + 4]) != Some(l) || s[at + 4] != b' ' {
            return Err((5, line));
        }
        let end = s[at + 5..].iter().take(25).position(|b| *b == b'\n').ok_or((5, line))?;
        let name = composed(&s[at + 5..at + 5 + end]).ok_or((5, line))?;
        if names.contains(&name) {
            return Err((6, line));
        }
        names.push(name);
        at += 6 + end;
        line += 1;
    }
    let mut by = [0usize; 8];
    let mut free = 0;
    while at < s.len() && s[at] == b'W' {
        if s.len() < at + 8 || s[at + 7] != b'\n' {
            return Err((15, line));
        }
        let (l, m) = (number(&s[at + 1..at + 4]).ok_or((15, line))?, number(&s[at + 4..at + 7]).ok_or((15, line))?);
        if l < free || m <= l || m >= k {
            return Err((15, line));
        }
        by[l] = m;
        free = l + 1;
        at += 8;
        line += 1;
    }
    // A superseding letter is the larger one, so it is settled before.
    let mut standing = [0usize; 8];
    for l in (0..k).rev() {
        standing[l] = if by[l] == 0 { l } else { standing[by[l]] };
    }
    let (mut initial, mut recurring) = (0u16, 0u16);
    let (state, transition) = if marked { (8, 14) } else { (11, 11) };
    for q in 0..n {
        let good = s.len() >= at + state && s[at] == b'S' && s[at + state - 1] == b'\n' && number(&s[at + 1..at + 4]) == Some(q);
        let third = |good: bool| if marked { Some(0) } else { good.then(|| number(&s[at + 7..at + 10])).flatten() };
        match (good, good.then(|| number(&s[at + 4..at + 7])).flatten(), third(good)) {
            (true, Some(i @ 0..=1), Some(m @ 0..=1)) => {
                initial |= (i as u16) << q;
                recurring |= (m as u16) << q;
            }
            _ => return Err((7, line)),
        }
        at += state;
        line += 1;
    }
    let (mut next, mut marks) = ([0u16; 128], [0u16; 128]);
    let mut least = 0;
    while at < s.len() && s[at] == b'T' {
        if s.len() < at + transition || s[at + transition - 1] != b'\n' {
            return Err((8, line));
        }
        let part = |a: usize| number(&s[at + a..at + a + 3]).ok_or((8, line));
        let (q, l, r) = (part(1)?, part(4)?, part(7)?);
        let place = (8 * q + l) * 16 + r;
        let mark = if marked { part(10)? } else { 0 };
        if q >= n || l >= k || r >= n || place < least || mark > 1 {
            return Err((8, line));
        }
        if by[l] != 0 {
            return Err((16, line));
        }
        next[8 * q + l] |= 1 << r;
        marks[8 * q + l] |= (mark as u16) << r;
        least = place + 1;
        at += transition;
        line += 1;
    }
    if !s[at..].starts_with(b"END\n") {
        return Err((9, line));
    }
    if s.len() > at + 4 {
        return Err((9, line + 1));
    }
    Ok(Sheet { marked, n, k, initial, recurring, next, marks, names, standing })
}

/// The states from which transitions go on without end: the others fall away, those first that have no successor left.
fn endless(s: &Sheet) -> u16 {
    let mut after = [0u16; 16];
    for q in 0..s.n {
        after[q] = s.next[8 * q..8 * q + s.k].iter().fold(0, |a, b| a | b);
    }
    let mut left = u16::MAX >> (16 - s.n);
    loop {
        let mut kept = left;
        for q in 0..s.n {
            if after[q] & kept == 0 {
                kept &= !(1 << q);
            }
        }
        if kept == left {
            return left;
        }
        left = kept;
    }
}

/// Is there a word with two different walks to one state that goes on without end? Pairs of states reached together, layer by layer.
pub fn meets(s: &Sheet) -> bool {
    let endless = endless(s);
    let mut seen = [0u16; 16];
    let mut layer = [0u16; 16];
    for q in 0..16 {
        if s.initial >> q & 1 == 1 {
            layer[q] = s.initial;
        }
    }
    loop {
        let mut fresh = [0u16; 16];
        let mut more = false;
        for p in 0..s.n {
            let mut rest = layer[p] & !seen[p];
            seen[p] |= layer[p];
            while rest != 0 {
                let q = rest.trailing_zeros() as usize;
                rest &= rest - 1;
                for l in 0..s.k {
                    let (x, y) = (s.next[8 * p + l], s.next[8 * q + l]);
                    if p != q && x & y & endless != 0 {
                        return true;
                    }
                    let mut a = x;
                    while a != 0 {
                        let t = a.trailing_zeros() as usize;
                        a &= a - 1;
                        fresh[t] |= y;
                    }
                }
            }
        }
        for p in 0..s.n {
            more |= fresh[p] & !seen[p] != 0;
        }
        if !more {
            return false;
        }
        layer = fresh;
    }
}

fn successors(table: &[u16; 128], mut set: u16, l: usize) -> u16 {
    let mut out = 0;
    while set != 0 {
        let q = set.trailing_zeros() as usize;
        set &= set - 1;
        out |= table[8 * q + l];
    }
    out
}

pub fn step(s: &Sheet, u: &Row, l: usize) -> Row {
    let p = u[..16].iter().position(|x| *x == 0).unwrap_or(16);
    let mut w = [0u16; 17];
    for i in 0..p {
        w[i] = successors(&s.next, u[i], l);
    }
    w[p] = if s.marked { successors(&s.marks, u[0], l) } else { successors(&s.next, u[0], l) & s.recurring };
    let mut colour = 2 * s.n as u16 + 1;
    for i in 0..=p {
        let x = w[i];
        if x == 0 {
            if i < p {
                colour = colour.min(2 * i as u16 + 1);
            }
            continue;
        }
        let later = w[i + 1..p + 1].iter().fold(0, |a, b| a | b);
        if x & !later == 0 {
            colour = colour.min(2 * i as u16 + 2);
            w[i + 1..p + 1].iter_mut().for_each(|y| *y &= !x);
        }
    }
    if w[0] == 0 {
        colour = 1;
    }
    let mut out = [0u16; 17];
    let mut j = 0;
    for x in w.iter().take(p + 1).filter(|x| **x != 0) {
        out[j] = *x;
        j += 1;
    }
    out[16] = colour;
    out
}

pub struct Tracker {
    pub rows: Vec<Row>,
    pub next: Vec<[u16; 8]>,
}

pub fn build(s: &Sheet, room: usize) -> Option<Tracker> {
    let mut first = [0u16; 17];
    first[0] = s.initial;
    first[16] = 2 * s.n as u16 + 1;
    let mut rows = vec![first];
    let mut number: HashMap<Row, u16, BuildHasherDefault<Mix>> = HashMap::default();
    number.insert(first, 0);
    let mut next: Vec<[u16; 8]> = Vec::new();
    while next.len() < rows.len() {
        let here = rows[next.len()];
        let mut cells = [0u16; 8];
        for l in 0..s.k {
            let u = step(s, &here, l);
            let fresh = rows.len();
            let i = *number.entry(u).or_insert(fresh as u16);
            if i as usize == fresh {
                if fresh == room {
                    return None;
                }
                rows.push(u);
            }
            cells[l] = i;
        }
        next.push(cells);
    }
    Some(Tracker { rows, next })
}

pub fn tracker(sheet: &[u8], room: usize) -> Result<(Sheet, Tracker), No> {
    let s = read_sheet(sheet)?;
    if meets(&s) {
        return Err((10, 0));
    }
    let t = build(&s, room).ok_or((11, 0))?;
    Ok((s, t))
}

fn put(out: &mut Vec<u8>, w: usize, mut v: usize) {
    let at = out.len();
    out.resize(at + w, b' ');
    let mut i = at + w;
    loop {
        i -= 1;
        out[i] = b'0' + (v % 10) as u8;
        v /= 10;
        if v == 0 {
            return;
        }
    }
}

pub fn listing(s: &Sheet, t: &Tracker) -> Vec<u8> {
    let mut out = b"TRACK".to_vec();
    put(&mut out, 3, s.n);
    put(&mut out, 3, s.k);
    put(&mut out, 5, t.rows.len());
    out.push(b'\n');
    for (i, row) in t.rows.iter().enumerate() {
        out.push(b'Q');
        put(&mut out, 5, i);
        put(&mut out, 3, row[16] as usize);
        row[..s.n].iter().for_each(|x| put(&mut out, 6, *x as usize));
        t.next[i][..s.k].iter().for_each(|x| put(&mut out, 5, *x as usize));
        out.push(b'\n');
    }
    out.extend(b"END\n");
    out
}

pub fn read_plan(p: &[u8], s: &Sheet) -> Result<(Vec<usize>, usize), No> {
    if p.len() < 11 || &p[..4] != b"PLAN" || p[10] != b'\n' {
        return Err((12, 1));
    }
    let (lead, cycle) = (number(&p[4..7]).ok_or((12, 1))?, number(&p[7..10]).ok_or((12, 1))?);
    if lead > 200 || cycle < 1 || cycle > 200 {
        return Err((13, 1));
    }
    let (mut at, mut letters) = (11, Vec::with_capacity(lead + cycle));
    for i in 0..lead + cycle {
        let end = p[at..].iter().take(25).position(|b| *b == b'\n').ok_or((12, i + 2))?;
        let name = composed(&p[at..at + end]).ok_or((12, i + 2))?;
        letters.push(s.standing[s.names.iter().position(|x| *x == name).ok_or((14, i + 2))?]);
        at += end + 1;
    }
    if !p[at..].starts_with(b"END\n") {
        return Err((12, lead + cycle + 2));
    }
    if p.len() > at + 4 {
        return Err((12, lead + cycle + 3));
    }
    Ok((letters, lead))
}

/// Least colour and passes.
pub fn judge(t: &Tracker, letters: &[usize], lead: usize) -> (u16, usize) {
    let mut at = 0;
    for l in &letters[..lead] {
        at = t.next[at][*l] as usize;
    }
    let mut seen = vec![0usize; t.rows.len()];
    let mut least: Vec<u16> = Vec::new();
    seen[at] = 1;
    loop {
        let mut low = u16::MAX;
        for l in &letters[lead..] {
            at = t.next[at][*l] as usize;
            low = low.min(t.rows[at][16]);
        }
        least.push(low);
        if seen[at] > 0 {
            return (*least[seen[at] - 1..].iter().min().unwrap(), least.len());
        }
        seen[at] = least.len() + 1;
    }
}

pub fn verdict(input: &[u8], room: usize) -> Result<(u16, usize), No> {
    let mut at = 0;
    let mut end = input.len();
    for line in input.split_inclusive(|b| *b == b'\n') {
        at += line.len();
        if line == b"END\n" {
            end = at;
            break;
        }
    }
    let (sheet, plan) = input.split_at(end);
    if sheet.len() > 32_768 || plan.len() > 12_288 {
        return Err((2, 0));
    }
    let (s, t) = tracker(sheet, room)?;
    let (letters, lead) = read_plan(plan, &s)?;
    Ok(judge(&t, &letters, lead))
}
