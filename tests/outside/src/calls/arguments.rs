//! The arguments of a call: tables of every length around the limit, filled with rubbish; rooms, letters and names of every kind.

use super::call::Call;
use super::lent::{Cell, Lent, Tables, NEXTS, SETS, TUPLE, WALK, WORD};
use super::model::text_from_numbers;
use super::numbers::Numbers;
use super::scenario::{respelled, Scenario};
use crate::random::Random;
use crate::sheet::{write_sheet, Sheet};

#[derive(Clone, PartialEq)]
pub struct Arguments {
    pub file: Vec<u8>,
    pub plan: Vec<u8>,
    pub name: Vec<u8>,
    pub edition: usize,
    pub n: usize,
    pub k: usize,
    pub initial: u16,
    pub recurring: u16,
    pub letter: usize,
    pub set: u16,
    pub room: usize,
    pub tuple: usize,
}

impl std::fmt::Debug for Arguments {
    fn fmt(&self, f: &mut std::fmt::Formatter) -> std::fmt::Result {
        let text = |x: &[u8]| String::from_utf8_lossy(x).into_owned();
        write!(f, "edition {}, n {}, k {}, sets {:#x} and {:#x}, ", self.edition, self.n, self.k, self.initial, self.recurring)?;
        write!(f, "letter {}, set {:#x}, room {}, tuple {}, name {:?}\n", self.letter, self.set, self.room, self.tuple, text(&self.name))?;
        write!(f, "plan {}file of {} bytes {}", text(&self.plan), self.file.len(), text(&self.file))
    }
}

/// Mostly as long as is asked; now and then shorter or longer.
fn length(r: &mut Random, need: usize) -> usize {
    match r.below(100) {
        0 => 0,
        1 => need.saturating_sub(1),
        2 => r.below(need + 1),
        3..=18 => need + 1 + r.below(64),
        _ => need,
    }
}

fn rubbish(r: &mut Random, need: usize) -> Lent<u16> {
    let length = length(r, need);
    Lent::rubbish(r, length)
}

fn no_cells<T: Cell>(r: &mut Random) -> Lent<T> {
    Lent::rubbish(r, 0)
}

/// Rooms around the count of tuples, around 1,024, and those with a product that overflows.
fn room(r: &mut Random, count: usize) -> usize {
    const HUGE: [usize; 6] = [usize::MAX, usize::MAX / TUPLE + 1, usize::MAX / NEXTS + 1, 1 << 32, (1 << 60) + 4, 65_537];
    match r.below(24) {
        0 => 0,
        1 => 1,
        2..=5 => count.saturating_sub(1),
        6..=11 => count,
        12..=14 => count + 1,
        15 => [1023, 1024, 1025][r.below(3)],
        16 => 1024,
        17 => HUGE[r.below(6)],
        18 => 1 + r.below(1024),
        _ => 1 + r.below(1024.min(2 * count)),
    }
}

/// Each of the tuples, the last of them, those that come next, and those far off, also with a product or a cut number that is small.
fn tuple(r: &mut Random, count: usize) -> usize {
    const FAR: [usize; 7] = [usize::MAX, usize::MAX / TUPLE + 1, 65_535, 65_536, 1 << 32, 1 << 63, 1024];
    match r.below(24) {
        0..=2 => 0,
        3 | 4 => count - 1,
        5 | 6 => count,
        7 => count + 1,
        8 => r.below(1025),
        9 => FAR[r.below(7)],
        10 => r.below(count) + [65_536, 1 << 32, usize::MAX / TUPLE + 1][r.below(3)],
        _ => r.below(count),
    }
}

fn letter(r: &mut Random) -> usize {
    const OTHERS: [usize; 8] = [8, 9, 16, 127, 256, 1 << 32, usize::MAX / 8 + 1, usize::MAX];
    if r.chance(80) {
        r.below(9)
    } else {
        OTHERS[r.below(8)]
    }
}

/// A name of the sheet in some spelling, something near it, or no name at all.
fn name(r: &mut Random, s: &Scenario) -> Vec<u8> {
    const NO_NAMES: [&[u8]; 10] = [
        b"", b"e\xcc\x88", b"a b", b"aaaaaaaaaaaaaaaaaaaaaaaaa", b"END", b"\xcc\x88", b"\xc3", b"\xff", b"\xc3\xa4\xcc\x88", b"a\n",
    ];
    let known = s.of_file.sheet.as_ref().map_or(Vec::new(), |x| x.names.clone());
    if known.is_empty() || r.chance(15) {
        return NO_NAMES[r.below(NO_NAMES.len())].to_vec();
    }
    let which = r.below(known.len());
    let mut name = respelled(r, &known[which]);
    match r.below(8) {
        0 => name.push(b"aA~\xcc\x00"[r.below(5)]),
        1 => {
            name.pop();
        }
        2 => {
            let at = r.below(name.len());
            name[at] = name[at].wrapping_add(1);
        }
        _ => {}
    }
    name
}

/// A table of a sheet as numbers; now and then too short.
fn given(r: &mut Random, sets: &[u16]) -> Lent<u16> {
    let cut = if r.chance(5) { [127, 0, 1, r.below(128)][r.below(4)] } else { sets.len() };
    Lent::holding(r, &sets[..cut])
}

fn successors_table(r: &mut Random, s: &Scenario) -> Lent<u16> {
    if r.chance(50) {
        return given(r, &s.numbers.sets);
    }
    let cells = r.below(160);
    Lent::rubbish(r, cells)
}

/// The length of the text that is to be written, or about as much where nothing is.
fn text_length(call: Call, s: &Scenario) -> usize {
    match call {
        Call::Write => s.of_file.sheet.as_ref().map_or(300, |x| write_sheet(x, true).len()),
        Call::WriteNumbers => text_from_numbers(s).map_or(300, |x| x.len()),
        Call::List => s.of_file.listing.len(),
        _ => s.of_numbers.listing.len(),
    }
}

fn out_length(r: &mut Random, call: Call, s: &Scenario) -> usize {
    if call == Call::Name {
        return r.below(31);
    }
    let need = call.program().unwrap_or_else(|| text_length(call, s));
    length(r, need)
}

pub fn of(r: &mut Random, s: &Scenario, call: Call) -> (Arguments, Tables) {
    let count = s.facts(call).tracker.as_ref().map_or(1024, |t| t.tuples.len());
    let room = if call.lends_room() { room(r, count) } else { 0 };
    let a = Arguments {
        file: if call == Call::VerdictProgram { s.input.clone() } else { s.file.clone() },
        plan: s.plan.clone(),
        name: name(r, s),
        edition: s.numbers.edition,
        n: s.numbers.n,
        k: s.numbers.k,
        initial: s.numbers.initial,
        recurring: s.numbers.recurring,
        letter: letter(r),
        set: r.bits() as u16,
        room,
        tuple: if call.lends_letters() { tuple(r, count) } else { 0 },
    };
    let rows = |cells: usize| room.wrapping_mul(cells).min(20_000);
    let lent = |r: &mut Random, taken: bool, need: usize| if taken { rubbish(r, need) } else { no_cells(r) };
    let sets = match call {
        _ if call.takes_numbers() => given(r, &s.numbers.sets),
        Call::Successors => successors_table(r, s),
        _ => lent(r, call.lends_sets(), SETS),
    };
    let marks = if call.takes_numbers() { given(r, &s.numbers.marks) } else { lent(r, call.lends_sets(), SETS) };
    let word = lent(r, call.lends_witness(), WORD);
    let one = lent(r, call.lends_witness(), WALK);
    let other = lent(r, call.lends_witness(), WALK);
    let tuples = lent(r, call.lends_room(), rows(TUPLE));
    let nexts = lent(r, call.lends_room(), rows(NEXTS));
    let out = if call.writes() || call == Call::Name || call.program().is_some() { out_length(r, call, s) } else { 0 };
    let out = Lent::rubbish(r, out);
    let cells = r.below(10);
    let answer = Lent::rubbish(r, cells);
    let letters = if call.lends_letters() { rubbish(r, rows(1)) } else { Lent::none() };
    (a, Tables { sets, marks, word, one, other, tuples, nexts, letters, out, answer })
}

/// The arguments of a call that asks question 10, with a room for all tuples and every table as long as is asked.
pub fn exact(r: &mut Random, s: &Scenario, call: Call) -> (Arguments, Tables) {
    let facts = s.facts(call);
    let room = if call.lends_room() { facts.tracker.as_ref().map_or(1, |t| t.tuples.len()) } else { 0 };
    let Numbers { edition, n, k, initial, recurring, .. } = s.numbers;
    let (file, plan, name) = (s.file.clone(), s.plan.clone(), Vec::new());
    let a = Arguments { file, plan, name, edition, n, k, initial, recurring, letter: 0, set: 0, room, tuple: 0 };
    let table = |r: &mut Random, given: &[u16]| match call {
        _ if call.takes_numbers() => Lent::holding(r, given),
        _ if call.lends_sets() => Lent::rubbish(r, SETS),
        _ => Lent::none(),
    };
    let (sets, marks) = (table(r, &s.numbers.sets), table(r, &s.numbers.marks));
    let (word, one, other) = (Lent::rubbish(r, WORD), Lent::rubbish(r, WALK), Lent::rubbish(r, WALK));
    let (tuples, nexts) = (Lent::rubbish(r, TUPLE * room), Lent::rubbish(r, NEXTS * room));
    let letters = if call.lends_letters() { Lent::rubbish(r, room) } else { Lent::none() };
    let out = Lent::rubbish(r, if call.writes() { text_length(call, s) } else { 0 });
    (a, Tables { sets, marks, word, one, other, tuples, nexts, letters, out, answer: Lent::rubbish(r, 7) })
}

/// The arguments of a call that builds the tracker of a sheet, with every table longer than is asked.
pub fn roomy(r: &mut Random, sheet: &Sheet, plan: &[u8], call: Call, room: usize) -> (Arguments, Tables) {
    let Numbers { edition, n, k, initial, recurring, sets, marks } = Numbers::of(sheet);
    let (file, plan, name) = (write_sheet(sheet, false), plan.to_vec(), Vec::new());
    let a = Arguments { file, plan, name, edition, n, k, initial, recurring, letter: 0, set: 0, room, tuple: 0 };
    let longer = |r: &mut Random, need: usize| {
        let more = 1 + r.below(40);
        Lent::rubbish(r, need + more)
    };
    // Behind the 128th cell of a sheet as numbers nothing but zeros may stand.
    let table = |r: &mut Random, given: &[u16]| if call.takes_numbers() { Lent::holding(r, &[given, &[0; 3]].concat()) } else { longer(r, SETS) };
    let (sets, marks) = (table(r, &sets), table(r, &marks));
    let (word, one, other) = (longer(r, WORD), longer(r, WALK), longer(r, WALK));
    let (tuples, nexts) = (longer(r, TUPLE * room), longer(r, NEXTS * room));
    (a, Tables { sets, marks, word, one, other, tuples, nexts, letters: Lent::none(), out: Lent::none(), answer: Lent::rubbish(r, 9) })
}
