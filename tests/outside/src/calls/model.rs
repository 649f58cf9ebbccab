//! What each call answers, and what every table holds then: the questions in their order, by the requirements' text.

use super::arguments::Arguments;
use super::call::Call;
use super::facts::Refusal;
use super::kinds::{fault_of_marks, BY_FILE, EMPTY_WORD, FEW_LETTERS, FEW_MARKS, LATE, NO_TUPLE, OTHER_NAMES, SOME_WORD};
use super::lent::{Tables, BY, COLOUR, FROM, NEXTS, SETS, TUPLE, WALK, WORD};
use super::numbers::{mask, Numbers};
use super::scenario::{print, Scenario};
use crate::expected::ROOM;
use crate::names::characters;
use crate::sheet::{read_plan, write_sheet, No, Sheet, PLAN_BYTES, SHEET_BYTES};
use crate::tuples::{self, Tracker};
use crate::ways;

pub struct Want<'a> {
    pub tables: Tables,
    pub returned: usize,
    /// The refusal, or 0.
    pub number: u32,
    /// What else is told apart of the answer.
    pub kinds: Vec<u32>,
    /// With 10 the sheet and the length of its shortest words. Which word and walks stand in the tables is free.
    pub meeting: Option<(&'a Sheet, usize)>,
    /// Do the word and the walks stand in the buffer, as `rewrite` prints them?
    pub printed: bool,
}

pub fn want<'a>(call: Call, s: &'a Scenario, a: &Arguments, before: &Tables) -> Want<'a> {
    let mut w = Want { tables: before.clone(), returned: 0, number: 0, kinds: Vec::new(), meeting: None, printed: false };
    match call {
        Call::Successors => w.returned = successors(before.sets.inside(), a.letter, a.set) as usize,
        Call::Name | Call::NameNumber => about_a_letter(call, s, a, &mut w),
        _ if call.program().is_some() => program(call, s, &mut w),
        _ => whole_sheet(call, s, a, &mut w),
    }
    w
}

/// The union of the members' cells; past the table's end and from letter 8 on there are none.
fn successors(table: &[u16], letter: usize, set: u16) -> u16 {
    let cell = |q: usize| if letter < 8 { table.get(8 * q + letter).copied().unwrap_or(0) } else { 0 };
    (0..16).filter(|q| set >> q & 1 == 1).fold(0, |u, q| u | cell(q))
}

fn about_a_letter<'a>(call: Call, s: &'a Scenario, a: &Arguments, w: &mut Want<'a>) {
    let found: Result<&[u8], No> = match &s.of_file.sheet {
        Err(no) => Err(*no),
        Ok(sheet) => sheet.names.get(a.letter).map(|x| &x[..]).ok_or((14, 0)),
    };
    if call == Call::Name {
        let name = found.unwrap_or(&[]);
        w.tables.out.set(name);
        w.tables.answer.set(&[name.len()]);
    } else {
        let (number, line) = found.err().unwrap_or((0, 0));
        w.tables.answer.set(&[number as usize, line, 0]);
        w.number = number;
    }
}

/// A buffer that is too short is left as it was.
fn program<'a>(call: Call, s: &'a Scenario, w: &mut Want<'a>) {
    let sheet = s.of_file.accepted();
    let printed: Result<String, No> = match (call, &sheet) {
        (Call::VerdictProgram, _) => s.printed.clone(),
        (_, Err(Refusal::Plain(no))) => Err(*no),
        (_, Err(Refusal::Meeting(..))) => Err((10, 0)),
        (Call::Rewrite, Ok(x)) => Ok(String::from_utf8(write_sheet(x, true)).unwrap()),
        (_, Ok(_)) => s.of_file.tracked(ROOM).map(|_| s.of_file.listing.clone()).map_err(|_| (11, 0)),
    };
    if w.tables.out.len() < call.program().unwrap() {
        w.kinds.push(LATE);
        return;
    }
    let text = print(&printed);
    w.tables.out.set(&text);
    w.returned = text.len();
    w.number = printed.err().map_or(0, |no| no.0);
    if let (Call::Rewrite, Err(Refusal::Meeting(sheet, length))) = (call, sheet) {
        w.meeting = Some((sheet, length));
        w.printed = true;
    }
}

/// Question 1, as far as it is asked first, but for the marks and the letters.
fn long_enough(call: Call, a: &Arguments, t: &Tables) -> bool {
    let sets = !(call.lends_sets() || call.takes_numbers()) || t.sets.len() >= SETS;
    let witness = t.word.len() >= WORD && t.one.len() >= WALK && t.other.len() >= WALK;
    let room = !call.lends_room() || (1..=1024).contains(&a.room) && t.tuples.len() >= TUPLE * a.room && t.nexts.len() >= NEXTS * a.room;
    sets && witness && room
}

fn enough_marks(call: Call, t: &Tables) -> bool {
    !(call.lends_sets() || call.takes_numbers()) || t.marks.len() >= SETS
}

fn enough_letters(call: Call, a: &Arguments, t: &Tables) -> bool {
    !call.lends_letters() || t.letters.len() >= a.room
}

/// What a call gives that refuses nothing.
#[derive(Default)]
struct Done<'a> {
    cells: Vec<usize>,
    sheet: Option<&'a Sheet>,
    tracker: Option<&'a Tracker>,
    text: Vec<u8>,
    /// The letters to a tuple, where there is such a tuple.
    letters: Option<Vec<u16>>,
}

/// The sheet written from the numbers with the names and the withdrawals of the file, where both are accepted.
pub fn text_from_numbers(s: &Scenario) -> Option<Vec<u8>> {
    let file = s.of_file.accepted().ok()?;
    let sheet = s.of_numbers.accepted().ok().filter(|x| x.k == file.k && !uses_withdrawn(file, x))?;
    Some(write_sheet(&Sheet { names: file.names.clone(), withdrawn: file.withdrawn.clone(), ..sheet.clone() }, true))
}

/// Question 16 on numbers: has the sheet a successor on a letter that the file withdraws?
fn uses_withdrawn(file: &Sheet, sheet: &Sheet) -> bool {
    (0..sheet.k).any(|l| file.withdraws(l) && sheet.next.iter().any(|row| !row[l].is_empty()))
}

/// The questions behind 1, in their order.
fn questions<'a>(call: Call, s: &'a Scenario, a: &Arguments, t: &Tables) -> Result<Done<'a>, Refusal<'a>> {
    let no = |number: u32| Refusal::Plain((number, 0));
    let mut done = Done::default();
    if call == Call::Verdict && (s.file.len() > SHEET_BYTES || s.plan.len() > PLAN_BYTES) {
        return Err(no(2));
    }
    if call == Call::WriteNumbers {
        let file = s.of_file.accepted()?;
        if file.k != a.k {
            return Err(no(4));
        }
        let sheet = s.of_numbers.sheet.as_ref().map_err(|no| Refusal::Plain(*no))?;
        if uses_withdrawn(file, sheet) {
            return Err(no(16));
        }
    }
    let facts = s.facts(call);
    let sheet = facts.accepted()?;
    let numbers = Numbers::of(sheet);
    done.sheet = Some(sheet);
    done.cells = vec![1, numbers.edition, sheet.n, sheet.k, numbers.initial as usize, numbers.recurring as usize];
    if call.lends_room() {
        let tracker = facts.tracked(a.room)?;
        done.cells.push(tracker.tuples.len());
        done.tracker = Some(tracker);
    }
    match call {
        Call::Check => done.cells = vec![1],
        Call::Find => {
            let wanted = characters(&a.name);
            let named = sheet.names.iter().position(|x| wanted.is_some() && characters(x) == wanted).ok_or(no(14))?;
            done.cells = vec![1, sheet.standing(named)];
        }
        Call::Verdict => {
            let plan = read_plan(&s.plan, sheet).map_err(Refusal::Plain)?;
            let (yes, least, passes) = tuples::verdict(done.tracker.unwrap(), &plan);
            done.cells = vec![if yes { 1 } else { 2 }, least, passes];
        }
        Call::Way => {
            let t = done.tracker.unwrap();
            let there = a.tuple < t.tuples.len();
            done.letters = there.then(|| ways::spelled(&ways::found_from(t), a.tuple).iter().map(|l| *l as u16).collect());
            done.cells = done.letters.as_ref().map_or(vec![2], |word| vec![1, word.len()]);
        }
        _ => {}
    }
    if call.writes() {
        done.text = match call {
            Call::Write => write_sheet(sheet, true),
            Call::WriteNumbers => text_from_numbers(s).unwrap(),
            _ => facts.listing.clone().into_bytes(),
        };
        if t.out.len() < done.text.len() {
            return Err(no(1));
        }
        done.cells = vec![1, done.text.len()];
    }
    Ok(done)
}

fn whole_sheet<'a>(call: Call, s: &'a Scenario, a: &Arguments, w: &mut Want<'a>) {
    let (enough, marks, letters) = (long_enough(call, a, &w.tables), enough_marks(call, &w.tables), enough_letters(call, a, &w.tables));
    if !enough || !marks || !letters {
        w.kinds.extend((enough && letters).then_some(FEW_MARKS));
        w.kinds.extend((enough && marks).then_some(FEW_LETTERS));
        w.number = 1;
        w.tables.answer.set(&[0, 1, 0, 0]);
        return;
    }
    let asked = questions(call, s, a, &w.tables);
    let given = (w.tables.sets.clone(), w.tables.marks.clone());
    w.tables.clear();
    if call.takes_numbers() {
        (w.tables.sets, w.tables.marks) = given;
    }
    match asked {
        Err(Refusal::Plain((number, line))) => {
            w.number = number;
            match (number, line) {
                (1, _) => w.kinds.push(LATE),
                (16, 0) => w.kinds.push(BY_FILE),
                (7 | 8, 0) => w.kinds.extend(fault_of_marks(&s.numbers)),
                _ => {}
            }
            w.tables.answer.set(&[0, number as usize, line, 0]);
        }
        Err(Refusal::Meeting(sheet, length)) => {
            w.number = 10;
            w.meeting = Some((sheet, length));
            w.tables.answer.set(&[0, 10, 0, length]);
        }
        Ok(done) => {
            w.tables.answer.set(&done.cells);
            w.tables.out.set(&done.text);
            w.tables.letters.set(done.letters.as_deref().unwrap_or(&[]));
            if call.lends_letters() {
                w.kinds.push(done.letters.map_or(NO_TUPLE, |x| if x.is_empty() { EMPTY_WORD } else { SOME_WORD }));
            }
            if call == Call::WriteNumbers && s.of_file.sheet.as_ref().map_or(false, |x| x.edition != s.numbers.edition()) {
                w.kinds.push(OTHER_NAMES);
            }
            if call.lends_sets() {
                let numbers = Numbers::of(done.sheet.unwrap());
                w.tables.sets.set(&numbers.sets);
                w.tables.marks.set(&numbers.marks);
            }
            if let Some(t) = done.tracker {
                put_tracker(t, &mut w.tables);
            }
        }
    }
}

/// Tuple t in numbers 19t to 19t+18, its nexts from 8t on.
fn put_tracker(t: &Tracker, tables: &mut Tables) {
    let (tuples, nexts) = (tables.tuples.inside_mut(), tables.nexts.inside_mut());
    let from = ways::found_from(t);
    for (i, u) in t.tuples.iter().enumerate() {
        for (p, set) in u.sets.iter().enumerate() {
            tuples[TUPLE * i + p] = mask(set.iter().copied());
        }
        tuples[TUPLE * i + COLOUR] = u.colour as u16;
        tuples[TUPLE * i + FROM] = from[i].0 as u16;
        tuples[TUPLE * i + BY] = from[i].1 as u16;
        for (l, to) in t.next[i].iter().enumerate() {
            nexts[NEXTS * i + l] = *to as u16;
        }
    }
}
