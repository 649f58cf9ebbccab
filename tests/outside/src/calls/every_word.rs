//! Every endless word, whether it repeats or not: the least colour that is entered without end, by the tables as a call leaves them, is even
//! exactly if some endless reading of the sheet meets its recurrence rule. Neither side is a sample, and they have nothing in common but how a
//! word is cut into blocks; that is held to plain steps, to long plans, and, on words that do repeat, to the verdict.

use super::arguments;
use super::call::Call;
use super::display;
use super::foreign;
use super::lent::Tables;
use super::small_sheets::{marked_sheet, sheet, stands_for_others};
use crate::bench::Bench;
use crate::edition::{Edition, EDITIONS};
use crate::effect::Effect;
use crate::endless_words::check;
use crate::endless_words::reading::{self, Profile, Readings};
use crate::endless_words::run::{Steps, Table};
use crate::endless_words::shapes::{Spelled, ALL};
use crate::endless_words::Word;
use crate::expected::ROOM;
use crate::random::Random;
use crate::sheet::{write_plan, write_sheet, Plan, Sheet};
use crate::{families, limits, product, tuples};
use std::ops::Range;

/// How many random sheets of each family there are, and how many words and plans each of them is tried on, for each call.
const SHEETS: usize = 350;
const WORDS: usize = 4;
const PLANS: usize = 2;
/// How many there are of each size from 10 states on, how many with several rules, and how many pairs of rules about one run.
const LARGER: usize = 12;
const UNITED: usize = 150;
const WATCHED: usize = 400;
/// One word in so many is gone through letter by letter too.
const SPELLED: usize = 3;
/// The room for the tracker of a sheet of two states.
const SMALL_ROOM: usize = 100;

/// A sheet and its tracker's table, with what their letters do.
struct Tried<'a> {
    sheet: &'a Sheet,
    file: &'a [u8],
    profiles: &'a [Profile],
    table: Table,
    steps: Vec<Steps>,
}

/// The answer on a word by both sides.
struct Answers {
    readings: Readings,
    least: usize,
    /// The blocks of one round of the run.
    round: Range<usize>,
}

impl Answers {
    /// Even exactly if a reading meets the rule. Also, 1 exactly if none goes on for ever: then none is left behind some letter.
    fn same(&self) -> bool {
        self.readings.passes == (self.least % 2 == 0) && self.readings.some == (self.least != 1)
    }

    fn name(&self) -> &'static str {
        match (self.readings.some, self.readings.passes) {
            (false, _) => "lost",
            (true, false) => "no",
            (true, true) => "yes",
        }
    }
}

impl Tried<'_> {
    fn answers(&self, word: &Word) -> Option<Answers> {
        let readings = reading::readings(self.sheet, self.profiles, word)?;
        let (least, round) = self.table.least(&self.steps, word)?;
        Some(Answers { readings, least, round })
    }

    fn failure(&self, w: &Spelled) -> Vec<u8> {
        [format!("{w:?}\n").as_bytes(), self.file].concat()
    }
}

/// The tables behind a call that refuses nothing.
fn called(r: &mut Random, sheet: &Sheet, plan: &[u8], call: Call, room: usize) -> Option<Tables> {
    let (mut a, mut tables) = arguments::roomy(r, sheet, plan, call, room);
    foreign::call(call, &mut a, &mut tables);
    (tables.answer.inside()[0] != 0).then_some(tables)
}

/// Counts the words that are compared, and those of which the table has too many unlike blocks.
#[derive(Default)]
struct Tally {
    compared: usize,
    left_out: usize,
}

/// A word that never repeats, and the repeating words of its parts.
fn one_word(b: &mut Bench, tally: &mut Tally, kind: &dyn Fn(&str) -> String, t: &Tried, w: &Spelled) {
    let Some(here) = t.answers(&w.word()) else {
        tally.left_out += 1;
        return;
    };
    tally.compared += 1;
    b.expect(&kind(here.name()), here.same(), &t.failure(w));
    if here.least >= 6 && here.least % 2 == 0 {
        b.expect(DEEP, here.same(), &t.failure(w));
    }
    if tally.compared % SPELLED == 0 {
        if let Some(same) = check::step_by_step(&t.table, w, here.least, &here.round) {
            b.expect(STEP_BY_STEP, same, &t.failure(w));
        }
        if let Some(same) = check::as_plans(t.sheet, w, &here.readings) {
            b.expect(AS_PLANS, same, &t.failure(w));
        }
    }
    let repeating = [&w.z[..], &[&w.y[..], &w.z].concat()].map(|cycle| t.answers(&Word::repeating(&w.x, cycle)));
    if let [Some(one), Some(other)] = repeating {
        if [&one, &other].iter().all(|x| x.readings.passes != here.readings.passes) {
            b.expect(&unlike_parts(here.name()), one.same() && other.same() && here.same(), &t.failure(w));
        }
    }
}

/// Words that do repeat: both sides against the verdict, by the call and by other means.
fn plans(b: &mut Bench, r: &mut Random, t: &Tried) {
    let own = tuples::build(t.sheet, ROOM);
    for _ in 0..PLANS {
        let named = families::plan(r, t.sheet.k);
        let file = write_plan(t.sheet, &named);
        let standing = |letters: &[usize]| letters.iter().map(|l| t.sheet.standing(*l)).collect::<Vec<_>>();
        let plan = Plan { lead: standing(&named.lead), cycle: standing(&named.cycle) };
        let word = Word::repeating(&plan.lead, &plan.cycle);
        let (Some(after), Some(here), Some(own)) = (called(r, t.sheet, &file, Call::Verdict, ROOM), t.answers(&word), &own) else {
            b.expect(PLANS_JUDGED, false, &[t.file, &file].concat());
            continue;
        };
        let (yes, least, _) = tuples::verdict(own, &plan);
        let told = (after.answer.inside()[0] == 1, after.answer.inside()[1]);
        let passes = here.readings.passes;
        let same = here.same() && passes == product::passes(t.sheet, &plan) && [(passes, here.least), told] == [(yes, least); 2];
        b.expect(PLANS_JUDGED, same, &[t.file, &file].concat());
    }
}

/// What a comparison counts as: by the call, by the edition, and by whether walks come together in dead ends.
fn kind(call: Call, edition: Edition, harmless: bool, answer: &str) -> String {
    let source = if call == Call::Build { "from a file" } else { "from numbers" };
    let dead_ends = if harmless { "harmless dead ends, " } else { "" };
    format!("endless words: {source}, {}, {dead_ends}{answer}", edition.word())
}

fn small_kind(edition: Edition, answer: &str) -> String {
    format!("endless words: each sheet with n 2 and k 2, {}, {answer}", edition.word())
}

fn unlike_parts(answer: &str) -> String {
    format!("endless words: {answer}, but not with z for ever, nor with y z")
}

const DEEP: &str = "endless words: an even least colour from 6 on";
const STEP_BY_STEP: &str = "endless words: step by step";
const AS_PLANS: &str = "endless words: as long plans";
const PLANS_JUDGED: &str = "endless words: plans";

fn of_sheet(b: &mut Bench, tally: &mut Tally, r: &mut Random, sheet: &Sheet) {
    let (file, profiles) = (write_sheet(sheet, false), reading::profiles(sheet));
    let mut harmless = None;
    for call in [Call::Build, Call::BuildNumbers] {
        let Some(after) = called(r, sheet, &[], call, ROOM) else { continue };
        let Some(table) = display::table(b, sheet, &after, &file) else { continue };
        display::promises(b, sheet, &table, &file);
        let steps = table.steps();
        let t = Tried { sheet, file: &file, profiles: &profiles, table, steps };
        let harmless = *harmless.get_or_insert_with(|| Effect::on(sheet, None) == Effect::Accepted);
        if call == Call::Build {
            display::withdrawn(b, sheet, &t.table, &file);
            plans(b, r, &t);
        }
        // One letter alone repeats.
        let words = if sheet.k > 1 { WORDS } else { 0 };
        for _ in 0..words {
            let w = families::endless_word(r, sheet);
            one_word(b, tally, &|answer| kind(call, sheet.edition, harmless, answer), &t, &w);
        }
    }
}

/// Words of the letters 0 and 1: each shape with each pair of words of one letter or two, in turn.
fn small_words() -> Vec<Spelled> {
    const PAIRS: [(&[usize], &[usize]); 8] =
        [(&[0], &[1]), (&[1], &[0]), (&[0], &[0, 1]), (&[1], &[1, 0]), (&[0, 1], &[1]), (&[1, 0], &[0]), (&[0, 0], &[1]), (&[1, 1], &[0, 1])];
    let spell = |i: usize, (y, z): &(&[usize], &[usize])| {
        ALL.map(|shape| Spelled { shape, x: vec![0; i % 2], y: y.to_vec(), z: z.to_vec() })
    };
    PAIRS.iter().enumerate().flat_map(|(i, pair)| spell(i, pair)).collect()
}

/// Every sheet of two states and two letters; of those with marks, but for the order of states and of letters.
fn small_sheets(b: &mut Bench, tally: &mut Tally, r: &mut Random) {
    let words = small_words();
    let all = (0..1 << 12).map(|number| sheet(2, 2, number));
    let marked = (0..3usize.pow(8) << 2).map(|number| marked_sheet(2, 2, number)).filter(stands_for_others);
    for (number, sheet) in all.chain(marked).enumerate() {
        let Some(after) = called(r, &sheet, &[], Call::BuildNumbers, SMALL_ROOM) else { continue };
        let (file, profiles) = (write_sheet(&sheet, false), reading::profiles(&sheet));
        let Some(table) = display::table(b, &sheet, &after, &file) else { continue };
        display::promises(b, &sheet, &table, &file);
        let steps = table.steps();
        let t = Tried { sheet: &sheet, file: &file, profiles: &profiles, table, steps };
        for w in words.iter().skip(number % 32).step_by(32) {
            one_word(b, tally, &|answer| small_kind(sheet.edition, answer), &t, w);
        }
    }
}

pub fn run(b: &mut Bench) {
    let mut r = Random::new(13);
    let mut tally = Tally::default();
    for seed in 0..SHEETS {
        let most = [3, 5, 8, 16][seed % 4];
        let plain = families::sheet(&mut r, most);
        let withdrawn = families::withdrawn(&mut r, plain.clone());
        let dead_ends = families::with_dead_ends(&mut r, most);
        let (n, k) = (1 + r.below(most.min(8)), 2 + r.below(2));
        let circles = families::circles(&mut r, n, k);
        let any = [&plain, &withdrawn, &dead_ends, &circles].map(|s| families::marked(&mut r, s));
        for s in [plain, withdrawn, dead_ends, circles].iter().chain(&any) {
            of_sheet(b, &mut tally, &mut r, s);
        }
        // Dead ends once more, since only some of them are newly harmless.
        let more = families::with_dead_ends(&mut r, most);
        let marked = families::marked(&mut r, &more);
        of_sheet(b, &mut tally, &mut r, &more);
        of_sheet(b, &mut tally, &mut r, &marked);
    }
    for n in 10..=16 {
        for seed in 0..LARGER {
            let s = if seed % 2 == 0 { families::sparse(&mut r, n) } else { families::of_size(&mut r, n) };
            of_sheet(b, &mut tally, &mut r, &s);
            let marked = families::marked(&mut r, &s);
            of_sheet(b, &mut tally, &mut r, &marked);
        }
    }
    for seed in 0..UNITED {
        let s = families::united(&mut r, 3 + seed % 3, 2);
        let marked = families::marked(&mut r, &s);
        of_sheet(b, &mut tally, &mut r, &s);
        of_sheet(b, &mut tally, &mut r, &marked);
    }
    for seed in 0..WATCHED {
        let rules = families::watched(&mut r, 3 + seed % 6, 2);
        let any = [&rules[0], &rules[1]].map(|s| families::marked(&mut r, s));
        for s in rules.iter().chain(&any) {
            of_sheet(b, &mut tally, &mut r, s);
        }
    }
    for s in limits::most_tuples().iter().step_by(4).chain(&limits::most_marked_tuples()[1..3]) {
        of_sheet(b, &mut tally, &mut r, s);
    }
    small_sheets(b, &mut tally, &mut r);
    b.expect("endless words: few are left out", tally.left_out * 1000 < tally.compared, format!("{}", tally.left_out).as_bytes());
    enough(b);
}

/// Each answer comes up often, in both editions, by both calls, with dead ends, and where the words' parts alone give another one.
fn enough(b: &mut Bench) {
    for answer in ["yes", "no", "lost"] {
        for edition in EDITIONS {
            for call in [Call::Build, Call::BuildNumbers] {
                b.at_least(1000, &kind(call, edition, false, answer));
                b.at_least(100, &kind(call, edition, true, answer));
            }
            b.at_least(200, &small_kind(edition, answer));
        }
        b.at_least(50, &unlike_parts(answer));
    }
    b.at_least(50, DEEP);
    b.at_least(10_000, STEP_BY_STEP);
    b.at_least(10_000, AS_PLANS);
    b.at_least(5000, PLANS_JUDGED);
    b.at_least(10_000, "display: colour 1 tells");
    b.at_least(1000, "display: a withdrawn letter");
}
