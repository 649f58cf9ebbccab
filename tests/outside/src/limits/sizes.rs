//! Files as long as question 2 allows, one byte shorter and one longer, and much longer; as long as it allowed before there were two editions; and
//! the longest files that are accepted.
//!
//! Where a file is too long, its first 32,768 bytes (a plan's first 12,288) are refused otherwise or judged: so a program that reads one
//! byte too few answers otherwise.

use crate::bench::Bench;
use crate::cases::sheet_b;
use crate::conversion::with_marks;
use crate::edition::Edition;
use crate::expected::{self, ROOM};
use crate::sheet::{write_plan, write_sheet, Plan, Sheet, PLAN_BYTES as PLAN, SHEET_BYTES as SHEET};
use std::collections::BTreeSet;

const HUGE: usize = 1_000_000;
/// The most bytes of a sheet before there were two editions.
const EARLIER: usize = 24_576;

const GOOD_PLAN: &[u8] = b"PLAN  1  1\nb\na\nEND\n";

/// 16 states, 8 names of 24 bytes, every transition: 22,960 bytes.
pub fn longest_sheet(initial: bool) -> Sheet {
    let (n, k) = (16, 8);
    Sheet {
        edition: Edition::States,
        n,
        k,
        initial: vec![initial; n],
        recurring: vec![true; n],
        next: vec![vec![(0..n).collect(); k]; n],
        marked: BTreeSet::new(),
        names: (0..k).map(|l| format!("{l}.................ENDß~").into_bytes()).collect(),
        withdrawn: Vec::new(),
    }
}

/// The same with a mark on every other transition: 29,056 bytes.
pub fn longest_marked_sheet(initial: bool) -> Sheet {
    let mut s = with_marks(&longest_sheet(initial));
    s.marked.retain(|(q, l, t)| (q + l + t) % 2 == 0);
    s
}

/// Lead-in and cycle of 200 names of 24 bytes: 10,015 bytes.
fn longest_plan() -> Plan {
    Plan { lead: (0..200).map(|i| i * i % 8).collect(), cycle: (0..200).map(|i| i * i / 8 % 8).collect() }
}

/// The beginning of a file, filled to a size.
fn filled(start: &[u8], fill: u8, size: usize) -> Vec<u8> {
    let mut out = start.to_vec();
    out.resize(size, fill);
    out
}

/// The same, with END as its last line.
fn ended(start: &[u8], fill: u8, size: usize) -> Vec<u8> {
    let mut out = filled(start, fill, size - 5);
    out.extend(b"\nEND\n");
    out
}

/// Beginnings of sheet files that are at fault in different questions (3, 4, 5, 15, 7, 8 and 9) once they are filled.
fn starts() -> Vec<(Vec<u8>, u8)> {
    let b = write_sheet(&sheet_b(), false);
    let longest = write_sheet(&longest_sheet(false), false);
    let longest_marked = write_sheet(&longest_marked_sheet(false), false);
    let without_end = |file: &[u8]| file[..file.len() - 4].to_vec();
    vec![
        (b"".to_vec(), b'x'),
        (b"SHEET 17  1\n".to_vec(), b'\n'),
        (b"SHEET  2  2\nN  0 a\nN  1 ".to_vec(), b'b'),
        (b"SHEET  1  1\nN  0 a\nS  0".to_vec(), b' '),
        (b"SHEET  1  2\nN  0 a\nN  1 b\nW  0".to_vec(), b' '),
        (without_end(&b), b'T'),
        (without_end(&b), b'E'),
        (without_end(&longest), b'T'),
        (without_end(&longest), b'\n'),
        (b"SHT-2".to_vec(), b' '),
        (b"SHT-2  1  1\nN  0 a\nS  0".to_vec(), b' '),
        (without_end(&longest_marked), b'T'),
        (without_end(&longest_marked), b'\n'),
    ]
}

/// `track` and `rewrite` on sheet files of every size around the limit.
fn sheets(b: &mut Bench) {
    let accepted = [sheet_b(), longest_sheet(false), longest_marked_sheet(false)].map(|s| write_sheet(&s, false));
    for size in [EARLIER, EARLIER + 1, SHEET - 1, SHEET, SHEET + 1, SHEET + 2, HUGE] {
        let mut files: Vec<Vec<u8>> = starts().iter().map(|(start, fill)| filled(start, *fill, size)).collect();
        files.extend(starts().iter().map(|(start, fill)| ended(start, *fill, size)));
        files.extend(accepted.iter().map(|file| filled(file, b'\n', size)));
        for file in &files {
            b.listed("limit: sizes listed", file);
            b.rewritten("limit: sizes written", file);
        }
        let got = b.run_in_pieces("track", &files[0], 4096);
        b.compare("limit: input in pieces", "track", &files[0], expected::listing(&files[0], ROOM), &got);
    }
}

/// The longest sheet of an edition, where no state is initial and where all are.
fn longest_of(b: &mut Bench, bytes: usize, sheet: fn(bool) -> Sheet) {
    let s = sheet(false);
    let file = write_sheet(&s, false);
    let plan = write_plan(&s, &longest_plan());
    b.expect("limit: the longest sheet", file.len() == bytes, &file);
    b.expect("limit: the longest sheet", b.run("rewrite", &file) == file, &file);
    b.expect("limit: the longest plan", plan.len() == 10_015, &plan);
    for file in [file, write_sheet(&sheet(true), false)] {
        b.listed("limit: the longest sheet listed", &file);
        b.rewritten("limit: the longest sheet written", &file);
        b.judged("limit: the longest sheet and plan judged", &[&file[..], &plan].concat());
    }
}

/// The longest sheets and the longest plan that are accepted.
fn longest(b: &mut Bench) {
    longest_of(b, 22_960, longest_sheet);
    longest_of(b, 29_056, longest_marked_sheet);
    // The names of the longest plan on a sheet that tells letters apart.
    let mut small = sheet_b();
    small.names = longest_sheet(false).names[..2].to_vec();
    let letters = |x: &[usize]| x.iter().map(|l| l % 2).collect::<Vec<_>>();
    let long = longest_plan();
    let plan = write_plan(&small, &Plan { lead: letters(&long.lead), cycle: letters(&long.cycle) });
    let input = [write_sheet(&small, false), plan].concat();
    b.judged("limit: the longest plan judged", &input);
    let got = b.run_in_pieces("verdict", &input, 1000);
    b.compare("limit: input in pieces", "verdict", &input, expected::verdict(&input, ROOM), &got);
}

/// Sheet parts for `verdict`, each up to its END and with it.
fn sheet_parts() -> Vec<Vec<u8>> {
    let mut out = vec![b"END\n".to_vec()];
    out.extend([sheet_b(), longest_sheet(false), longest_marked_sheet(false)].map(|s| write_sheet(&s, false)));
    for size in [EARLIER + 1, SHEET - 1, SHEET, SHEET + 1] {
        out.extend(starts().iter().map(|(start, fill)| ended(start, *fill, size)));
    }
    out.extend([SHEET + PLAN, SHEET + PLAN + 1, HUGE].map(|size| ended(b"", b'x', size)));
    out
}

fn plan_parts() -> Vec<Vec<u8>> {
    let mut out = vec![Vec::new(), GOOD_PLAN.to_vec()];
    for size in [PLAN - 1, PLAN, PLAN + 1, PLAN + 2, SHEET, SHEET + 1, SHEET + PLAN + 1] {
        out.push(filled(GOOD_PLAN, b'\n', size));
        out.push(ended(b"PLAN200200\n", b'a', size));
    }
    out.push(filled(GOOD_PLAN, b'\n', HUGE));
    out
}

/// `verdict` on every sheet part with every plan part.
fn pairs(b: &mut Bench) {
    for sheet in sheet_parts() {
        for plan in plan_parts() {
            b.judged("limit: sheet and plan sizes judged", &[&sheet[..], &plan].concat());
        }
    }
}

/// `verdict` on inputs of so many bytes in all, without END or with END at the very end.
fn wholes(b: &mut Bench) {
    let accepted = write_sheet(&sheet_b(), false);
    for size in [EARLIER, EARLIER + 1, EARLIER + PLAN + 1, SHEET - 1, SHEET, SHEET + 1, SHEET + 2, SHEET + PLAN - 1, SHEET + PLAN, SHEET + PLAN + 1, SHEET + PLAN + 2, HUGE] {
        let what = "limit: sizes judged";
        for (start, fill) in starts() {
            let whole = ended(&start, fill, size);
            b.judged(what, &filled(&start, fill, size));
            b.judged(what, &whole);
            // END without LF, alone and cut off by the reading.
            b.judged(what, &whole[..size - 1]);
            b.judged(what, &[&whole[..], GOOD_PLAN].concat());
        }
        b.judged(what, &filled(&[&accepted[..], GOOD_PLAN].concat(), b'\n', size));
    }
}

pub fn run(b: &mut Bench) {
    sheets(b);
    longest(b);
    pairs(b);
    wholes(b);
}
