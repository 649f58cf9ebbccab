//! The lines of the two editions: first words, state lines and transition lines in the forms of both, in each place of a sheet of each; every
//! two transition lines with every two marks; each file cut behind each byte.

use crate::bench::Bench;
use crate::cases::{sheet_b, sheet_of};
use crate::conversion::with_marks;
use crate::sheet::{write_sheet, Sheet};

const PLAN: &[u8] = b"PLAN  1  1\nb\na\nEND\n";

/// A sheet of each edition.
fn sheets() -> [Sheet; 2] {
    [sheet_b(), with_marks(&sheet_b())]
}

/// The file with another first line.
fn first_lines(b: &mut Bench) {
    for s in sheets() {
        let file = write_sheet(&s, false);
        for head in [
            "SHEET  2  2\n", "SHT-2  2  2\n", "SHT-0  2  2\n", "SHT-1  2  2\n", "SHT-3  2  2\n", "SHT-9  2  2\n", "SHT 2  2  2\n", "SHT_2  2  2\n", "SHT2   2  2\n", "SHT--  2  2\n",
            "sht-2  2  2\n", "Sht-2  2  2\n", "SHT-2  2  2 \n", "SHT-2 2  2\n", "SHT-2  2\n", "SHT-2\n", "SHT-\n", "SHT-2  2  2", "SHT-2  2  2\r\n", " SHT-2  2  2\n", "SHT-2  0  2\n",
            "SHT-2 17  2\n", "SHT-2  2  9\n", "SHT-2 02  2\n", "SHT-2999999\n", "SHT-2-2  2\n", "SHT-22  2\n", "SHT-2  2  2\nSHT-2  2  2\n", "SHEET  2  2\nSHT-2  2  2\n", "SHT-2 16  8\n",
            "SHEE2  2  2\n", "SHTET  2  2\n", "TRACK  2  2\n", "SHT-\u{2212}  2  2\n",
        ] {
            let changed = [head.as_bytes(), &file[12..]].concat();
            b.listed("limit: a first line of an edition", &changed);
            b.rewritten("limit: a first line of an edition written", &changed);
            b.judged("limit: a first line of an edition judged", &[&changed[..], PLAN].concat());
        }
    }
}

/// A line of each form in each place, added and instead of the one there.
fn places(b: &mut Bench) {
    for s in sheets() {
        let file = write_sheet(&s, false);
        let lines: Vec<&[u8]> = file.split_inclusive(|x| *x == b'\n').collect();
        for line in [
            "S  0  1\n", "S  0  1  0\n", "S  0  1  1\n", "S  1  0\n", "S  1  0  1\n", "S  0  2\n", "S  0  1 \n", "S  0  1", "S  0 01\n", "S  0\n", "S  0  1  \n",
            "T  0  0  0\n", "T  0  0  0  0\n", "T  0  0  0  1\n", "T  0  0  0  2\n", "T  0  0  0 01\n", "T  0  0  0 10\n", "T  0  0  0  x\n", "T  0  0  0   \n", "T  0  0  0 -1\n",
            "T  0  0  0  1 \n", "T  0  0  0  1", "T  0  0  0  1\r\n", "T  0  0  0 1\n", "T  0  0  0  1  0\n", "T  0  0  1  1\n", "T  0  1  1\n", "T  0  1  1  0\n", "T  0  1  1  1\n",
            "T  1  1  1  1\n", "T  2  0  0  1\n", "T  0  2  0  1\n", "T  0  0  2  1\n", "t  0  0  0  1\n", "SHT-2  2  2\n", "SHEET  2  2\n",
        ] {
            for i in 0..=lines.len() {
                let added = [&lines[..i].concat()[..], line.as_bytes(), &lines[i..].concat()].concat();
                b.listed("limit: a line of an edition in each place", &added);
                let instead = [&lines[..i].concat()[..], line.as_bytes(), &lines[(i + 1).min(lines.len())..].concat()].concat();
                b.judged("limit: a line of an edition in each place judged", &[&instead[..], PLAN].concat());
            }
        }
        for end in 0..file.len() {
            b.listed("limit: an edition cut", &file[..end]);
        }
    }
}

/// Every two transition lines of two states, each with every mark: only in their order, and never one transition with both marks.
fn two_lines(b: &mut Bench) {
    let mut lines = Vec::new();
    for q in 0..2 {
        for t in 0..2 {
            lines.extend((0..3).map(|mark| format!("T{q:3}  0{t:3}{mark:3}\n")));
        }
    }
    for one in &lines {
        for other in &lines {
            let file = format!("SHT-2  2  1\nN  0 a\nS  0  1\nS  1  0\n{one}{other}END\n");
            b.listed("limit: two marks listed", file.as_bytes());
            b.rewritten("limit: two marks written", file.as_bytes());
            b.judged("limit: two marks judged", format!("{file}PLAN  0  1\na\nEND\n").as_bytes());
        }
    }
}

/// Withdrawal lines and others in each place; a marked transition on a withdrawn letter is 16, with a fault of its own line 8.
fn withdrawn_letter(b: &mut Bench) {
    let mut s = with_marks(&sheet_of(2, 2, &[0], &[0, 1], &[(0, 1, 1), (1, 1, 0)]));
    s.withdrawn = vec![(0, 1)];
    let file = String::from_utf8(write_sheet(&s, false)).unwrap();
    let lines: Vec<&str> = file.split_inclusive('\n').collect();
    for line in ["W  0  1\n", "W  1  1\n", "W  1  2\n", "W  0  1 \n", "W  0  1", "W\n", "S  0  1\n", "T  0  1  1  1\n", "N  2 c\n"] {
        for i in 0..=lines.len() {
            b.listed("limit: withdrawals beside marks", [&lines[..i], &[line], &lines[i..]].concat().concat().as_bytes());
        }
    }
    for line in ["T  0  0  0  1\n", "T  0  0  0  0\n", "T  0  0  0  2\n", "T  0  0  0\n", "T  0  0  2  1\n", "T  1  0  1  1\n", "T  0  0  0  1 \n", "T  0  1  1  0\nT  0  0  0  1\n"] {
        for place in ["T  0", "T  1", "END"] {
            let changed = file.replacen(place, &format!("{line}{place}"), 1);
            b.listed("limit: a mark on a withdrawn letter", changed.as_bytes());
            b.judged("limit: a mark on a withdrawn letter judged", format!("{changed}PLAN  0  1\na\nEND\n").as_bytes());
        }
    }
}

pub fn run(b: &mut Bench) {
    first_lines(b);
    places(b);
    two_lines(b);
    withdrawn_letter(b);
}
