//! Every refusal that a program can give, at least once for each edition; a missing one is a failure.

use super::counts;
use crate::bench::Bench;
use crate::cases::{sheet_b, sheet_of};
use crate::conversion::with_marks;
use crate::edition::{Edition, EDITIONS};
use crate::sheet::{write_sheet, Sheet, SHEET_BYTES};

const TRACK: &[u32] = &[2, 3, 4, 5, 6, 7, 8, 9, 10, 11, 15, 16];
const REWRITE: &[u32] = &[2, 3, 4, 5, 6, 7, 8, 9, 10, 15, 16];
const VERDICT: &[u32] = &[2, 3, 4, 5, 6, 7, 8, 9, 10, 11, 12, 13, 14, 15, 16];

/// The sheet in an edition.
fn file(edition: Edition, s: &Sheet) -> String {
    let file = match edition {
        Edition::States => write_sheet(s, false),
        Edition::Marks => write_sheet(&with_marks(s), false),
    };
    String::from_utf8(file).unwrap()
}

fn sheets(edition: Edition) -> Vec<Vec<u8>> {
    let b = file(edition, &sheet_b());
    let with = |old: &str, new: &str| b.replacen(old, new, 1).into_bytes();
    let meeting = sheet_of(3, 1, &[0, 1], &[], &[(0, 0, 2), (1, 0, 2), (2, 0, 2)]);
    let mut long = edition.word().as_bytes().to_vec();
    long.resize(SHEET_BYTES + 1, b'x');
    vec![
        long,
        with(edition.word(), "SHEEP"),
        with("  2  2\n", "  2  x\n"),
        with("  2  2\n", " 17  2\n"),
        with("N  1 b", "N  2 b"),
        with("N  1 b", "N  1 a"),
        with("S  1  1", "S  1  2"),
        with("S  1  1  1", "S  1  1  2"),
        with("T  1  0  1", "T  1  0  2"),
        with("END", "\nEND"),
        with("N  1 b\n", "N  1 b\nW  1  1\n"),
        with("N  1 b\n", "N  1 b\nW  0  1\n"),
        file(edition, &meeting).into_bytes(),
        file(edition, &counts::too_many()).into_bytes(),
    ]
}

fn each(b: &mut Bench, edition: Edition) {
    for file in sheets(edition) {
        b.listed("limit: each refusal listed", &file);
        b.rewritten("limit: each refusal written", &file);
        b.judged("limit: each refusal judged", &[&file[..], b"PLAN  0  1\na\nEND\n"].concat());
    }
    let file = file(edition, &sheet_b()).into_bytes();
    for plan in [&b"PLAN  0  1\na\n"[..], b"PLAN  0  0\nEND\n", b"PLAN  0  1\nc\nEND\n"] {
        b.judged("limit: each refusal judged", &[&file, plan].concat());
    }
    for (program, numbers) in [("track", TRACK), ("rewrite", REWRITE), ("verdict", VERDICT)] {
        for number in numbers {
            b.has_refused("limit: refusals of each program", program, edition, *number);
        }
    }
}

pub fn run(b: &mut Bench) {
    let long = vec![b'x'; SHEET_BYTES + 1];
    b.listed("limit: each refusal listed", &long);
    b.rewritten("limit: each refusal written", &long);
    b.judged("limit: each refusal judged", &long);
    EDITIONS.into_iter().for_each(|edition| each(b, edition));
}
