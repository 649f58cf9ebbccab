//! Files in which one thing is of the other edition, or of none: the first word, the third number of a state line, the mark of a
//! transition line.

use crate::edition::Edition;
use crate::random::Random;

/// A line with so many bytes of it left, and something behind them.
fn ending(line: &[u8], left: usize, end: &str) -> Vec<u8> {
    [&line[..left.min(line.len())], end.as_bytes()].concat()
}

/// What may stand in the columns of a 0 or 1.
const FLAGS: [&str; 10] = ["  0", "  1", "  2", " 01", " 10", "  x", "   ", "1  ", "  -", "100"];

/// A file with its first word, some of its state lines or some of its transition lines changed.
pub fn edition_damaged(r: &mut Random, file: &[u8]) -> Vec<u8> {
    const WORDS: [&str; 12] = ["SHT-1", "SHT-3", "SHT-2", "SHEET", "SHT-0", "SHT 2", "sht-2", "SHT_2", "SHT2-", "SHEE2", "SHTET", "SHT-\n"];
    let mut all: Vec<Vec<u8>> = file.split_inclusive(|b| *b == b'\n').map(|l| l.to_vec()).collect();
    let marks = Edition::opening(file) == Some(Edition::Marks);
    let opening = |all: &[Vec<u8>], byte: u8| -> Vec<usize> { (0..all.len()).filter(|i| all[*i].first() == Some(&byte)).collect() };
    // The first line begins with S too.
    let states: Vec<usize> = opening(&all, b'S').into_iter().filter(|i| *i > 0).collect();
    let transitions = opening(&all, b'T');
    let flag = FLAGS[if r.chance(60) { r.below(3) } else { r.below(FLAGS.len()) }];
    match r.below(8) {
        0 | 1 => {
            let word = WORDS[r.below(WORDS.len())];
            all[0] = [word.as_bytes(), all[0].get(5..).unwrap_or(b"")].concat();
        }
        // The third number of one state line, or of each, is there or not.
        2 | 3 if !states.is_empty() => {
            let one = states[r.below(states.len())];
            let third = if r.chance(if marks { 90 } else { 30 }) { flag } else { "" };
            for i in if r.chance(30) { states } else { vec![one] } {
                all[i] = ending(&all[i], 7, &format!("{third}\n"));
            }
        }
        // The same of the mark.
        4..=6 if !transitions.is_empty() => {
            let one = transitions[r.below(transitions.len())];
            let fourth = if r.chance(if marks { 60 } else { 90 }) { flag } else { "" };
            for i in if r.chance(20) { transitions } else { vec![one] } {
                all[i] = ending(&all[i], 10, &format!("{fourth}\n"));
            }
        }
        // A transition with both marks.
        _ if !transitions.is_empty() => {
            let one = transitions[r.below(transitions.len())];
            let mut two = ["  0\n", "  1\n"].map(|mark| ending(&all[one], 10, mark));
            if r.chance(50) {
                two.swap(0, 1);
            }
            all[one] = two.concat();
        }
        _ => all.insert(r.below(all.len() + 1), b"T  0  0  0  1\n".to_vec()),
    }
    all.concat()
}
