//! What is told apart of the calls' answers beyond the number of the refusal: the tests hold that each of them comes up.

use super::numbers::Numbers;
use crate::edition::Edition;

/// Stands for refusal 1 asked last of all, and for a program's buffer that is too short.
pub const LATE: u32 = 100;
/// Stands for refusal 16 of numbers, by the file that gives the names.
pub const BY_FILE: u32 = 101;
/// Stands for no refusal where walks come together, but in dead ends only.
pub const HARMLESS: u32 = 102;
/// Stands for refusal 10 with a word that is longer than one to a dead end.
pub const LONGER: u32 = 103;
/// Stands for refusal 1 for the letters' table alone.
pub const FEW_LETTERS: u32 = 104;
/// Of a way that is not refused: these stand for no such tuple, a word of no letters and a word of some.
pub const NO_TUPLE: u32 = 105;
pub const EMPTY_WORD: u32 = 106;
pub const SOME_WORD: u32 = 107;
/// Stands for refusal 1 for the table of marks alone.
pub const FEW_MARKS: u32 = 108;
/// Of numbers that nothing but this is wrong with: must-recur states beside marks (7), marks that are no transitions, and marks beside
/// must-recur states (8).
pub const RECURRING: u32 = 109;
pub const NO_TRANSITION: u32 = 110;
pub const MARKED: u32 = 111;
/// Of the latter two, in a cell behind the 128th.
pub const BEHIND: u32 = 112;
/// Stands for numbers written with the names of a file of the other edition.
pub const OTHER_NAMES: u32 = 113;

/// What is wrong with the marks, or with must-recur states beside them, where nothing else of the numbers is.
pub fn fault_of_marks(a: &Numbers) -> Vec<u32> {
    let unmarked = Numbers { edition: Edition::States.number(), marks: vec![0; 128], ..a.clone() };
    if unmarked.sheet().is_err() || a.sheet().is_ok() {
        return Vec::new();
    }
    match a.edition() {
        Edition::Marks if a.recurring != 0 => vec![RECURRING],
        edition => {
            let behind = Numbers { marks: a.marks[..128].to_vec(), ..a.clone() }.sheet().is_ok();
            let what = if edition == Edition::Marks { NO_TRANSITION } else { MARKED };
            if behind { vec![what, BEHIND] } else { vec![what] }
        }
    }
}
