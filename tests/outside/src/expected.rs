//! What the programs have to print.

use crate::sheet::{read_plan, read_sheet, No, Sheet, PLAN_BYTES, SHEET_BYTES};
use crate::{product, tuples, walks, ways};

pub const ROOM: usize = 1024;

pub fn refusal(no: No) -> String {
    format!("REF{:3}{:5}\n", no.0, no.1)
}

/// The questions on a sheet file up to 10, and the sheet.
pub fn accepted(bytes: &[u8]) -> Result<Sheet, No> {
    let s = read_sheet(bytes)?;
    match walks::shortest_meeting(&s) {
        None => Ok(s),
        Some(_) => Err((10, 0)),
    }
}

pub fn listing(bytes: &[u8], room: usize) -> Result<String, No> {
    let s = accepted(bytes)?;
    let t = tuples::build(&s, room).ok_or((11, 0))?;
    Ok(tuples::listing(&s, &t))
}

/// The word to a tuple, or None where there is no such tuple.
pub fn way(bytes: &[u8], room: usize, tuple: usize) -> Result<Option<Vec<usize>>, No> {
    let s = accepted(bytes)?;
    let t = tuples::build(&s, room).ok_or((11, 0))?;
    Ok((tuple < t.tuples.len()).then(|| ways::spelled(&ways::found_from(&t), tuple)))
}

/// The sheet reaches to the first line that is just END.
pub fn split(input: &[u8]) -> (&[u8], &[u8]) {
    let mut at = 0;
    for line in input.split_inclusive(|b| *b == b'\n') {
        at += line.len();
        if line == b"END\n" {
            return input.split_at(at);
        }
    }
    (input, &[])
}

pub fn verdict(input: &[u8], room: usize) -> Result<String, No> {
    let (sheet, plan) = split(input);
    if sheet.len() > SHEET_BYTES || plan.len() > PLAN_BYTES {
        return Err((2, 0));
    }
    let s = accepted(sheet)?;
    let t = tuples::build(&s, room).ok_or((11, 0))?;
    let p = read_plan(plan, &s)?;
    let (yes, least, passes) = tuples::verdict(&t, &p);
    assert_eq!(yes, product::passes(&s, &p), "tuples and product differ");
    assert!(passes <= t.tuples.len());
    Ok(format!("{}{least:3}{passes:5}\n", if yes { "YES" } else { " NO" }))
}
