//! The answer and every cell of every table against what is wanted; the witness of 10 by what it has to be.

use super::lent::{Cell, Lent, Tables};
use super::model::Want;
use crate::bench::prints_witness;
use crate::sheet::Sheet;
use crate::walks;

/// What is not as it should be.
pub fn difference(want: &Want, returned: usize, after: &Tables) -> Option<String> {
    let mut tables = want.tables.clone();
    if let Some((sheet, length)) = want.meeting {
        if want.printed {
            // The count that is returned is held to the text: a witness is compared byte for byte.
            let text = after.out.inside().get(..returned).unwrap_or(&[]);
            if !prints_witness(sheet, text) {
                return Some("the printed witness".to_string());
            }
            tables.out.set(text);
            return tables_differ(&tables, after);
        }
        if !is_witness(sheet, length, after) {
            return Some("the witness".to_string());
        }
        tables.word.inside_mut().copy_from_slice(after.word.inside());
        tables.one.inside_mut().copy_from_slice(after.one.inside());
        tables.other.inside_mut().copy_from_slice(after.other.inside());
    }
    if returned != want.returned {
        return Some(format!("returned {returned} instead of {}", want.returned));
    }
    tables_differ(&tables, after)
}

/// A word of the shortest length and two walks that meet on it, each with zeros behind.
fn is_witness(s: &Sheet, length: usize, t: &Tables) -> bool {
    let read = |table: &Lent<u16>, count: usize| -> Option<Vec<usize>> {
        let (front, back) = table.inside().split_at(count);
        back.iter().all(|x| *x == 0).then(|| front.iter().map(|x| *x as usize).collect())
    };
    match (read(&t.word, length), read(&t.one, length + 1), read(&t.other, length + 1)) {
        (Some(word), Some(one), Some(other)) => walks::meets(s, &word, &one, &other),
        _ => false,
    }
}

fn tables_differ(want: &Tables, got: &Tables) -> Option<String> {
    differs("answer", &want.answer, &got.answer)
        .or_else(|| differs("successor sets", &want.sets, &got.sets))
        .or_else(|| differs("marked successors", &want.marks, &got.marks))
        .or_else(|| differs("word", &want.word, &got.word))
        .or_else(|| differs("one walk", &want.one, &got.one))
        .or_else(|| differs("other walk", &want.other, &got.other))
        .or_else(|| differs("tuples", &want.tuples, &got.tuples))
        .or_else(|| differs("nexts", &want.nexts, &got.nexts))
        .or_else(|| differs("letters", &want.letters, &got.letters))
        .or_else(|| differs("out", &want.out, &got.out))
}

fn differs<T: Cell + std::fmt::Debug>(what: &str, want: &Lent<T>, got: &Lent<T>) -> Option<String> {
    if want == got {
        return None;
    }
    let (x, y) = (want.inside(), got.inside());
    match x.iter().zip(y).position(|(a, b)| a != b) {
        Some(i) => Some(format!("{what}: cell {i} of {} is {:?} instead of {:?}", x.len(), y[i], x[i])),
        None => Some(format!("{what}: a cell outside of it was written")),
    }
}
