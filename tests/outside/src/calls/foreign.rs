//! The exported calls as they are linked. A slice passes as its pointer and its length.

use super::arguments::Arguments;
use super::call::Call;
use super::lent::Tables;

#[rustfmt::skip]
extern "C" {
    fn lunthomi_check(edition: usize, n: usize, k: usize, initial: u16, recurring: u16,
        table: *const u16, table_len: usize, marks: *const u16, marks_len: usize,
        word: *mut u16, word_len: usize, one: *mut u16, one_len: usize, other: *mut u16, other_len: usize, answer: *mut usize, answer_len: usize);
    fn lunthomi_read_sheet(sheet: *const u8, sheet_len: usize, table: *mut u16, table_len: usize, marks: *mut u16, marks_len: usize,
        word: *mut u16, word_len: usize, one: *mut u16, one_len: usize, other: *mut u16, other_len: usize, answer: *mut usize, answer_len: usize);
    fn lunthomi_write(sheet: *const u8, sheet_len: usize, word: *mut u16, word_len: usize, one: *mut u16, one_len: usize, other: *mut u16, other_len: usize,
        out: *mut u8, out_len: usize, answer: *mut usize, answer_len: usize);
    fn lunthomi_write_numbers(edition: usize, n: usize, k: usize, initial: u16, recurring: u16,
        table: *const u16, table_len: usize, marks: *const u16, marks_len: usize, names: *const u8, names_len: usize,
        word: *mut u16, word_len: usize, one: *mut u16, one_len: usize, other: *mut u16, other_len: usize, out: *mut u8, out_len: usize,
        answer: *mut usize, answer_len: usize);
    fn lunthomi_name(sheet: *const u8, sheet_len: usize, letter: usize, out: *mut u8, out_len: usize, answer: *mut usize, answer_len: usize);
    fn lunthomi_name_number(sheet: *const u8, sheet_len: usize, letter: usize, answer: *mut usize, answer_len: usize);
    fn lunthomi_find(sheet: *const u8, sheet_len: usize, name: *const u8, name_len: usize,
        word: *mut u16, word_len: usize, one: *mut u16, one_len: usize, other: *mut u16, other_len: usize, answer: *mut usize, answer_len: usize);
    fn lunthomi_successors(table: *const u16, table_len: usize, letter: usize, set: u16) -> u16;
    fn lunthomi_build(sheet: *const u8, sheet_len: usize, room: usize, table: *mut u16, table_len: usize, marks: *mut u16, marks_len: usize,
        tuples: *mut u16, tuples_len: usize, nexts: *mut u16, nexts_len: usize,
        word: *mut u16, word_len: usize, one: *mut u16, one_len: usize, other: *mut u16, other_len: usize, answer: *mut usize, answer_len: usize);
    fn lunthomi_build_numbers(edition: usize, n: usize, k: usize, initial: u16, recurring: u16,
        table: *const u16, table_len: usize, marks: *const u16, marks_len: usize, room: usize,
        tuples: *mut u16, tuples_len: usize, nexts: *mut u16, nexts_len: usize,
        word: *mut u16, word_len: usize, one: *mut u16, one_len: usize, other: *mut u16, other_len: usize, answer: *mut usize, answer_len: usize);
    fn lunthomi_list(sheet: *const u8, sheet_len: usize, room: usize, table: *mut u16, table_len: usize, marks: *mut u16, marks_len: usize,
        tuples: *mut u16, tuples_len: usize, nexts: *mut u16, nexts_len: usize,
        word: *mut u16, word_len: usize, one: *mut u16, one_len: usize, other: *mut u16, other_len: usize, out: *mut u8, out_len: usize,
        answer: *mut usize, answer_len: usize);
    fn lunthomi_list_numbers(edition: usize, n: usize, k: usize, initial: u16, recurring: u16,
        table: *const u16, table_len: usize, marks: *const u16, marks_len: usize, room: usize,
        tuples: *mut u16, tuples_len: usize, nexts: *mut u16, nexts_len: usize,
        word: *mut u16, word_len: usize, one: *mut u16, one_len: usize, other: *mut u16, other_len: usize, out: *mut u8, out_len: usize,
        answer: *mut usize, answer_len: usize);
    fn lunthomi_verdict(sheet: *const u8, sheet_len: usize, plan: *const u8, plan_len: usize, room: usize,
        table: *mut u16, table_len: usize, marks: *mut u16, marks_len: usize,
        tuples: *mut u16, tuples_len: usize, nexts: *mut u16, nexts_len: usize,
        word: *mut u16, word_len: usize, one: *mut u16, one_len: usize, other: *mut u16, other_len: usize, answer: *mut usize, answer_len: usize);
    fn lunthomi_way(sheet: *const u8, sheet_len: usize, room: usize, t: usize, table: *mut u16, table_len: usize, marks: *mut u16, marks_len: usize,
        tuples: *mut u16, tuples_len: usize, nexts: *mut u16, nexts_len: usize,
        word: *mut u16, word_len: usize, one: *mut u16, one_len: usize, other: *mut u16, other_len: usize,
        letters: *mut u16, letters_len: usize, answer: *mut usize, answer_len: usize);
    fn lunthomi_track_output(input: *const u8, input_len: usize, out: *mut u8, out_len: usize) -> usize;
    fn lunthomi_verdict_output(input: *const u8, input_len: usize, out: *mut u8, out_len: usize) -> usize;
    fn lunthomi_rewrite_output(input: *const u8, input_len: usize, out: *mut u8, out_len: usize) -> usize;
}

/// Makes the call; gives what it returns, and 0 where it returns nothing.
#[rustfmt::skip]
pub fn call(call: Call, a: &mut Arguments, t: &mut Tables) -> usize {
    let (file, file_len) = (a.file.as_mut_ptr().cast_const(), a.file.len());
    let (plan, plan_len) = (a.plan.as_mut_ptr().cast_const(), a.plan.len());
    let (name, name_len) = (a.name.as_mut_ptr().cast_const(), a.name.len());
    let Arguments { edition, n, k, initial, recurring, letter, set, room, tuple, .. } = *a;
    let (sets, sets_len) = (t.sets.inside_mut().as_mut_ptr(), t.sets.len());
    let (marks, marks_len) = (t.marks.inside_mut().as_mut_ptr(), t.marks.len());
    let (word, word_len) = (t.word.inside_mut().as_mut_ptr(), t.word.len());
    let (one, one_len) = (t.one.inside_mut().as_mut_ptr(), t.one.len());
    let (other, other_len) = (t.other.inside_mut().as_mut_ptr(), t.other.len());
    let (tuples, tuples_len) = (t.tuples.inside_mut().as_mut_ptr(), t.tuples.len());
    let (nexts, nexts_len) = (t.nexts.inside_mut().as_mut_ptr(), t.nexts.len());
    let (letters, letters_len) = (t.letters.inside_mut().as_mut_ptr(), t.letters.len());
    let (out, out_len) = (t.out.inside_mut().as_mut_ptr(), t.out.len());
    let (answer, answer_len) = (t.answer.inside_mut().as_mut_ptr(), t.answer.len());
    // SAFETY: each pointer is that of a slice of the length beside it; no two slices overlap, and all live until the call is over.
    unsafe {
        match call {
            Call::Check => lunthomi_check(edition, n, k, initial, recurring, sets, sets_len, marks, marks_len,
                word, word_len, one, one_len, other, other_len, answer, answer_len),
            Call::ReadSheet => lunthomi_read_sheet(file, file_len, sets, sets_len, marks, marks_len,
                word, word_len, one, one_len, other, other_len, answer, answer_len),
            Call::Write => lunthomi_write(file, file_len,
                word, word_len, one, one_len, other, other_len, out, out_len, answer, answer_len),
            Call::WriteNumbers => lunthomi_write_numbers(edition, n, k, initial, recurring, sets, sets_len, marks, marks_len, file, file_len,
                word, word_len, one, one_len, other, other_len, out, out_len, answer, answer_len),
            Call::Name => lunthomi_name(file, file_len, letter, out, out_len, answer, answer_len),
            Call::NameNumber => lunthomi_name_number(file, file_len, letter, answer, answer_len),
            Call::Find => lunthomi_find(file, file_len, name, name_len,
                word, word_len, one, one_len, other, other_len, answer, answer_len),
            Call::Successors => return lunthomi_successors(sets, sets_len, letter, set) as usize,
            Call::Build => lunthomi_build(file, file_len, room, sets, sets_len, marks, marks_len, tuples, tuples_len, nexts, nexts_len,
                word, word_len, one, one_len, other, other_len, answer, answer_len),
            Call::BuildNumbers => lunthomi_build_numbers(edition, n, k, initial, recurring, sets, sets_len, marks, marks_len, room,
                tuples, tuples_len, nexts, nexts_len, word, word_len, one, one_len, other, other_len, answer, answer_len),
            Call::List => lunthomi_list(file, file_len, room, sets, sets_len, marks, marks_len, tuples, tuples_len, nexts, nexts_len,
                word, word_len, one, one_len, other, other_len, out, out_len, answer, answer_len),
            Call::ListNumbers => lunthomi_list_numbers(edition, n, k, initial, recurring, sets, sets_len, marks, marks_len, room,
                tuples, tuples_len, nexts, nexts_len, word, word_len, one, one_len, other, other_len, out, out_len, answer, answer_len),
            Call::Verdict => lunthomi_verdict(file, file_len, plan, plan_len, room, sets, sets_len, marks, marks_len,
                tuples, tuples_len, nexts, nexts_len, word, word_len, one, one_len, other, other_len, answer, answer_len),
            Call::Way => lunthomi_way(file, file_len, room, tuple, sets, sets_len, marks, marks_len, tuples, tuples_len, nexts, nexts_len,
                word, word_len, one, one_len, other, other_len, letters, letters_len, answer, answer_len),
            Call::Track => return lunthomi_track_output(file, file_len, out, out_len),
            Call::VerdictProgram => return lunthomi_verdict_output(file, file_len, out, out_len),
            Call::Rewrite => return lunthomi_rewrite_output(file, file_len, out, out_len),
        }
    }
    0
}
