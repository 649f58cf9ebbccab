//! Endless words: how they are spelled, that they do not repeat, and their answers where these are plain; the two sides against each other, with
//! the tuples of the requirements' text.

use super::*;
use crate::cases::{sheet_b, sheet_of};
use crate::conversion::with_marks;
use crate::endless_words::run::Table;
use crate::endless_words::shapes::{Shape, Spelled, ALL};
use crate::endless_words::{check, reading, Word};
use crate::sheet::Sheet;

fn spelled(shape: Shape, x: &[usize], y: &[usize], z: &[usize]) -> Spelled {
    Spelled { shape, x: x.to_vec(), y: y.to_vec(), z: z.to_vec() }
}

fn random_word(r: &mut Random, shape: Shape, k: usize) -> Spelled {
    loop {
        let mut word = |least: usize| (0..least + r.below(4)).map(|_| r.below(k)).collect::<Vec<usize>>();
        let out = Spelled { shape, x: word(0), y: word(1), z: word(1) };
        if out.never_repeats() {
            return out;
        }
    }
}

/// The first blocks, letter by letter.
fn by_blocks(word: &Word, blocks: usize) -> Vec<usize> {
    let (mut out, mut pieces) = (word.lead.clone(), word.pieces.clone());
    let in_a_row = |pieces: &[Vec<usize>], row: &[usize]| row.iter().flat_map(|i| pieces[*i].clone()).collect::<Vec<_>>();
    for _ in 0..blocks {
        out.extend(in_a_row(&pieces, &word.block));
        pieces = word.next.iter().map(|row| in_a_row(&pieces, row)).collect();
    }
    out
}

/// The blocks spell what the formula says, and begin where they are said to.
#[test]
fn spelled_twice() {
    let start = |shape| spelled(shape, &[2], &[0], &[1]).letters(12);
    assert_eq!(start(Shape::Rising), [2, 0, 1, 0, 1, 1, 0, 1, 1, 1, 0, 1]);
    assert_eq!(start(Shape::Squares), [2, 0, 1, 0, 1, 1, 1, 1, 0, 1, 1, 1]);
    assert_eq!(start(Shape::ThueMorse), [2, 0, 1, 1, 0, 1, 0, 0, 1, 1, 0, 0]);
    assert_eq!(start(Shape::Fibonacci), [2, 0, 1, 0, 0, 1, 0, 1, 0, 0, 1, 0]);
    let mut r = Random::new(1);
    for shape in ALL {
        for blocks in 0..10 {
            let w = random_word(&mut r, shape, 3);
            let letters = by_blocks(&w.word(), blocks);
            assert_eq!(w.word().beginnings(blocks)[blocks], letters.len());
            assert_eq!(w.letters(letters.len()), letters, "{w:?}");
        }
    }
}

/// From a late place on no word goes on as it did some letters before, however many.
#[test]
fn never_repeat() {
    let mut r = Random::new(2);
    for shape in ALL {
        for _ in 0..20 {
            let w = random_word(&mut r, shape, 2);
            let letters = w.letters(9000);
            let repeats = |period: &usize| (3000..letters.len() - period).all(|i| letters[i] == letters[i + period]);
            assert_eq!((1..=500).find(repeats), None, "{w:?}");
        }
    }
    assert!(!spelled(Shape::Rising, &[], &[0, 1, 0, 1], &[0, 1]).never_repeats());
}

/// The answer of the readings and the least colour; the sheet has to be accepted.
fn judged(s: &Sheet, word: &Word) -> (bool, usize) {
    assert_eq!(walks::shortest_meeting(s), None);
    let t = tuples::build(s, ROOM).unwrap();
    let table = Table { next: t.next.clone(), colour: t.tuples.iter().map(|u| u.colour).collect() };
    (reading::readings(s, &reading::profiles(s), word).unwrap().passes, table.least(&table.steps(), word).unwrap().0)
}

/// Again and again b a a: by a deterministic sheet, whose state tells how much of it has come.
fn again_and_again() -> Sheet {
    sheet_of(4, 2, &[0], &[3], &[(0, 0, 0), (0, 1, 1), (1, 0, 2), (1, 1, 1), (2, 0, 3), (2, 1, 1), (3, 0, 0), (3, 1, 1)])
}

/// From some job on never again b a a: the last of them is guessed, and then the upper states tell how much of it has come.
fn never_again() -> Sheet {
    let lower = [(0, 0, 0), (0, 1, 1), (1, 0, 2), (1, 1, 1), (2, 0, 0), (2, 1, 1)];
    let upper = [(2, 0, 3), (3, 0, 3), (3, 1, 4), (4, 0, 5), (4, 1, 4), (5, 1, 4)];
    sheet_of(6, 2, &[0, 3], &[3, 4, 5], &[lower, upper].concat())
}

#[test]
fn plain_answers() {
    const A: &[usize] = &[0];
    const B: &[usize] = &[1];
    let answer = |s: &Sheet, word: &Word| {
        let (passes, least) = judged(s, word);
        assert_eq!(passes, least % 2 == 0);
        assert_eq!(judged(&with_marks(s), word), (passes, least));
        passes
    };
    // From some job on only a.
    assert!(answer(&sheet_b(), &Word::repeating(B, A)));
    for shape in ALL {
        assert!(!answer(&sheet_b(), &spelled(shape, A, B, A).word()));
    }
    // Neither a for ever nor b a has b a a again and again, but with more and more of a there is no end of it.
    for (s, yes) in [(again_and_again(), true), (never_again(), false)] {
        assert_eq!([A, B, &[1, 0]].map(|cycle| answer(&s, &Word::repeating(&[1, 0, 0], cycle))), [!yes; 3]);
        for shape in ALL {
            // In the word of Fibonacci no two z stand side by side.
            let expected = yes != (shape == Shape::Fibonacci);
            assert_eq!(answer(&s, &spelled(shape, A, B, A).word()), expected, "{shape:?}");
        }
        assert_eq!(answer(&s, &spelled(Shape::Fibonacci, A, A, B).word()), yes);
    }
}

/// Of the two rules about one run, every word meets one; so they need not be looked into to know that the sheet's side is right.
#[test]
fn one_of_two_rules() {
    let mut seen = [0; 2];
    for seed in 0..500 {
        let mut r = Random::new(seed);
        let rules = families::watched(&mut r, 2 + seed as usize % 7, 2);
        let w = families::endless_word(&mut r, &rules[0]).word();
        let answers = [&rules[0], &rules[1]].map(|s| judged(s, &w));
        assert_ne!(answers[0].0, answers[1].0);
        answers.iter().for_each(|(passes, least)| assert_eq!(*passes, least % 2 == 0));
        seen[answers[0].0 as usize] += 1;
    }
    assert!(seen.iter().all(|count| *count >= 100), "{seen:?}");
}

/// Both sides agree on sheets of every family, and so do the blocks with what is gone through letter by letter.
#[test]
fn sides_agree() {
    let (mut compared, mut stepped, mut planned) = ([0; 2], 0, 0);
    for seed in 0..800 {
        let mut r = Random::new(seed);
        let mut s = if seed % 2 == 0 { families::sheet(&mut r, 6) } else { families::with_dead_ends(&mut r, 6) };
        if r.chance(50) {
            s = families::marked(&mut r, &s);
        }
        if s.k == 1 || walks::shortest_meeting(&s).is_some() {
            continue;
        }
        let Some(t) = tuples::build(&s, 200) else { continue };
        let mut table = Table { next: t.next.clone(), colour: t.tuples.iter().map(|u| u.colour).collect() };
        let profiles = reading::profiles(&s);
        for _ in 0..3 {
            let w = families::endless_word(&mut r, &s);
            let mut readings = reading::readings(&s, &profiles, &w.word()).unwrap();
            let Some((least, run)) = table.least(&table.steps(), &w.word()) else { continue };
            let answers = [(readings.passes, readings.some), (least % 2 == 0, least != 1)];
            assert_eq!(answers[0], answers[1], "{w:?}\n{}", String::from_utf8_lossy(&write_sheet(&s, false)));
            compared[readings.passes as usize] += 1;
            if let Some(same) = check::step_by_step(&table, &w, least, &run) {
                assert!(same, "{w:?}");
                assert_eq!(check::step_by_step(&table, &w, least + 1, &run), Some(false));
                stepped += 1;
            }
            if let Some(same) = check::as_plans(&s, &w, &readings) {
                assert!(same, "{w:?}");
                readings.passes = !readings.passes;
                assert_eq!(check::as_plans(&s, &w, &readings), Some(false));
                planned += 1;
            }
        }
        // Where every verdict is the other one, the comparison sees it.
        table.colour.iter_mut().for_each(|c| *c += 1);
        let w = families::endless_word(&mut r, &s);
        if let Some((least, _)) = table.least(&table.steps(), &w.word()) {
            assert_ne!(reading::readings(&s, &profiles, &w.word()).unwrap().passes, least % 2 == 0);
        }
    }
    assert!(compared[0] > 200 && compared[1] > 200 && stepped > 300 && planned > 300, "{compared:?}, {stepped}, {planned}");
}
