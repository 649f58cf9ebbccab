//! The requirements' own cases, and the judging programs against each other: what judges is judged first.

mod endless_words;
mod marks;

use super::*;
use sheet::read_sheet;

const SHEET_B: &str = "SHEET  2  2\nN  0 a\nN  1 b\nS  0  1  0\nS  1  1  1\nT  0  0  0\nT  0  1  0\nT  0  1  1\nT  1  0  1\nEND\n";

#[test]
fn sheet_b() {
    let listing = "TRACK  2  2    4\nQ    0  5     3     0    1    1\nQ    1  5     3     2    2    3\nQ    2  4     3     2    2    3\nQ    3  3     3     2    2    3\nEND\n";
    assert_eq!(expected::listing(SHEET_B.as_bytes(), ROOM), Ok(listing.to_string()));
    let with = |plan: &str| expected::verdict(format!("{SHEET_B}{plan}").as_bytes(), ROOM);
    assert_eq!(with("PLAN  1  1\nb\na\nEND\n"), Ok("YES  4    2\n".to_string()));
    assert_eq!(with("PLAN  0  2\na\nb\nEND\n"), Ok(" NO  3    2\n".to_string()));
    assert_eq!(with("PLAN  0  0\nEND\n"), Err((13, 1)));
}

#[test]
fn refusals() {
    let listing = |s: &str| expected::listing(s.as_bytes(), ROOM);
    assert_eq!(listing(""), Err((3, 1)));
    assert_eq!(listing("SHEET 17  1\n"), Err((4, 1)));
    let meeting = "SHEET  2  2\nN  0 a\nN  1 b\nS  0  1  0\nS  1  0  0\nT  0  0  0\nT  0  0  1\nT  0  1  0\nT  1  0  1\nEND\n";
    assert_eq!(listing(meeting), Err((10, 0)));
    assert_eq!(walks::shortest_meeting(&read_sheet(meeting.as_bytes()).unwrap()), Some(2));
}

/// Sheet B's tuples 1, 2 and 3 are found from 0 on a, from 1 on a and from 1 on b.
#[test]
fn ways_of_sheet_b() {
    let s = read_sheet(SHEET_B.as_bytes()).unwrap();
    let t = tuples::build(&s, ROOM).unwrap();
    assert_eq!(ways::found_from(&t), [(0, 0), (0, 0), (1, 0), (1, 1)]);
    assert_eq!(ways::lengths(&t), [0, 1, 2, 2]);
    let words: [&[usize]; 4] = [&[], &[0], &[0, 0], &[0, 1]];
    for (i, word) in words.into_iter().enumerate() {
        assert_eq!(expected::way(SHEET_B.as_bytes(), 4, i), Ok(Some(word.to_vec())));
        assert_eq!([0, 1, 2, 3].map(|u| ways::leads(&s, &t, word, u)), [0, 1, 2, 3].map(|u| u == i));
    }
    // On b the second tuple is entered too, but a comes first.
    assert!(ways::leads(&s, &t, &[1], 1) && !ways::leads(&s, &t, &[2], 1));
    assert_eq!(ways::first_words(&t), words);
    assert_eq!(expected::way(SHEET_B.as_bytes(), 4, 4), Ok(None));
    assert_eq!(expected::way(SHEET_B.as_bytes(), 3, 0), Err((11, 0)));
    assert_eq!(expected::way(b"", 4, 0), Err((3, 1)));
}

/// Shortest words by bettering longer ones against a list of all words, by length and then in alphabetical order, on small sheets.
#[test]
fn words_listed() {
    let (mut compared, mut longest) = (0, 0);
    for seed in 0..3000 {
        let mut r = Random::new(seed);
        let s = match seed % 3 {
            0 => families::sheet(&mut r, 5),
            1 => families::with_dead_ends(&mut r, 5),
            _ => {
                let (n, k) = (1 + r.below(5), 1 + r.below(2));
                families::circles(&mut r, n, k)
            }
        };
        if walks::shortest_meeting(&s).is_some() {
            continue;
        }
        let Some(t) = tuples::build(&s, 40) else { continue };
        let mut found: Vec<Option<Vec<usize>>> = vec![None; t.tuples.len()];
        let mut all = vec![(Vec::new(), tuples::first(&s))];
        // Of the others there are too many words.
        while all.len() <= 5000 && found.contains(&None) {
            for (word, u) in &all {
                let i = t.tuples.iter().position(|x| x == u).unwrap();
                found[i].get_or_insert(word.clone());
            }
            all = all.iter().flat_map(|(word, u)| (0..s.k).map(|l| ([&word[..], &[l]].concat(), tuples::step(&s, u, l)))).collect();
        }
        if found.contains(&None) {
            continue;
        }
        let found: Vec<Vec<usize>> = found.into_iter().flatten().collect();
        assert_eq!(ways::lengths(&t), found.iter().map(|word| word.len()).collect::<Vec<_>>());
        assert_eq!(ways::first_words(&t), found);
        let from = ways::found_from(&t);
        (0..found.len()).for_each(|i| assert!(ways::leads(&s, &t, &ways::spelled(&from, i), i)));
        compared += 1;
        longest = longest.max(found.iter().map(|word| word.len()).max().unwrap());
    }
    assert!(compared > 1000 && longest >= 10, "{compared}, {longest}");
}

const TWO_TO_ONE: &str = "SHEET  3  1\nN  0 a\nS  0  1  0\nS  1  1  0\nS  2  0  0\nT  0  0  2\nT  1  0  2\nEND\n";

/// States 0 and 1 both move to 2: accepted if 2 stops there, and refused if it has a loop.
#[test]
fn dead_ends() {
    let listing = "TRACK  3  1    3\nQ    0  7     3     0     0    1\nQ    1  7     4     0     0    2\nQ    2  1     0     0     0    2\nEND\n";
    assert_eq!(expected::listing(TWO_TO_ONE.as_bytes(), ROOM), Ok(listing.to_string()));
    let stops = read_sheet(TWO_TO_ONE.as_bytes()).unwrap();
    assert_eq!(walks::endless(&stops), [false; 3]);
    assert_eq!((walks::shortest_meeting(&stops), walks::shortest_meeting_anywhere(&stops)), (None, Some(1)));
    assert!(!walks::meets(&stops, &[0], &[0, 2], &[1, 2]));
    let looped = TWO_TO_ONE.replacen("END", "T  2  0  2\nEND", 1);
    assert_eq!(expected::listing(looped.as_bytes(), ROOM), Err((10, 0)));
    let loops = read_sheet(looped.as_bytes()).unwrap();
    assert_eq!(walks::endless(&loops), [true; 3]);
    assert_eq!(walks::shortest_meeting(&loops), Some(1));
    assert!(walks::meets(&loops, &[0], &[0, 2], &[1, 2]));
    assert_eq!([&stops, &loops].map(Effect::of), [Effect::Accepted, Effect::Nothing]);
}

/// All walks on a word, state by state.
fn all_walks(s: &sheet::Sheet, word: &[usize]) -> Vec<Vec<usize>> {
    let mut walks: Vec<Vec<usize>> = (0..s.n).filter(|q| s.initial[*q]).map(|q| vec![q]).collect();
    for l in word {
        walks = walks.iter().flat_map(|w| s.next[w[w.len() - 1]][*l].iter().map(move |t| [&w[..], &[*t]].concat())).collect();
    }
    walks
}

/// A finite run into a dead end may stay in set 0 from one mark to the next and visit no must-recur state on the way (docs/THEORY.md, section 6).
#[test]
fn run_into_a_dead_end() {
    let s = cases::sheet_of(4, 2, &[0], &[0], &[(0, 0, 0), (0, 0, 3), (0, 1, 0), (0, 1, 1), (1, 1, 2), (2, 0, 3)]);
    assert_eq!((walks::endless(&s), walks::shortest_meeting(&s)), (vec![true, false, false, false], None));
    let (word, run) = ([0, 1, 1, 0], [0, 0, 1, 2, 3]);
    assert!(all_walks(&s, &word).contains(&run.to_vec()));
    let mut passed = vec![tuples::first(&s)];
    for l in word {
        passed.push(tuples::step(&s, &passed[passed.len() - 1], l));
    }
    assert_eq!(passed.iter().map(|u| u.colour).collect::<Vec<_>>(), [9, 9, 2, 9, 2]);
    assert!((2..5).all(|t| passed[t].sets[0].contains(&run[t]) && !s.recurring[run[t]]));
}

/// Is there a path of so many transitions from a state? As many as there are states pass through one of them twice.
fn goes_on(s: &sheet::Sheet, q: usize, transitions: usize) -> bool {
    transitions == 0 || s.next[q].iter().flatten().any(|t| goes_on(s, *t, transitions - 1))
}

/// Counting walks against a list of all of them, and circles against long paths, on small sheets with dead ends.
#[test]
fn walks_listed() {
    let mut seen = [0; 3];
    for seed in 0..6000 {
        let s = families::with_dead_ends(&mut Random::new(seed), 4);
        // Of the others there are too many words.
        if s.k > 2 || s.k == 2 && s.n > 4 {
            continue;
        }
        let endless: Vec<bool> = (0..s.n).map(|q| goes_on(&s, q, s.n)).collect();
        assert_eq!(walks::endless(&s), endless);
        let meets_on = |word: &[usize]| {
            let all = all_walks(&s, word);
            let two = |one: &Vec<usize>| all.iter().any(|other| walks::meets(&s, word, one, other));
            let ends = |q: usize| all.iter().filter(|w| w[word.len()] == q).count();
            let met = (0..s.n).any(|q| endless[q] && ends(q) > 1);
            assert_eq!(all.iter().any(two), met);
            met
        };
        let mut layer = vec![Vec::new()];
        let mut shortest = None;
        for length in 1..=s.n * (s.n + 1) / 2 {
            layer = layer.iter().flat_map(|w: &Vec<usize>| (0..s.k).map(move |l| [&w[..], &[l]].concat())).collect();
            if layer.iter().any(|word| meets_on(word)) {
                shortest = Some(length);
                break;
            }
        }
        assert_eq!(walks::shortest_meeting(&s), shortest);
        seen[Effect::of(&s) as usize] += 1;
    }
    assert!(seen.iter().all(|count| *count >= 10), "{seen:?}");
}

/// Three grades, of which the second has superseded the first, and the third the second.
const OLD_GRADES: &str =
    "SHEET  2  4\nN  0 old\nN  1 newer\nN  2 newest\nN  3 rest\nW  0  1\nW  1  2\nS  0  1  0\nS  1  0  1\nT  0  2  1\nT  0  3  0\nT  1  3  0\nEND\n";

#[test]
fn withdrawn_grades() {
    let s = read_sheet(OLD_GRADES.as_bytes()).unwrap();
    assert_eq!(s.withdrawn, [(0, 1), (1, 2)]);
    assert_eq!([0, 1, 2, 3].map(|l| s.standing(l)), [2, 2, 2, 3]);
    assert_eq!(write_sheet(&s, true), OLD_GRADES.as_bytes());
    let plan = sheet::read_plan(b"PLAN  1  3\nrest\nold\nrest\nnewer\nEND\n", &s).unwrap();
    assert_eq!((plan.lead, plan.cycle), (vec![3], vec![2, 3, 2]));
    let judged = |plan: &str| expected::verdict(format!("{OLD_GRADES}{plan}").as_bytes(), ROOM).map(|x| x[..3].to_string());
    assert_eq!(judged("PLAN  0  2\nold\nrest\nEND\n"), Ok("YES".to_string()));
    assert_eq!(judged("PLAN  0  3\nold\nnewest\nrest\nEND\n"), Ok(" NO".to_string()));
    assert_eq!(judged("PLAN  0  1\nolder\nEND\n"), Err((14, 2)));
}

/// The lines of the change request: 15 straight behind 6, 16 straight behind 8, and what is due elsewhere.
#[test]
fn withdrawal_lines() {
    let with = |old: &str, new: &str| read_sheet(OLD_GRADES.replacen(old, new, 1).as_bytes()).err();
    assert_eq!(with("W  0  1\n", ""), None);
    for line in ["W  0  0\n", "W  2  1\n", "W  0  4\n", "W  4  5\n", "W 00  1\n", "W  0\n", "W  0  1 \n", "W\n", "W  0  1"] {
        assert_eq!(with("W  0  1\n", line), Some((15, 6)), "{line}");
    }
    assert_eq!(with("W  1  2\n", "W  0  2\n"), Some((15, 7)));
    assert_eq!(read_sheet(&OLD_GRADES.as_bytes()[..58]).err(), Some((15, 6)));
    assert_eq!(with("W  0  1\n", "w  0  1\n"), Some((7, 6)));
    assert_eq!(with("W  0  1\n", "\nW  0  1\n"), Some((7, 6)));
    assert_eq!(with("N  3", "W  0  1\nN  3"), Some((5, 5)));
    assert_eq!(with("S  1", "W  2  3\nS  1"), Some((7, 9)));
    assert_eq!(with("T  0  2", "W  2  3\nT  0  2"), Some((9, 10)));
    assert_eq!(with("T  0  2  1", "T  0  1  1"), Some((16, 10)));
    assert_eq!(with("T  0  2  1\nT  0  3  0", "T  0  1  1\nT  0  3  9"), Some((16, 10)));
    assert_eq!(with("T  0  2  1", "T  0  1  2"), Some((8, 10)));
    assert_eq!(with("T  1  3  0", "T  0  1  1"), Some((8, 12)));
}

/// Tuples, the product and Safra's automaton agree on sheets of every family, those with harmless dead ends among them.
#[test]
fn judges_agree() {
    let (mut compared, mut harmless) = (0, 0);
    for seed in 0..2500 {
        let mut r = Random::new(seed);
        let s = if seed < 1500 { families::sheet(&mut r, 6) } else { families::with_dead_ends(&mut r, 6) };
        if walks::shortest_meeting(&s).is_some() {
            continue;
        }
        let mut t = match tuples::build(&s, ROOM) {
            Some(t) => t,
            None => continue,
        };
        for _ in 0..5 {
            let p = families::plan(&mut r, s.k);
            assert_eq!(tuples::verdict(&t, &p).0, product::passes(&s, &p));
        }
        if let Some(same) = safra::rabin(&s, 2000).and_then(|d| equal::same_sequences(&t, &d, 200_000)) {
            assert!(same, "{}", String::from_utf8_lossy(&write_sheet(&s, false)));
            compared += 1;
            harmless += (Effect::of(&s) == Effect::Accepted) as usize;
            // Where every verdict is the other one, the comparison sees it.
            t.tuples.iter_mut().for_each(|u| u.colour += 1);
            let d = safra::rabin(&s, 2000).unwrap();
            assert_eq!(equal::same_sequences(&t, &d, 200_000), Some(false));
        }
    }
    assert!(compared > 1000 && harmless > 200, "{compared}, {harmless}");
}
