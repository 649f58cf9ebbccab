//! Marks on transitions: the change request's own sentences, and the judging programs against each other.

use super::*;
use conversion::{with_marks, with_states};
use edition::Edition;
use sheet::{Plan, Sheet};

/// The inputs of the benchmark with marks are the longest sheet, and one with 1,024 tuples by itself and with a plan of 400 letters that it passes.
#[test]
fn inputs_of_the_benchmark() {
    let longest = include_bytes!("../../../../bench/inputs/longest-marks.sheet");
    assert_eq!(write_sheet(&limits::longest_marked_sheet(false), false), longest);
    assert_eq!(longest.len(), 29_056);
    let most = include_bytes!("../../../../bench/inputs/marks-1024.sheet");
    let s = limits::most_marked_tuples().into_iter().find(|s| write_sheet(s, false) == most).unwrap();
    assert_eq!(tuples::build(&s, ROOM).unwrap().tuples.len(), ROOM);
    let judged = include_bytes!("../../../../bench/inputs/marks-1024.input");
    assert!(judged.starts_with(&[&most[..], b"PLAN200200\n"].concat()));
    assert_eq!(expected::verdict(judged, ROOM), Ok("YES  2    2\n".to_string()));
}

/// One state; the job a counts, and b does not.
const JOB_COUNTS: &str = "SHT-2  1  2\nN  0 a\nN  1 b\nS  0  1\nT  0  0  0  1\nT  0  1  0  0\nEND\n";

#[test]
fn a_job_counts() {
    let listing = "TRACK  1  2    2\nQ    0  3     1    1    0\nQ    1  2     1    1    0\nEND\n";
    assert_eq!(expected::listing(JOB_COUNTS.as_bytes(), ROOM), Ok(listing.to_string()));
    let with = |plan: &str| expected::verdict(format!("{JOB_COUNTS}{plan}").as_bytes(), ROOM);
    assert_eq!(with("PLAN  0  1\na\nEND\n"), Ok("YES  2    2\n".to_string()));
    assert_eq!(with("PLAN  0  1\nb\nEND\n"), Ok(" NO  3    1\n".to_string()));
    assert_eq!(with("PLAN  1  2\nb\na\nb\nEND\n"), Ok("YES  2    1\n".to_string()));
    assert_eq!(with("PLAN  2  1\na\na\nb\nEND\n"), Ok(" NO  3    2\n".to_string()));
    let s = read_sheet(JOB_COUNTS.as_bytes()).unwrap();
    assert_eq!((s.edition, s.recurring.clone(), s.marked.len()), (Edition::Marks, vec![false], 1));
    assert_eq!(write_sheet(&s, true), JOB_COUNTS.as_bytes());
}

/// The marks that count are those of set 0 before the step: 0 goes to 1 over a mark, and 1 stays without.
#[test]
fn set_0_before_the_step() {
    let file = "SHT-2  2  1\nN  0 a\nS  0  1\nS  1  0\nT  0  0  1  1\nT  1  0  1  0\nEND\n";
    let listing = "TRACK  2  1    3\nQ    0  5     1     0    1\nQ    1  2     2     0    2\nQ    2  5     2     0    2\nEND\n";
    assert_eq!(expected::listing(file.as_bytes(), ROOM), Ok(listing.to_string()));
    let input = format!("{file}PLAN  0  1\na\nEND\n");
    assert_eq!(expected::verdict(input.as_bytes(), ROOM), Ok(" NO  5    3\n".to_string()));
}

/// Questions 3, 7, 8 and 16 take the edition's form.
#[test]
fn lines_of_an_edition() {
    let file = "SHT-2  2  2\nN  0 a\nN  1 b\nS  0  1\nS  1  0\nT  0  0  0  1\nT  0  1  1  0\nEND\n";
    let with = |old: &str, new: &str| read_sheet(file.replacen(old, new, 1).as_bytes()).err();
    assert_eq!(with("", ""), None);
    for word in ["SHT-1", "SHT-3", "SHT 2", "sht-2", "SHT2-"] {
        assert_eq!(with("SHT-2", word), Some((3, 1)), "{word}");
    }
    assert_eq!(with("SHT-2", "SHEET"), Some((7, 4)));
    assert_eq!(with("SHT-2 ", "SHT-2"), Some((3, 1)));
    assert_eq!(with("SHT-2  2", "SHT-2 17"), Some((4, 1)));
    for line in ["S  0  1  0\n", "S  0  1  1\n", "S  0  2\n", "S  0\n", "S  0  1 \n", "S  0  1", "S  0 01\n", "S  1  1\n"] {
        assert_eq!(with("S  0  1\n", line), Some((7, 4)), "{line}");
    }
    for line in [
        "T  0  0  0\n", "T  0  0  0  2\n", "T  0  0  0 01\n", "T  0  0  0   \n", "T  0  0  0  x\n", "T  0  0  0  1  1\n", "T  0  0  0  1 \n", "T  0  0  0  1", "T  0  0  2  1\n",
        "T  0  2  0  1\n", "T  2  0  0  1\n", "T  1  0  0  1\nT  0  1  1  0",
    ] {
        let at = if line.starts_with("T  1") { 7 } else { 6 };
        assert_eq!(with("T  0  0  0  1\n", line), Some((8, at)), "{line}");
    }
    for both in ["T  0  0  0  0\nT  0  0  0  1\n", "T  0  0  0  1\nT  0  0  0  0\n", "T  0  0  0  1\nT  0  0  0  1\n"] {
        assert_eq!(with("T  0  0  0  1\n", both), Some((8, 7)));
    }
    assert_eq!(with("T  0  0  0  1\n", "T  0  0  0  1\nT  0  0  1  1\n"), None);
    assert_eq!(with("S  0", "W  0  1\nS  0"), Some((16, 7)));
    let plain = "SHEET  1  1\nN  0 a\nS  0  1  0\nT  0  0  0\nEND\n";
    let with = |old: &str, new: &str| read_sheet(plain.replacen(old, new, 1).as_bytes()).err();
    assert_eq!(with("", ""), None);
    assert_eq!(with("S  0  1  0", "S  0  1"), Some((7, 3)));
    for mark in ["  0", "  1"] {
        assert_eq!(with("T  0  0  0", &format!("T  0  0  0{mark}")), Some((8, 4)));
    }
    assert_eq!(with("SHEET", "SHT-2"), Some((7, 3)));
}

/// A sheet of any family for a seed, with must-recur states.
fn any(r: &mut Random, seed: u64) -> Sheet {
    match seed % 4 {
        0 | 1 => families::sheet(r, 6),
        2 => families::with_dead_ends(r, 6),
        _ => {
            let s = families::sheet(r, 6);
            families::withdrawn(r, s)
        }
    }
}

/// A mark on every transition into a must-recur state: the very same listing, and the same plans pass.
#[test]
fn the_same_listing() {
    let mut compared = 0;
    for seed in 0..3000 {
        let mut r = Random::new(seed);
        let s = any(&mut r, seed);
        let marked = with_marks(&s);
        assert_eq!(walks::shortest_meeting(&s), walks::shortest_meeting(&marked));
        if walks::shortest_meeting(&s).is_some() {
            continue;
        }
        let Some(t) = tuples::build(&s, ROOM) else { continue };
        let u = tuples::build(&marked, ROOM).unwrap();
        assert_eq!(tuples::listing(&s, &t), tuples::listing(&marked, &u));
        for _ in 0..4 {
            let p = families::plan(&mut r, s.k);
            assert_eq!(tuples::verdict(&t, &p), tuples::verdict(&u, &p));
            assert_eq!(product::passes(&s, &p), product::passes(&marked, &p));
        }
        compared += 1;
    }
    assert!(compared > 2000, "{compared}");
}

/// Some reading takes marked transitions without end: one that is reached and leads back to where it starts. Where something leads is found
/// through no place in between, then through the first, and so on.
fn leads_back(s: &Sheet, p: &Plan) -> bool {
    let letters = [&p.lead[..], &p.cycle].concat();
    let after = |t: usize| if t + 1 == letters.len() { p.lead.len() } else { t + 1 };
    let places = letters.len() * s.n;
    let mut leads = vec![vec![false; places]; places];
    let mut marked = Vec::new();
    for (q, l, to) in s.transitions() {
        for t in (0..letters.len()).filter(|t| letters[*t] == l) {
            let (x, y) = (t * s.n + q, after(t) * s.n + to);
            leads[x][y] = true;
            if s.marked.contains(&(q, l, to)) {
                marked.push((x, y));
            }
        }
    }
    for between in 0..places {
        for x in 0..places {
            for y in 0..places {
                leads[x][y] |= leads[x][between] && leads[between][y];
            }
        }
    }
    let reached = |x: usize| (0..s.n).any(|q| s.initial[q] && (x == q || leads[q][x]));
    marked.iter().any(|(x, y)| reached(*x) && (x == y || leads[*y][*x]))
}

/// Tuples, the product, paths, the sheet with must-recur states that has the same readings, and Safra's automaton agree.
#[test]
fn judges_of_marks_agree() {
    let (mut compared, mut judged, mut passed) = (0, 0, 0);
    for seed in 0..1600 {
        let mut r = Random::new(seed);
        let plain = any(&mut r, seed);
        let s = families::marked(&mut r, &plain);
        let states = with_states(&s);
        assert_eq!((states.n, states.edition), (2 * s.n, Edition::States));
        assert_eq!(walks::shortest_meeting(&states).is_some(), walks::shortest_meeting(&s).is_some());
        for _ in 0..2 {
            let p = families::plan(&mut r, s.k);
            let yes = product::passes(&s, &p);
            assert_eq!(product::passes(&states, &p), yes);
            if p.lead.len() + p.cycle.len() < 12 {
                assert_eq!(leads_back(&s, &p), yes);
            }
        }
        if walks::shortest_meeting(&s).is_some() {
            continue;
        }
        let Some(mut t) = tuples::build(&s, ROOM) else { continue };
        let of_states = tuples::build(&states, 20 * ROOM);
        for _ in 0..5 {
            let p = families::plan(&mut r, s.k);
            let yes = tuples::verdict(&t, &p).0;
            assert_eq!(yes, product::passes(&s, &p));
            if let Some(u) = &of_states {
                assert_eq!(tuples::verdict(u, &p).0, yes);
            }
            judged += 1;
            passed += yes as usize;
        }
        let Some(d) = safra::rabin(&states, 2000) else { continue };
        if let Some(same) = equal::same_sequences(&t, &d, 200_000) {
            assert!(same, "{}", String::from_utf8_lossy(&write_sheet(&s, false)));
            compared += 1;
            // Where every verdict is the other one, the comparison sees it.
            t.tuples.iter_mut().for_each(|u| u.colour += 1);
            assert_eq!(equal::same_sequences(&t, &d, 200_000), Some(false));
        }
    }
    assert!(compared > 700 && passed > 500 && judged - passed > 500, "{compared}, {judged}, {passed}");
}

/// Written files are read as the sheet that they were written from, in either edition; what is damaged is another sheet or none.
#[test]
fn written_and_read() {
    let mut refused = [0; 17];
    for seed in 0..2000 {
        let mut r = Random::new(seed);
        let plain = any(&mut r, seed);
        let s = families::marked(&mut r, &plain);
        for sheet in [&plain, &s, &with_marks(&plain)] {
            let file = write_sheet(sheet, false);
            match read_sheet(&file) {
                Ok(again) => assert_eq!(&again, sheet),
                Err(no) => assert_eq!(no.0, 16),
            }
            let damaged = families::edition_damaged(&mut r, &file);
            match read_sheet(&damaged) {
                Ok(again) => assert_eq!(write_sheet(&again, false), damaged),
                Err(no) => refused[no.0 as usize] += 1,
            }
        }
    }
    assert!([3, 7, 8].iter().all(|x| refused[*x] > 100), "{refused:?}");
}
